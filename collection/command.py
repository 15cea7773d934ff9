"""The command: its words, what they start, and what is said of it."""

import argparse
import os
import signal
import sys
from collections import Counter
from pathlib import Path

from . import built, cleaning, compare, files, inputs, labels, openings, report, running
from .answers import UNKNOWN, Limits
from .program import NoProgram, find
from .rows import LABELS, Row
from .words import PROPERTIES, UNIVERSAL, WORDS
from .work import DESIGN_JSON, DESIGN_NET, Folder, Reading, Worker, all_of

ENDED_WELL, FAILED, WRONG_WORDS, UNEXPECTED, STOPPED, UNHEARD = 0, 1, 2, 3, 130, 141
PATHS = "a file, or a folder with all that is in it; - for standard input; or a blueprint string itself"
SECONDS = "how many seconds by the clock a decision, or its check, may take"
SECONDS_TO_LAY = 10
"""How many seconds of a processor a layout is looked for of what is built, where none are given."""
MOST = 1_000_000_000
"""How much a word asks for at most."""


def at_least(least, kind=int):
    def read(word):
        value = kind(word)
        if not least <= value <= MOST:
            raise argparse.ArgumentTypeError(f"from {least} to {MOST} is wanted")
        return value

    return read


def part_of_tier(words):
    try:
        return cleaning.of_tier(words)
    except cleaning.WrongName as reason:
        raise argparse.ArgumentTypeError(str(reason)) from None


def treating(parser):
    """The word that tells for what parts of a mod are taken."""
    told = "takes the belt, underground or splitter of a mod with this name for one of this tier"
    parser.add_argument("--treat-as", metavar="NAME=TIER", action="append", default=[], type=part_of_tier, help=told)


def opening(parser):
    """The word that tells when bare halves are opened."""
    told = "opens halves of splitters to which no belt leads, by belts to the border: never; where the label tells so, "
    told += "as 4 to 4, or without it there is no input or no output (label, which is the default); or always"
    parser.add_argument("--bare-ends", choices=openings.MODES, default="label", help=told)


def listed(known):
    """Reads names out of these, or those that the field has for them, with commas between."""

    also = {name: [it["name"]] for it in WORDS["properties"] for name in it["also"]}
    also[UNIVERSAL["name"]] = UNIVERSAL["properties"]

    def read(words):
        named = [it.strip() for it in words.split(",")]
        found = [name for it in named for name in ([it] if it in known else also.get(it, [it]))]
        wrong = [it for it in found if it not in known]
        if wrong:
            raise argparse.ArgumentTypeError(f"{wrong[0]!r} is none of {', '.join(known)}")
        return list(dict.fromkeys(found))

    return read


properties = listed(PROPERTIES)


def expecting(parser):
    """The words that tell what has to hold."""
    told = f"ends with {UNEXPECTED} where a design hasn't each of these properties, with commas between"
    parser.add_argument("--expect", metavar="PROPERTIES", type=properties, action="extend", default=[], help=told)
    told = f"ends with {UNEXPECTED} where a design isn't what its label says: its ends, TU, balanced, universal"
    parser.add_argument("--expect-labels", action="store_true", help=told)


def asked_for(asked, rows):
    """The properties that are decided: those that are named, or where none has to hold, all; and those that have to
    hold."""
    claimed = {
        prop for row in rows for prop in labels.claims(row.found.label()).properties
    } if asked.expect_labels else set()
    all_of_them = () if asked.expect else PROPERTIES
    wanted = {*(asked.properties or all_of_them), *asked.expect, *claimed}
    return tuple(it for it in PROPERTIES if it in wanted)


def wish_of(parser, wish, *ends):
    """What a balancer has to have, and its numbers of ends."""
    try:
        return properties(wish), *(at_least(1)(it) for it in ends)
    except (argparse.ArgumentTypeError, ValueError) as reason:
        parser.error(f"--build: {reason}")


def built_of(asked, program, output):
    """The balancer that is asked for, as a design."""
    wish, inputs_, outputs = asked.build
    maker = built.Maker(program, output, asked.seconds or SECONDS_TO_LAY)
    text = built.designed(maker, wish, inputs_, outputs).encode()
    return inputs.Design(f"{inputs_} to {outputs}", f"built: {', '.join(wish)}", "", text)


def words_of(arguments):
    """What the words ask for."""
    parser = argparse.ArgumentParser(
        prog="collection",
        allow_abbrev=False,
        description="Decides all designs in files and folders (blueprint strings, books, JSON and network texts), and "
        "writes a report.",
    )
    parser.add_argument("paths", nargs="*", metavar="PATH", help=PATHS)
    parser.add_argument("-o", "--output", metavar="FOLDER", help="where the report goes; what is there stands")
    parser.add_argument("--jobs", type=at_least(1), default=os.cpu_count() or 1, help="how many runs there are at once")
    parser.add_argument("--seconds", type=at_least(0.001, float), help=SECONDS)
    parser.add_argument("--learnt", type=at_least(0), help="how many steps a log may have, as for decide")
    parser.add_argument("--pivots", type=at_least(0), help="how many turns there may be, as for decide")
    parser.add_argument("--smaller", action="store_true", help="looks for a smaller layout of each design laid out")
    told = "how many tiles wide a smaller layout may be at most: the shortest of that width is looked for"
    parser.add_argument("--width", type=at_least(1), metavar="W", help=told)
    told = "which properties are decided, with commas between; by default all six"
    parser.add_argument("--properties", metavar="PROPERTIES", type=properties, action="extend", default=[], help=told)
    told = "looks for layouts with inputs side by side at one side, outputs at the other; as wide as they are, "
    parser.add_argument("--side-by-side", action="store_true", help=told + "if possible")
    told = "builds a balancer from N to M with these properties, with commas between, and lays it out with its ends "
    told += f"side by side, for {SECONDS_TO_LAY} seconds or those that are given"
    parser.add_argument("--build", nargs=3, metavar=("PROPERTIES", "N", "M"), help=told)
    opening(parser)
    treating(parser)
    expecting(parser)
    parser.add_argument("--program", metavar="FILE", help="the program to run, in place of that of bin/beltproof")
    other = parser.add_mutually_exclusive_group()
    other.add_argument("--plan", action="store_true", help="prints a command for each design, and runs nothing")
    other.add_argument("--gather", action="store_true", help="makes the report of what is there, and runs nothing")
    told = "compares two reports, and writes what changed, as a page and a table"
    other.add_argument("--compare", nargs=2, metavar=("OLD", "NEW"), help=told)
    other.add_argument("--one", metavar="FOLDER", help="does the work of one design, in its folder")
    asked = parser.parse_args(arguments)
    if asked.compare:
        if asked.paths or not asked.output:
            parser.error("two reports, and -o with a folder for what changed, are wanted")
        return asked
    if not asked.one and not ((asked.paths or asked.build) and asked.output):
        parser.error("the designs and -o with the report's folder are wanted")
    if asked.build:
        asked.build = wish_of(parser, *asked.build)
        if asked.plan or asked.gather or asked.one:
            parser.error("what is built is neither planned nor gathered")
    return asked


def unexpected(rows, asked):
    """What doesn't hold of the designs that is expected, in lines."""
    for row in rows:
        if row.same_as or row.found.is_passed or row.reason() and not row.network:
            continue
        claims = labels.claims(row.found.label()).properties if asked.expect_labels else {}
        for prop in dict.fromkeys([*asked.expect, *claims]):
            if row.answer(prop).verdict != "yes":
                whence = f"its label says {claims[prop]}" if prop in claims else "expected"
                yield f"{row.found.name}: {whence}: {prop}, and the verdict is {LABELS[row.answer(prop).verdict]}"
        if asked.expect_labels and labels.told(row.found.label()) and (row.of_ends() or row.warning() or not row.net):
            yield f"{row.found.name}: {row.of_ends() or row.warning() or row.reason()}"


def say(rows, output, asked):
    """Tells what a report says; the status of a command that wrote it."""
    for row in rows:
        is_told = row.is_broken() or row.trouble or row.found.is_passed
        for it in [row.reason()] if is_told else [] if row.same_as else row.remarks():
            print(f"collection: {files.plain(f'{row.found.name}: {it}')}", file=sys.stderr)
    with_network = [row for row in rows if row.net]
    found = sum(not row.found.is_passed for row in rows)
    verdicts = Counter(row.answer(prop).verdict for row in with_network for prop in row.asked)
    told = ", ".join(f"{number} {LABELS[verdict]}" for verdict, number in verdicts.items())
    print(f"{output / 'index.html'}: {found} found, {len(with_network)} with a network{': ' * bool(told)}{told}")
    unknown = dict.fromkeys(prop for row in with_network for prop in row.asked if row.answer(prop).verdict == UNKNOWN)
    if unknown:
        print(f"collection: the program doesn't know {', '.join(unknown)}", file=sys.stderr)
    looked_for = [row.smaller.verdict for row in with_network if row.smaller]
    if looked_for and asked.side_by_side:
        print(f"{looked_for.count('found')} laid out with ends side by side")
    elif looked_for:
        kept = sum(row.smaller.sides for row in with_network if row.smaller)
        print(f"{looked_for.count('found')} with a smaller layout, of which {kept} with each end at its own side")
    broken = all(row.is_broken() or row.found.is_passed for row in rows)
    if broken:
        print("collection: there is no design in what was given", file=sys.stderr)
    failed = verdicts["failed"] or "failed" in looked_for or any(row.trouble for row in rows)
    wrong = list(unexpected(rows, asked))
    print("".join(f"collection: not as expected: {files.plain(it)}\n" for it in wrong), end="", file=sys.stderr)
    return FAILED if failed or broken else UNEXPECTED if wrong else ENDED_WELL


def one(path, worker):
    """Does the work of one design, in its folder."""
    folder = Folder(path)
    if folder.design_file() is None:
        print(f"collection: there is no design in {path}", file=sys.stderr)
        return FAILED
    file, record = folder.original_file(), folder.record
    running.clean(folder)
    name, kept = record.get("name", folder.path.name), DESIGN_NET if file.name == DESIGN_NET else DESIGN_JSON
    worker.begin(folder, name, record.get("label", name), file.read_bytes(), kept)
    failed = all_of(worker, folder)
    print("".join(f"collection: {path}: {why}\n" for why in failed), end="", file=sys.stderr)
    return FAILED if failed else ENDED_WELL


def gather(rows, output, asked):
    """Makes the report of what is there."""
    running.fill(rows)
    programs = Counter(row.folder.record.get("program", "") for row in running.own_rows(rows))
    return say(report.write(output, rows, max(programs, key=programs.get, default="")), output, asked)


def plan(rows, worker, asked):
    """Prints a command for each design that has work left."""
    for command in running.plan(rows, worker, asked):
        print(command)
    for row in rows:
        if row.trouble:
            print(f"collection: {row.found.name}: {row.trouble}", file=sys.stderr)
    return ENDED_WELL


def compared(asked):
    """Compares two reports."""
    found = compare.write(asked.output, *asked.compare)
    kinds = Counter(it.kind for it in found)
    told = ", ".join(f"{kinds[it]} {it}" for it in compare.CHANGES if kinds[it]) or "nothing has changed"
    print(f"{Path(asked.output) / compare.PAGE}: {told}")
    return ENDED_WELL


def collect(asked):
    """Does what the words ask for; the status."""
    if asked.compare:
        return compared(asked)
    worker = None
    if not asked.gather:
        limits = Limits(asked.seconds, asked.learnt, asked.pivots, asked.width, asked.side_by_side)
        is_smaller = asked.smaller or asked.side_by_side
        worker = Worker(find(asked.program), limits, is_smaller, Reading(asked.bare_ends, tuple(asked.treat_as)))
        worker.properties = asked_for(asked, [])
    if asked.one:
        return one(asked.one, worker)
    output = Path(asked.output)
    rows = [Row(it) for it in (inputs.designs_of(asked.paths, output) if asked.paths else [])]
    if asked.build:
        output.mkdir(parents=True, exist_ok=True)
        rows.append(Row(built_of(asked, worker.program, output)))
    wanted = asked_for(asked, rows)
    for row in rows:
        row.asked = wanted
    if worker:
        worker.properties = wanted
    output.mkdir(parents=True, exist_ok=True)
    running.place(rows, output)
    if asked.gather:
        return gather(rows, output, asked)
    if asked.plan:
        return plan(rows, worker, asked)
    running.work(rows, worker, asked.jobs)
    return say(report.write(output, rows, worker.program.digest), output, asked)


def main(arguments):
    asked = words_of(arguments)
    # Not by way of an interrupt, which who starts this may have it ignore.
    signal.signal(signal.SIGTERM, signal.default_int_handler)
    try:
        status = collect(asked)
        sys.stdout.flush()
        return status
    except KeyboardInterrupt:
        print("collection: stopped; the same command goes on from here", file=sys.stderr)
        return STOPPED
    except BrokenPipeError:
        # Who reads has ended, and wants no more: what is still to be written goes nowhere.
        os.dup2(os.open(os.devnull, os.O_WRONLY), sys.stdout.fileno())
        return UNHEARD
    except inputs.NotThere as missing:
        print("".join(f"collection: {line}\n" for line in str(missing).split("\n")), end="", file=sys.stderr)
    except (NoProgram, compare.NoReport, built.Unbuilt) as reason:
        print(f"collection: {reason}", file=sys.stderr)
    except OSError as fault:
        why = ": ".join(filter(None, (fault.filename and str(fault.filename), running.fault_of(fault))))
        print(f"collection: the report can't be written: {files.plain(why)}", file=sys.stderr)
    return FAILED
