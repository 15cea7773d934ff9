"""The command balancers: a book of balancers, each built, laid out with its ends side by side, and proved.

It asks the program for a network of each kind (`build`), decides it, and lays it out in smaller and smaller rectangles,
in rounds of more and more steps, until the time for each is spent; where no layout with its ends side by side is found,
with inputs and outputs at two sides, and then with ends anywhere. What is known stands in a record, so it stops and
goes on; after each round the book is written anew. The report of the book is that of bin/collection, with all
certificates."""

import argparse
import json
import signal
import sys
from dataclasses import asdict
from pathlib import Path

from . import files, inputs, known, report, running, strings
from .answers import Limits
from .built import (
    FIRST_STEPS, KINDS, MOST_STEPS, TIMES_STEPS, Balancer, Laid, Maker, Unbuilt, is_least, is_over, labelled, same
)
from .command import ENDED_WELL, FAILED, STOPPED, at_least, listed
from .program import NoProgram, find
from .rows import Row
from .words import PROPERTIES, WORDS
from .work import Worker

OF_BOOK = WORDS["balancers"]
PAGE = "README.md"
MOST_KEPT = 1_000_000
"""How many bytes the certificates have in all that are kept beside a book."""
ALL = "all six"
"""What the table says of one that has each property."""
MOST_LINES = 8
"""Of how many inputs and outputs a balancer of the book is at most."""
RECORD, BOOK, BOOK_JSON, TABLE = "balancers.json", "book.txt", "book.json", "table.tsv"
COLUMNS = "kind inputs outputs splitters width height cells ends least".split()


def read(folder, program):
    """The balancers that a record tells of, by their kind and ends, where it is of the same program."""
    try:
        told = json.loads((folder / RECORD).read_text("utf-8"))
        if told["program"] != program.digest:
            return {}
        them = [Balancer(**{**it, "laid": [Laid(**one) for one in it["laid"]]}) for it in told["balancers"]]
    except (OSError, ValueError, KeyError, TypeError, RecursionError):
        return {}
    return {(it.kind, it.inputs, it.outputs): it for it in them}


def write(folder, program, them):
    """Writes the record, the book and the table."""
    told = {"program": program.digest, "balancers": [asdict(it) for it in them]}
    files.write(folder / RECORD, json.dumps(told, indent=1) + "\n")
    shown = [it for it in them if it.size and it.is_other]
    text = json.dumps(book_of(shown), separators=(",", ":"), ensure_ascii=False)
    files.write(folder / BOOK_JSON, text + "\n")
    files.write(folder / BOOK, strings.deflate(text.encode()) + "\n")
    files.write(
        folder / TABLE,
        "".join(
            "\t".join(map(str, it)) + "\n"
            for it in [COLUMNS, *(line_of(it) for it in them if it.is_built and it.is_other)]
        ),
    )


def line_of(balancer):
    """A balancer's line of the table."""
    laid = balancer.laid[balancer.which] if balancer.laid else None
    size = balancer.size or ["", ""]
    told = "" if balancer.size is None else "none smaller" if is_least(balancer) else ""
    return [
        balancer.kind,
        balancer.inputs,
        balancer.outputs,
        laid.splitters if laid else "none known",
        *size,
        balancer.cells or "",
        balancer.form if balancer.size else "",
        told,
    ]


def book_of(them):
    """The book of those that are laid out, each with its label and what it is in words."""
    words = OF_BOOK
    blueprints = []
    for at, it in enumerate(them):
        laid = it.laid[it.which]
        stands = words["forms"][it.form]["says"]
        described = words["described"].format(it.says(), files.counted(laid.splitters, "splitter"), *it.size, stands)
        blueprints.append({**json.loads(labelled(it.blueprint, it.name, description=described)), "index": at})
    return {"blueprint_book": {
        "item": "blueprint-book", "label": words["label"], "blueprints": blueprints, "active_index": 0
    }}


def wanted(asked):
    """The balancers that are asked for, in the order of the book."""
    lines = range(1, asked.most + 1)
    return [(kind, n, m) for kind in KINDS if kind in asked.kinds for n in lines for m in lines]


def words_of(arguments):
    """What the words ask for."""
    parser = argparse.ArgumentParser(
        prog="balancers",
        allow_abbrev=False,
        description="Makes a book of balancers: each built, laid out with inputs side by side at the south and outputs "
        "at the north where such a layout is found, and proved. Stopped and started again, it goes on.",
    )
    parser.add_argument("-o", "--output", metavar="FOLDER", required=True, help="where the book and its report go")
    parser.add_argument("--most", type=at_least(1), default=MOST_LINES, help="of how many inputs and outputs at most")
    told = f"which kinds, with commas between: {', '.join(KINDS)}; by default all"
    parser.add_argument("--kinds", type=listed(KINDS), default=list(KINDS), help=told)
    told = "how many seconds of a processor are spent on the layouts of each balancer, those of before counted"
    parser.add_argument("--seconds", type=at_least(0, float), default=60, help=told)
    parser.add_argument("--jobs", type=at_least(1), default=2, help="how many balancers are laid out at once")
    told = "known designs, as bin/collection takes them: what is better is taken into the book, turned round too"
    parser.add_argument("--designs", metavar="PATH", action="append", default=[], help=told)
    parser.add_argument("--keep", metavar="FOLDER", help="puts the book, its table and its certificates there too")
    parser.add_argument("--program", metavar="FILE", help="the program to run, in place of that of bin/beltproof")
    return parser.parse_args(arguments)


def mark_other(them):
    """Marks which balancers are other networks than those of a kind before: a kind that promises more stands only
    there."""
    for at, balancer in enumerate(them):
        before = [it for it in them[:at] if (it.inputs, it.outputs) == (balancer.inputs, balancer.outputs)]
        first = next((it for it in before if it.is_other and is_same(it, balancer)), None)
        balancer.is_other, balancer.also = first is None, []
        if first:
            first.also.append(balancer.kind)


def is_same(one, other):
    """Whether two balancers have a network in common, and where the first is laid out, that one; of the first such
    networks alone are kept, so that it is both."""
    both = [it for it in one.laid if any(same(it.network, its.network) for its in other.laid)]
    if not both or one.size and one.laid[one.which] not in both:
        return False
    one.which, one.laid = both.index(one.laid[one.which]) if one.size else 0, both
    return True


def make(asked, program):
    """Builds all that is asked for, and lays it out in rounds: each kind once when it is built, and then all
    together."""
    folder = Path(asked.output)
    folder.mkdir(parents=True, exist_ok=True)
    texts = designed_in(asked.designs)
    maker, kept = Maker(program, folder, asked.seconds), read(folder, program)
    asked_for = set(wanted(asked))
    # What the record tells besides stays in the book.
    places = sorted({*kept, *asked_for}, key=lambda it: (list(KINDS).index(it[0]), *it[1:]))
    them = [kept.get(it) or Balancer(*it) for it in places]
    own = [balancer for it, balancer in zip(places, them) if it in asked_for]
    for kind in asked.kinds:
        of_kind = sorted((it for it in own if it.kind == kind), key=lambda it: it.inputs + it.outputs)
        for it in of_kind:
            if not it.is_built:
                maker.build(it)
                say(f"{it.name}: {count_of(it)}")
                write(folder, program, them)
        for it in known.take_all(maker, of_kind, texts):
            say(f"{it.name}: {'{} x {}'.format(*it.size)}, a design that is known")
            write(folder, program, them)
        mark_other(them)
        lay_all(maker, asked.jobs, them, of_kind, FIRST_STEPS)
    lay_all(maker, asked.jobs, them, own, MOST_STEPS)
    write(folder, program, them)
    return [it for it in them if it.laid and it.is_other]


def designed_in(paths):
    """The texts of the blueprints in these files, folders and strings."""
    return [it.text.decode("utf-8") for it in inputs.designs_of(paths) if it.is_json()] if paths else []


def count_of(balancer):
    """How many networks there are of a balancer, in words."""
    if not balancer.laid:
        return "none is known"
    return f"{files.counted(len(balancer.laid), 'network')} of {files.counted(balancer.laid[0].splitters, 'splitter')}"


def lay_all(maker, jobs, them, wanted_, most_steps):
    """Lays out these balancers, so many at once, in rounds of up to so many steps, until their time is spent or nothing
    better is left; those of few splitters first."""
    steps = FIRST_STEPS
    while steps <= most_steps:
        left = [it for it in wanted_ if it.laid and it.is_other and it.seconds < maker.seconds and not is_over(it)]
        if not left:
            return
        tasks = [
            (it.name, (lay, maker, them, it))
            for it in sorted(left, key=lambda it: it.laid[0].splitters)
            if it.steps <= steps
        ]
        running.run_all(tasks, jobs, maker.program)
        steps *= TIMES_STEPS


def lay(maker, them, balancer):
    """Lays out a balancer for a round, and writes all anew."""
    maker.lay(balancer, maker.seconds)
    with maker.guard:
        write(maker.folder, maker.program, them)
    size = "no layout yet"
    if balancer.size:
        size = f"{'{} x {}'.format(*balancer.size)}, {files.counted(balancer.cells, 'cell')}, {told_of(balancer)}"
    say(f"{balancer.name}: {size} ({balancer.seconds:.1f} s)")


def told_of(balancer):
    """How the ends of its layout stand, in words."""
    return OF_BOOK["forms"][balancer.form]["told"]


def markdown(book, shown):
    """The page of a book that is kept: how it is used, and its table, with what each balancer is."""
    lines = []
    for it in book:
        row = shown.get(it.name)
        laid = it.laid[it.which]
        size = "{} x {}".format(*it.size)
        yes = [prop for prop in PROPERTIES if row and row.answer(prop).verdict == "yes"]
        least = OF_BOOK["least"] if is_least(it) else ""
        holds = ALL if yes == list(PROPERTIES) else ", ".join(yes)
        told = [it.name, laid.splitters, size, it.cells, told_of(it), least, holds]
        lines.append(f"| {' | '.join(map(str, told))} |")
    return "\n".join([*OF_BOOK["page"], "", *OF_BOOK["head"], *lines]) + "\n"


def keep(folder, book, shown, kept):
    """Puts the book's string, its table, and its networks and certificates into a folder, these up to so many bytes in
    all, the shortest first, in place of those that stood there of the same balancers; gives how many are left out."""
    kept.mkdir(parents=True, exist_ok=True)
    files.write(kept / BOOK, (folder / BOOK).read_bytes())
    files.write(kept / PAGE, markdown(book, shown))
    certificates, size, left = [], 0, 0
    for name, row in shown.items():
        for earlier in kept.glob(f"{files.slug(name)}.yes-*"):
            earlier.unlink()
        files.write(kept / f"{files.slug(name)}.net", row.net_text)
        told = ((prop, row.answer(prop)) for prop in PROPERTIES)
        certificates += [
            (row.folder.file(it.file), f"{files.slug(name)}.yes-{prop}") for prop, it in told if it.verdict == "yes"
        ]
    for path, name in sorted(certificates, key=lambda it: it[0].stat().st_size):
        size += path.stat().st_size
        left += size > MOST_KEPT
        if size <= MOST_KEPT:
            files.write(kept / name, path.read_bytes())
    return left


def say(words):
    print(f"balancers: {files.plain(words)}", file=sys.stderr, flush=True)


def reported(folder, program):
    """Writes the report of the book, with the certificates; gives its rows."""
    rows = [Row(it) for it in inputs.designs_of([str(folder / BOOK)])]
    output = folder / "report"
    output.mkdir(parents=True, exist_ok=True)
    running.place(rows, output)
    running.work(rows, Worker(program, Limits()), 1)
    return report.write(output, rows, program.digest)


def main(arguments):
    asked = words_of(arguments)
    # Not by way of an interrupt, which who starts this may have it ignore.
    signal.signal(signal.SIGTERM, signal.default_int_handler)
    try:
        program = find(asked.program)
        book = make(asked, program)
        shown = reported(Path(asked.output), program) if any(it.size for it in book) else []
        wrong = [row for row in shown if row.warnings]
        for row in wrong:
            say(f"{row.found.name}: {'; '.join(row.warnings)}")
        laid = sum(it.size is not None for it in book)
        if asked.keep:
            of_name = {row.found.label(): row for row in shown}
            left = keep(Path(asked.output), [it for it in book if it.size], of_name, Path(asked.keep))
            say(f"{files.counted(left, 'certificate')} of {asked.keep} left out, past {MOST_KEPT} bytes in all")
        print(f"{Path(asked.output) / BOOK}: {laid} of {len(book)} balancers are laid out")
        return FAILED if wrong else ENDED_WELL
    except KeyboardInterrupt:
        say("stopped; the same command goes on from here")
        return STOPPED
    except (NoProgram, Unbuilt) as reason:
        say(str(reason))
    except OSError as fault:
        say(f"the book can't be written: {files.plain(running.fault_of(fault))}")
    return FAILED


if __name__ == "__main__":
    sys.exit(main(sys.argv[1:]))
