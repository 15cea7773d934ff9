"""The command bare-ends: opens the bare halves of a design's splitters."""

import argparse
import os
import sys

from . import cleaning, design, ends, files, inputs, labels, openings, refusals, states, trace
from .command import ENDED_WELL, FAILED, PATHS, at_least, treating
from .files import counted
from .program import EXACT_STATUSES, NoProgram, find
from .words import OF_ENDS
from .work import how_it_ended


ENDS = (
    "which halves are opened: never one; those that the label tells of, as 4 to 4, or without it all where there is "
    "no input or no output (label, which is the default); or always wherever that can be done"
)


class Wrong(Exception):
    """Why nothing is written, in words."""


def words_of(arguments):
    """What the words ask for."""
    parser = argparse.ArgumentParser(
        prog="bare-ends",
        allow_abbrev=False,
        description="Opens halves of splitters to which no belt leads, as bin/collection does: by belts of the "
        "splitter's tier, straight to one cell beyond the design's border, where the network stays what it was but "
        "for this end more. Writes the design, as JSON and without what can't touch a belt, on standard output, and "
        "what it did on standard error.",
    )
    parser.add_argument("--ends", choices=openings.MODES, default="label", help=ENDS)
    parser.add_argument("--choice", type=at_least(1), metavar="NUMBER", help="which of several choices, from 1 on")
    parser.add_argument("path", nargs="?", default=inputs.STANDARD_INPUT, metavar="PATH", help=PATHS)
    treating(parser)
    parser.add_argument("--program", metavar="FILE", help="the program to run, in place of that of bin/beltproof")
    return parser.parse_args(arguments)


def design_of(path):
    """The one design that is given."""
    try:
        found = inputs.designs_of([path])
    except inputs.NotThere as missing:
        raise Wrong(str(missing)) from None
    if len(found) != 1:
        raise Wrong(f"one design is wanted, and there are {len(found)}")
    if found[0].text is None:
        raise Wrong(found[0].trouble)
    if not found[0].is_json():
        raise Wrong("a network text has no splitters to open")
    return found[0]


def asking(program):
    """What the program says of a text: its network, or its refusal."""

    def ask(text):
        with os.fdopen(os.memfd_create("recover"), "w+b") as out:
            ended = program.run(["recover"], [text.encode("utf-8", "surrogateescape")], out)
            out.seek(0)
            answer = out.read().decode("ascii", "replace")
            if ended.status not in EXACT_STATUSES or not answer:
                raise Wrong(how_it_ended(ended))
            return answer if ended.status == 0 else answer.partition("\n")[0]

    return ask


def chosen(opening, asked, label):
    """The design with the halves that are asked for; Wrong where it isn't clear which, or they can't be opened."""
    found = openings.opened(opening, asked.ends, label)
    pairs, tiles = labels.spelled(labels.told(label)), [trace.tile(it) for it in found.gaps]
    if found.ends == ends.GAP:
        raise Wrong(OF_ENDS["gap" if len(tiles) == 1 else "gaps"].format(states.together(tiles)))
    if found.ends in ends.UNJUDGED:
        said = OF_ENDS["counts"].format(pairs, labels.spelled([found.before]))
        said += OF_ENDS["could"].format(labels.spelled([found.would]))
        raise Wrong(f"{said}: {OF_ENDS[found.ends]}")
    if found.choices and (asked.choice or 0) not in range(1, len(found.choices) + 1):
        lines = (
            f"--choice {at}: {trace.spelled(it.opened)}"
            + (f" ({OF_ENDS['room'].format(trace.tile(it.lacking))})" if it.lacking else "")
            for at, it in enumerate(found.choices, 1)
        )
        raise Wrong("\n".join([OF_ENDS["several"].format(pairs, len(found.choices)), *lines]))
    found = found.choices[asked.choice - 1] if found.choices else found
    if found.is_marked:
        raise Wrong(OF_ENDS["marked"].format(trace.spelled(found.opened)))
    return found


def told(clean, opening, found):
    """What was done, in lines."""
    yield from clean.notes
    for way in opening.ways:
        if way.place in found.opened:
            yield f"opened by {counted(len(way.belts), 'belt')}: {trace.spelled([way.place])}"
    for place, why in found.unopened:
        yield f"not opened: {trace.spelled([place])}, since {why}"
    if not opening.ways:
        yield "no half of a splitter is bare"
    before, after = ("{} to {}".format(*it) for it in (found.before, found.after))
    yield f"{after}, and {before} before" if before != after else after


def main(arguments):
    asked = words_of(arguments)
    try:
        given, ask = design_of(asked.path), asking(find(asked.program))
        text = given.text.decode("utf-8", "surrogateescape")
        clean = cleaning.cleaned(text, asked.treat_as)
        opening = openings.Opening(clean.text, design.bystanders(text, asked.treat_as), ask)
        found = chosen(opening, asked, given.label())
        with open(1, "wb", closefd=False) as out:
            out.write(found.text.encode("utf-8", "surrogateescape").rstrip() + b"\n")
    except openings.Refused as refusal:
        reason = refusals.told(str(refusal), clean.text)
    except (Wrong, NoProgram) as fault:
        reason = str(fault)
    except OSError as fault:
        reason = f"the design can't be written: {fault.strerror or fault}"
    else:
        print("".join(f"bare-ends: {files.plain(it)}\n" for it in told(clean, opening, found)), end="", file=sys.stderr)
        return ENDED_WELL
    print("".join(f"bare-ends: {files.plain(it)}\n" for it in reason.split("\n")), end="", file=sys.stderr)
    return FAILED


if __name__ == "__main__":
    sys.exit(main(sys.argv[1:]))
