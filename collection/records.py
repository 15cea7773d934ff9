"""The command record: whether a design beats what the book of balancers has, and the table of what it has.

A record is the layout of fewest tiles that is known of a kind of balancers, from so many inputs to so many outputs,
with its ends side by side; of as many tiles that of fewest splitters."""

import argparse
import sys
import tempfile
from pathlib import Path

from . import files, inputs, known
from .built import KINDS, Laid, Maker
from .command import ENDED_WELL, FAILED
from .design import read
from .program import NoProgram, find

TOP = Path(__file__).resolve().parent.parent
BOOK, PAGE = TOP / "examples" / "balancers" / "book.txt", TOP / "docs" / "RECORDS.md"
HEAD = """# Records

The layouts of fewest tiles that are known, of basic belts with inputs side by side at one edge and outputs at the edge
across: tiles, and splitters in brackets. Each is in `examples/balancers`, with its certificates. A smaller one is
welcome: `tools/record DESIGN` says whether yours is one, and decides what it promises. A row is of as many inputs, a
column of as many outputs.
"""
LINES = range(1, 9)


def kinds_of(label):
    """The kinds of balancers that a label of the book names."""
    names = label.partition(" to ")[2].partition(" ")[2].split(", ")
    kinds = [kind for kind, it in KINDS.items() if it["label"] in names]
    return ["output", *kinds] if "balanced" in kinds else kinds


def records_of(book):
    """The fewest tiles, and splitters, of each kind and numbers of ends in the designs of a book."""
    records = {}
    for it in book:
        label = it.label()
        inputs_, _, outputs = label.split(" ")[:3]
        left, top, right, bottom = (design := read(it.text)).box()
        size = (right - left + 1) * (bottom - top + 1), sum(part.kind == "splitter" for part in design.parts)
        for kind in kinds_of(label):
            place = kind, int(inputs_), int(outputs)
            records[place] = min(size, records.get(place, size))
    return records


def page_of(records):
    """The page of the records."""
    lines = [HEAD]
    for kind, it in KINDS.items():
        lines.append(f"## {it['label'][0].upper()}{it['label'][1:]}\n\n{it['says'][0].upper()}{it['says'][1:]}.\n")
        lines.append(f"| | {' | '.join(map(str, LINES))} |\n|{'---|' * (len(LINES) + 1)}")
        for n in LINES:
            told = (records.get((kind, n, m)) for m in LINES)
            lines.append(f"| {n} | {' | '.join('{} ({})'.format(*it) if it else '' for it in told)} |")
        lines.append("")
    return "\n".join(lines)


def lines_about(maker, text, records):
    """What is said of a design, a line for each kind that it is, and whether it beats one."""
    found = known.known_of(maker, text)
    if found is None:
        return ["no record: it is refused, or its ends don't stand side by side at the south and the north"], False
    size, lines, beats = (found.cells, Laid(found.network).splitters), [], False
    for kind, it in KINDS.items():
        if not maker.has(found.network, it["properties"]):
            continue
        now = records.get((kind, *found.ends))
        is_better = now is None or size < now
        beats |= is_better
        told = "none is known" if now is None else "{} tiles, {} splitters are known".format(*now)
        word = "a record" if is_better else "no record"
        ends = "{} to {}".format(*found.ends)
        lines.append(f"{word}: {ends} {it['label']} in {size[0]} tiles, {size[1]} splitters; {told}")
    return lines or ["no record: it is no balancer of a kind of the book"], beats


def words_of(arguments):
    """What the words ask for."""
    parser = argparse.ArgumentParser(prog="tools/record", allow_abbrev=False, description=__doc__.split("\n\n")[0])
    parser.add_argument("design", nargs="?", help="a blueprint, as bin/collection takes it")
    parser.add_argument("--table", action="store_true", help="write docs/RECORDS.md after the book, and nothing else")
    parser.add_argument("--program", metavar="FILE", help="the program to run, in place of that of bin/beltproof")
    asked = parser.parse_args(arguments)
    if (asked.design is None) != asked.table:
        parser.error("a design, or --table")
    return asked


def main(arguments):
    asked = words_of(arguments)
    records = records_of(inputs.designs_of([str(BOOK)]))
    if asked.table:
        files.write(PAGE, page_of(records))
        return ENDED_WELL
    try:
        texts = [it.text.decode("utf-8") for it in inputs.designs_of([asked.design]) if it.is_json()]
        beats = False
        with tempfile.TemporaryDirectory() as room:
            maker = Maker(find(asked.program), room, 0)
            for text in texts:
                lines, is_better = lines_about(maker, text, records)
                beats |= is_better
                print("\n".join(lines))
        return ENDED_WELL if beats else FAILED
    except (NoProgram, inputs.NotThere) as reason:
        print(f"tools/record: {reason}", file=sys.stderr)
        return FAILED
