"""Designs as they are published, made of the examples: without their end belts, or with one of them taken away."""

import json

from .. import design, strings, trace
from ..books import entries
from . import BOOK, EXAMPLES


def designs():
    """The examples with splitters whose ends are all there: the name of each, and its text."""
    found = [(it.stem, it.read_text("utf-8")) for it in sorted(EXAMPLES.glob("*.json"))]
    found += [("/".join(it.path()), it.text) for it in entries(strings.inflate(BOOK.read_text("utf-8")).decode())[0]]
    for name, text in found:
        try:
            if "missing" not in name and "filter" not in name and traced(text)[1].splitters:
                yield name, text
        except trace.Untraced:
            continue


def traced(text):
    """A design's parts, and the network that they form."""
    parts = design.read(text).parts
    return parts, trace.Layout(parts).network()


def without(text, gone):
    """A design without the entities of some parts."""
    root = json.loads(text)
    there = root["blueprint"]["entities"]
    root["blueprint"]["entities"] = [it for number, it in enumerate(there) if number not in gone]
    return json.dumps(root)


def trimmed(text, undergrounds=False):
    """A design without the belts between its ends and their first splitters or undergrounds, or without undergrounds
    there either."""
    kept = ("splitter",) if undergrounds else ("splitter", "entrance", "exit")
    parts, network = traced(text)
    gone = set()
    for edge in network.edges:
        run = [parts[half.part] for _, half in edge.run]
        for end, way in ((edge.source, run), (edge.target, run[::-1])):
            count = next((k for k, it in enumerate(way) if it.kind in kept), len(way))
            gone.update(it.entity for it in way[:count] if end[0] != "s")
    return without(text, gone)


def with_one_missing(text):
    """A design without one of the belts at its ends, for each of them."""
    parts, network = traced(text)
    for half in sorted({*network.inputs, *network.outputs}, key=lambda it: it.part):
        if parts[half.part].kind == "belt":
            yield without(text, {parts[half.part].entity})
