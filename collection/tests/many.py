"""A book of many designs, to try a report of: the examples, each again at other places and with other labels.

    python3 -B -m collection.tests.many 300 > book.json"""

import itertools
import json
import sys

from .. import strings
from ..books import entries
from . import BOOK, EXAMPLES


def examples():
    """The blueprints of the examples, each with a name."""
    for it in sorted(EXAMPLES.glob("*.json")):
        yield it.stem, json.loads(it.read_text("utf-8"))["blueprint"]
    for it in entries(strings.inflate(BOOK.read_text("utf-8")).decode())[0]:
        yield it.label, json.loads(it.text)["blueprint"]


def moved(blueprint, by):
    """A blueprint that stands so many tiles further to the east."""
    there = [it | {"position": it["position"] | {"x": it["position"]["x"] + by}} for it in blueprint["entities"]]
    return blueprint | {"entities": there}


def book(count):
    """A book of so many designs, no two of which are the same text."""
    found = itertools.cycle(list(examples()))
    listed = []
    for number, (name, blueprint) in enumerate(itertools.islice(found, count)):
        listed.append({"index": number, "blueprint": moved(blueprint, number) | {"label": f"{name}, {number}"}})
    return {"blueprint_book": {"item": "blueprint-book", "label": f"{count} designs", "blueprints": listed}}


if __name__ == "__main__":
    json.dump(book(int(sys.argv[1])), sys.stdout)
