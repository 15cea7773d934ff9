"""The words and numbers that these tools and the page share: one file of data, which both read."""

import json
from pathlib import Path

WORDS = json.loads(Path(__file__).with_name("words.json").read_text("utf-8"))
PROPERTIES = tuple(it["name"] for it in WORDS["properties"])
LATER = {it["name"] for it in WORDS["properties"] if it.get("later")}
"""The properties that earlier programs don't know."""
UNIVERSAL = WORDS["universal"]
"""What the field calls universal: which properties that takes, and how it is told."""
CLAIMING, OF_ENDS, NUMBERS = WORDS["claiming"], WORDS["ends"], WORDS["numbers"]


def of_properties(member):
    """What is told of each property under this name."""
    return {it["name"]: it[member] for it in WORDS["properties"]}
