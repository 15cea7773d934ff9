"""Blueprint books: the text of each design in a book, byte for byte, with its place there.

A book is walked member by member, without recursion, so that its depth is no matter; each other value is passed over
by the standard library's reader. So each design's text stays what it was, faults and all, for the program to judge."""

import json
import re
from dataclasses import dataclass, field

from .files import INPUTS, short
from .words import NUMBERS

MOST_NESTED, MOST_DESIGNS = NUMBERS["most_nested"], NUMBERS["most_designs"]
"""How many books stand in one another at most, and how many designs are read."""
LONGEST_LABEL, LONGEST_PATH = NUMBERS["longest_label"], NUMBERS["longest_path"]
"""How many signs a label has, and the labels of the books around a design together, at most."""
MOST_INDEX = 10**9

BLANKS = re.compile(r"[ \t\n\r]*")
DECODER = json.JSONDecoder(strict=False)


class Fault(Exception):
    """What is wrong with a book's text, in words."""


@dataclass
class Book:
    """A book, or an entry of one: where it stands and what it is called."""

    parent: "Book | None"
    number: int
    """The number of its place, as the book that it stands in tells it; where it doesn't, counted from 1."""
    label: str | None = None

    def above(self):
        """The books that this one stands in, from the outermost on, and itself."""
        line, book = [], self
        while book is not None:
            line.append(book)
            book = book.parent
        return line[::-1]


@dataclass
class Entry:
    """What stands in a book, or alone, and is no book: its text, and its own label."""

    book: Book | None
    number: int
    text: str
    label: str | None
    kind: str = ""
    """What it is where it is no design: a planner, or an empty slot; of what may be a design, nothing."""

    def path(self):
        """The labels of the books around it, but for the outermost, and its own; where one has none, or all
        together are too long, the numbers of these."""
        books = self.book.above()[1:] if self.book else []
        long = sum(len(it.label or "") for it in books) > LONGEST_PATH
        names = [str(it.number) if long else it.label or str(it.number) for it in books]
        return [*names, self.label or str(self.number)]

    def place(self):
        """The numbers of the books around it and its own."""
        books = self.book.above()[1:] if self.book else []
        return [it.number for it in [*books, self]] if self.book else []

    def title(self):
        """The label of the outermost book."""
        return self.book.above()[0].label if self.book else None


@dataclass
class Reader:
    """A place in a text of JSON."""

    text: str
    at: int = 0
    found: list = field(default_factory=list)

    def sign(self):
        """The next character that isn't blank."""
        self.at = BLANKS.match(self.text, self.at).end()
        return self.text[self.at : self.at + 1]

    def expect(self, sign):
        if self.sign() != sign:
            raise Fault(f"the text is damaged at character {self.at}: {sign} is expected there")
        self.at += 1

    def value(self):
        """The value that stands here; the reader goes past it."""
        self.sign()
        try:
            value, self.at = DECODER.raw_decode(self.text, self.at)
        except RecursionError:
            raise Fault(f"the value at character {self.at} is nested too deep") from None
        except ValueError as fault:
            raise Fault(f"the text is damaged in the value at character {self.at} ({fault})") from None
        return value

    def parts(self, opening, closing):
        """Stops at each item of the list or object that stands here; who asks goes past the item."""
        self.expect(opening)
        if self.sign() != closing:
            yield
            while self.sign() != closing:
                self.expect(",")
                yield
        self.expect(closing)

    def members(self):
        """The name of each member of the object that stands here; who asks goes past the value."""
        for _ in self.parts("{", "}"):
            name = self.value()
            self.expect(":")
            yield name


def label_of(value):
    label = value.get("label") if isinstance(value, dict) else None
    return short(label.strip(), LONGEST_LABEL) if isinstance(label, str) and label.strip() else None


def index_of(value, number):
    """The number of a place that a member `index` tells, or where that is none, this one."""
    return value if isinstance(value, int) and not isinstance(value, bool) and 0 <= value <= MOST_INDEX else number


PLANNERS = {"deconstruction_planner", "upgrade_planner"}


def kind_of(names):
    """What an entry of a book with members of these names is, where it is no design."""
    return "planner" if names & PLANNERS else "empty slot" if not names - {"index", "active_index"} else ""


def entry(reader, book, number, depth):
    """Reads one entry: a design, a book, or what is neither."""
    reader.sign()
    start, label, held, names = reader.at, None, None, set()
    if reader.sign() != "{":
        reader.value()
    else:
        for name in reader.members():
            names.add(name)
            if name == "blueprint_book" and reader.sign() == "{":
                held = Book(book, number)
                yield pages(reader, held, depth + 1)
                continue
            value = reader.value()
            label = label_of(value) or label
            number = index_of(value, number) if name == "index" else number
            if held:
                held.number = number
    if not held:
        if len(reader.found) >= MOST_DESIGNS:
            raise Fault(INPUTS["designs"].format(MOST_DESIGNS))
        kind = kind_of(names) if book else ""
        reader.found.append(Entry(book, number, reader.text[start : reader.at], label, kind))


def pages(reader, book, depth):
    """Reads a book: its label, and its entries."""
    if depth > MOST_NESTED:
        raise Fault(f"more than {MOST_NESTED} books stand in one another")
    for name in reader.members():
        if name == "blueprints" and reader.sign() == "[":
            for number, _ in enumerate(reader.parts("[", "]"), 1):
                yield entry(reader, book, number, depth)
        else:
            value = reader.value()
            if name == "label" and isinstance(value, str) and value.strip():
                book.label = short(value.strip(), LONGEST_LABEL)


def end_of_value(text):
    """Where the value ends with which a text begins; where it is damaged, the text's end."""
    reader = Reader(text)
    try:
        reader.value()
    except Fault:
        return len(text)
    return reader.at


def entries(text):
    """The entries of a text of JSON, and what is wrong with the text, or None. Those before the fault are told too."""
    reader = Reader(text)
    open_tasks = [entry(reader, None, 1, 0)]
    try:
        while open_tasks:
            inner = next(open_tasks[-1], None)
            if inner is None:
                open_tasks.pop()
            else:
                open_tasks.append(inner)
        if reader.sign():
            raise Fault(f"more follows at character {reader.at}, where the text's value ends")
    except Fault as fault:
        return reader.found, str(fault)
    return reader.found, None
