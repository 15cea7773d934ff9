"""What a collection is made of: the designs in files and folders, on standard input and in words, with their names, and
what is none, and why."""

import os
import re
import stat
from collections import Counter
from dataclasses import dataclass, replace
from functools import cached_property
from itertools import chain, islice
from pathlib import Path

from . import strings
from .books import Fault, Reader, end_of_value, entries
from .files import INPUTS, counted, digest, plain
from .words import NUMBERS

MOST_READ, LONGEST_DESIGN = NUMBERS["most_read"], NUMBERS["longest_design"]
"""How many bytes a file has at most, and a design."""
MOST_BRACKETS, MOST_COMMAS = NUMBERS["most_brackets"], NUMBERS["most_commas"]
"""How many of these JSON has at most that is read."""

BLANKS = b" \t\r\n"
BYTE_ORDER_MARK = b"\xef\xbb\xbf"
FENCE = b"```"
STANDARD_INPUT = "-"
PASTED = re.compile(r"\s*(?:\{|0e[A-Za-z0-9+/\s]{18}|```)")
"""How a word begins that is a design itself, and no file's name."""
ANSWER = re.compile(rb"(?:(?:yes|no) [a-z-]+|same|differ|none)\r?\n")
"""How a certificate begins, or a state that shows the opposite: an answer of the program, and no design."""
PASSED_FOLDERS = {".git"}
REPORT = ("index.html", "results.tsv", "designs")
"""What a folder has that is a report."""
JSON_START = re.compile(rb'\{\s*"blueprint(?:_book)?"\s*:')
"""How a design of JSON begins in the midst of words."""


class NotThere(Exception):
    """Which files there aren't, a line each."""


@dataclass
class Design:
    """A design as it was found: its name, where it is from, and its text, or why there is none."""

    name: str
    source: str
    place: str
    text: bytes | None
    trouble: str | None = None
    books: str = ""
    is_passed: bool = False
    """Whether it stands for what was passed over, since it is no design."""

    def label(self):
        """Its name without those of the books around it."""
        return self.name.removeprefix(self.books + "/") if self.books else self.name

    @cached_property
    def digest(self):
        """The digest of its text, but for its place in a book; of what has no text it is empty."""
        return design_digest(self.text) if self.text is not None else ""

    def is_json(self):
        return self.text is not None and self.text.lstrip(BLANKS).startswith(b"{")

    def file(self):
        """The name of the file that the report keeps it in."""
        return "design.json" if self.is_json() else "design.net"


def shown_path(file, path):
    """A file's path as the report tells it: from the folder, or the file, that was given on."""
    told = Path(path.resolve().name, file.relative_to(path))
    return plain(os.fsencode(told).decode("utf-8", "backslashreplace"))


def without_index(text):
    """A text of JSON without the member `index` of its object, where that has one; a fault where it is damaged."""
    reader, starts, ends, found = Reader(text), [], [], []
    for _ in reader.parts("{", "}"):
        reader.sign()
        starts.append(reader.at)
        found += [len(ends)] if reader.value() == "index" else []
        reader.expect(":")
        reader.value()
        ends.append(reader.at)
    if len(found) != 1:
        return text
    (at,) = found
    if at:
        return text[: ends[at - 1]] + text[ends[at] :]
    return text[: starts[0]] + text[starts[1] if len(starts) > 1 else ends[0] :]


def design_digest(data):
    """A design's digest: that of its text without the number of its place in a book, which makes it no other design."""
    if data.lstrip(BLANKS).startswith(b"{"):
        try:
            return digest(without_index(data.decode("utf-8", "surrogateescape")).encode("utf-8", "surrogateescape"))
        except Fault:
            pass
    return digest(data)


def is_passed_over(folder, but):
    """Whether nothing in a folder is read: it is this one, a report, or what git keeps."""
    report = all(Path(folder, name).exists() for name in REPORT)
    return report or folder.name in PASSED_FOLDERS or folder.resolve() == but


def files_in(path, but):
    """The files of a folder and of those in it, in order, but for folders that are passed over; what can't be listed,
    too, with the reason."""
    faults = []
    for folder, folders, names in os.walk(path, onerror=lambda fault: faults.append((fault.filename, fault))):
        folders[:] = sorted(name for name in folders if not is_passed_over(Path(folder, name), but))
        yield from ((Path(folder, name), None) for name in sorted(names))
    yield from ((Path(name), fault) for name, fault in faults)


def read_file(path):
    """A file's bytes; OSError where it is no file, or too long."""
    descriptor = os.open(path, os.O_RDONLY | os.O_NONBLOCK)
    with os.fdopen(descriptor, "rb") as file:
        if not stat.S_ISREG(os.fstat(descriptor).st_mode):
            raise OSError("it is no file")
        data = file.read(MOST_READ + 1)
    if len(data) > MOST_READ:
        raise OSError(f"it is longer than {MOST_READ // 2**20} MB")
    return data


def from_json(data, name, source):
    """The designs in a text of JSON: itself, or those of a book."""
    if data.count(b"{") + data.count(b"[") > MOST_BRACKETS or data.count(b",") > MOST_COMMAS:
        return [Design(name, source, "", None, INPUTS["brackets"].format(MOST_BRACKETS, MOST_COMMAS))]
    text = data.decode("utf-8", "surrogateescape")
    found, fault = entries(text)
    if fault and not any(it.book for it in found):
        # No book: the program tells what is wrong with the text.
        return [bounded(Design(name, source, "", data))]
    if not found:
        return [Design(name, source, "", None, "it is a book in which nothing stands")]
    title = f"{source}, {plain(found[0].title())}" if found and found[0].title() else source
    designs, passed = [], Counter(it.kind for it in found if it.kind)
    for it in (it for it in found if not it.kind):
        whole = it.text.encode("utf-8", "surrogateescape")
        *books, label = map(plain, it.path() if it.book or it.label else [name])
        place = ".".join(map(str, it.place()))
        text = whole if it.book else data
        designs.append(bounded(Design("/".join([*books, label]), title, place, text, books="/".join(books))))
    if passed:
        told = " and ".join(counted(number, kind) for kind, number in passed.items())
        designs.append(Design(f"{name}: no designs", title, "", None, f"passed over: {told}", is_passed=True))
    if fault:
        designs.append(Design(f"{name}: the rest", title, "", None, f"{fault}, and what stands behind isn't read"))
    return designs


def bounded(design):
    """A design, or where its text is too long, that it is."""
    if len(design.text) <= LONGEST_DESIGN:
        return design
    return replace(design, text=None, trouble=INPUTS["design"].format(LONGEST_DESIGN // 2**20))


def from_strings(text, name, source):
    """The designs of the blueprint strings in a text."""
    designs, line, at, found = [], 1, 0, strings.find(text)
    first = list(islice(found, 2))
    for it in chain(first, found):
        line, at = line + text.count("\n", at, it.start), it.start
        called = name if len(first) == 1 else f"{name}, line {line}"
        if it.trouble:
            designs.append(Design(called, source, "", None, it.trouble))
        elif not it.data.lstrip(BLANKS).startswith(b"{"):
            designs.append(Design(called, source, "", None, "the string holds no object of JSON"))
        else:
            designs += from_json(it.data, called, source)
    return designs


def unfenced(data):
    """A text without the fences around it and in it."""
    lines = data.splitlines(keepends=True)
    return b"".join(line for line in lines if not line.lstrip(BLANKS).startswith(FENCE))


def from_bytes(data, name, source):
    """The designs in a file's bytes."""
    data = data.removeprefix(BYTE_ORDER_MARK)
    data = unfenced(data) if data.lstrip(BLANKS).startswith(FENCE) else data
    front = data.lstrip(BLANKS)
    if front.startswith(b"{"):
        return from_json(data, name, source)
    if front.split(None, 1)[:1] == [b"net"]:
        return [bounded(Design(name, source, "", data.replace(b"\r\n", b"\n")))]
    found = from_strings(data.decode("ascii", "replace"), name, source)
    begin = JSON_START.search(data)
    if not found and begin:
        found = from_json(unworded(data[begin.start() :]), name, source)
    return found or [Design(name, source, "", None, "it is no blueprint string, no JSON and no network text")]


def unworded(data):
    """A text of JSON without the words behind it, where it can be told where they begin."""
    text = data.decode("utf-8", "surrogateescape")
    return text[: end_of_value(text)].encode("utf-8", "surrogateescape")


def in_path(path, but):
    """The designs of a file, or of the files in a folder, but for one folder."""
    for file, fault in files_in(path, but) if path.is_dir() else [(path, None)]:
        inside = path.is_dir() and file != path
        name = plain(file.relative_to(path).with_suffix("").as_posix() if inside else file.stem)
        try:
            if fault:
                raise fault
            data = read_file(file)
            if not (inside and ANSWER.match(data)):
                yield from from_bytes(data, name, shown_path(file, path))
        except OSError as reason:
            why = f"it can't be read: {reason.strerror or reason}"
            yield Design(name, shown_path(file, path), "", None, why)


def is_pasted(word):
    """Whether a word is a design itself."""
    return not os.path.lexists(word) and PASTED.match(word) is not None


def from_standard_input():
    """The designs on standard input."""
    name, why = "standard input", f"it is longer than {MOST_READ // 2**20} MB"
    try:
        with open(0, "rb", closefd=False) as file:
            data = file.read(MOST_READ + 1)
    except OSError as reason:
        data, why = None, f"it can't be read: {reason.strerror or reason}"
    if data is None or len(data) > MOST_READ:
        return [Design(name, name, "", None, why)]
    return from_bytes(data, name, name)


def designs_of(words, output=None):
    """The designs in files and folders, on standard input and in the words themselves, in their order; the report's own
    folder isn't read."""
    missing = [it for it in words if it != STANDARD_INPUT and not is_pasted(it) and not os.path.lexists(it)]
    if missing:
        raise NotThere("\n".join(f"{plain(it)}: there is no such file or folder" for it in missing))
    found, output = [], Path(output).resolve() if output else None
    for number, word in enumerate(words, 1):
        if word == STANDARD_INPUT:
            found += from_standard_input()
        elif is_pasted(word):
            found += from_bytes(word.encode("utf-8", "surrogateescape"), f"argument {number}", f"argument {number}")
        else:
            found += in_path(Path(word), output)
    return found
