"""Blueprint strings: a version byte, and then, in base64, JSON that is compressed with zlib.

They are found as they are pasted: over several lines, with words or fences around them, without padding. Where a string
ends is told by what it holds, so that whatever follows is none of it."""

import base64
import re
import zlib
from dataclasses import dataclass

from .files import INPUTS
from .words import NUMBERS

MOST_INFLATED, MOST_DESIGNS = NUMBERS["most_inflated"], NUMBERS["most_designs"]
"""How many bytes a string inflates to at most, and how many strings of a text are read."""
MOST_IN_ALL, LONGEST_DESIGN = NUMBERS["most_in_all"], NUMBERS["longest_design"]
"""How many bytes all strings of a text inflate to at most, and one that is a design and no book."""
STEP = 2**18
"""How many bytes are inflated at a time."""

VERSION = "0"
SIGNS = "A-Za-z0-9+/"
BLOCK = re.compile(rf"\s*([{SIGNS}]{{1,65536}})")
START = re.compile(rf"(?<![{SIGNS}=])0(?=e[{SIGNS}]{{18}})")
"""Where a string begins in the midst of words: its content begins with zlib's own sign."""
LINE = re.compile(r"\s*(0\S*)[ \t]*\r?(?:\n|\Z)")
"""A line of one word that begins with the version byte: where a string may begin, it is one, or a damaged one."""
FIRST = re.compile(r"\s*(\d\S*)[ \t]*\r?(?:\n|\Z)")
"""The same of a text's first line: with another version byte too."""
OF_DESIGN = re.compile(rb'\s*\{\s*"blueprint"\s*:')
"""How what is a design begins, and no book."""
GOING_ON = re.compile(rf"\S*(?:\r?\n(?!0e)[{SIGNS}]{{16,}}=*(?=\s|\Z))*")
"""A string that isn't read to its end, with the lines over which it goes on."""
PADDING, SIGN, WORD = re.compile("=*"), re.compile(f"[{SIGNS}]"), re.compile(r"\S*")


class Damaged(Exception):
    """Why a text is no blueprint string, in words."""


class Dropped(Damaged):
    """Why a string isn't read to its end, in words."""


@dataclass
class Allowance:
    """How many bytes the strings of a text may still inflate to."""

    left: int = MOST_IN_ALL

    def take(self, count):
        """Takes so many; Dropped where there are fewer."""
        self.left -= count
        if self.left < 0:
            raise Dropped(INPUTS["all"].format(MOST_IN_ALL // 2**20))


@dataclass(frozen=True)
class Found:
    """A string in a text: where it begins, and what it holds, or why it is damaged."""

    start: int
    data: bytes | None
    trouble: str | None = None


def decoded(signs):
    """The bytes of base64 without its padding, of as many signs as one likes."""
    try:
        return base64.b64decode(signs + "=" * (-len(signs) % 4), validate=True)
    except ValueError as fault:
        raise Damaged(f"the string is damaged: it is no base64 ({fault})") from None


def pieces(unpacking, packed):
    """What these bytes inflate to, piece by piece."""
    while True:
        piece = unpacking.decompress(packed, STEP)
        packed = unpacking.unconsumed_tail
        yield piece
        if unpacking.eof or len(piece) < STEP and not packed:
            return


def held_at(text, start, allowance):
    """What the string that begins here holds, and where it ends."""
    if text[start : start + 1] != VERSION:
        there = repr(text[start : start + 1])
        raise Damaged(f"a blueprint string begins with {VERSION}, its version byte, and not with {there}")
    unpacking, held, size, at, rest = zlib.decompressobj(), [], 0, start + 1, ""
    while True:
        block = BLOCK.match(text, at)
        at, begin = (block.end(), block.start(1)) if block else (at, at)
        signs = rest + (block[1] if block else "")
        packed = decoded(signs[: len(signs) - (len(signs) % 4 if block else 0)])
        rest = signs[len(signs) - len(signs) % 4 :]
        try:
            for piece in pieces(unpacking, packed):
                held.append(piece)
                size += len(piece)
                allowance.take(len(piece))
                bound(size, held[0])
        except zlib.error as fault:
            raise Damaged(f"the string is damaged: it doesn't inflate ({fault})") from None
        if unpacking.eof:
            needed = -(-(len(packed) - len(unpacking.unused_data)) * 4 // 3)
            return b"".join(held), past_padding(text, max(begin, at - (len(signs) - needed)))
        if block is None:
            sign = text[at : at + 1].strip("= \t\r\n")
            why = f"it is no base64 where {sign!r} stands" if sign else "it ends too early"
            raise Damaged(f"the string is damaged: {why}")


def bound(size, begin):
    """Dropped where a string is too long that begins so."""
    if size > LONGEST_DESIGN and OF_DESIGN.match(begin):
        raise Dropped(INPUTS["design"].format(LONGEST_DESIGN // 2**20))
    if size > MOST_INFLATED:
        raise Dropped(f"the string inflates past {MOST_INFLATED // 2**20} MB")


def past_padding(text, at):
    """The place behind a string's end and its padding; a fault where more of a word stands there."""
    end = PADDING.match(text, at).end()
    if SIGN.match(text, end):
        raise Damaged("the string is damaged: more follows where its content ends")
    return end


def find(text):
    """The strings in a text, whole or damaged, in order: one at a time, so that of what is long no more is held."""
    count, at, allowance = 0, 0, Allowance()
    while True:
        line, start = (LINE if at else FIRST).match(text, at), START.search(text, at)
        if line is None and start is None:
            return
        begin = line.start(1) if line else start.start()
        if count >= MOST_DESIGNS:
            yield Found(begin, None, INPUTS["designs"].format(MOST_DESIGNS))
            return
        count += 1
        try:
            data, at = held_at(text, begin, allowance)
            found = Found(begin, data)
        except Damaged as fault:
            found = Found(begin, None, str(fault))
            at = (GOING_ON if isinstance(fault, Dropped) else WORD).match(text, begin).end()
        yield found
        if allowance.left < 0:
            return


def inflate(string):
    """The bytes that a blueprint string holds."""
    string = string.strip()
    data, end = held_at(string, 0, Allowance())
    if string[end:]:
        raise Damaged("the string is damaged: more follows where its content ends")
    return data


def deflate(data):
    """The blueprint string of these bytes."""
    return VERSION + base64.b64encode(zlib.compress(data, 9)).decode()
