"""What a design's label tells: how many inputs and outputs, as "4 to 4", 4-4, 4:4, 4x4, 4→4 and the like, and which
properties it claims, as TU, balanced or universal.

A label is read from left to right, each sign a fixed number of times, and so much of it at most; which signs mean what
stands in `words.json`."""

import re
from dataclasses import dataclass
from functools import lru_cache

from .words import PROPERTIES, WORDS

SIGNS = WORDS["labels"]
MOST = SIGNS["most"]
"""How much of a label is looked at."""
BLANKS, BRIEF = set(SIGNS["blanks"]), set(SIGNS["brief"])
JOINTS = BLANKS | set(SIGNS["joints"])
DIGITS = set("0123456789")
LETTERS = set("abcdefghijklmnopqrstuvwxyzABCDEFGHIJKLMNOPQRSTUVWXYZ")
APART = DIGITS | set("()[]{};:.")
"""What between two words makes them no words of one claim."""
LONGEST_NUMBER, MOST_WORDS = 3, 4
KEPT = 4096
"""Of so many labels it is kept what they tell."""

RICH_TEXT = re.compile(r"\[/?[a-z-]{1,40}(?:=[^\][]{0,200})?\]")
"""The game's marks in a label, as of colours and of small pictures."""


def in_words(text):
    """A text with the game's marks as words: of a small picture its name, and of a colour or a font nothing."""
    return " ".join(RICH_TEXT.sub(mark_in_words, text).split())


def mark_in_words(mark):
    """What is told in place of a mark."""
    name, _, value = mark[0].strip("[]").partition("=")
    if name.lstrip("/") in ("color", "font"):
        return ""
    return f" {value.partition(',')[0]} " if value else mark[0]


def past(text, at, signs):
    """The place behind all of these signs that stand here."""
    while at < len(text) and text[at] in signs:
        at += 1
    return at


def arrow_end(text, at):
    """The place behind a word or an arrow that leads from inputs to outputs, or None where there is none."""
    for word in SIGNS["words"]:
        if text[at : at + len(word)].lower() == word:
            return at + len(word)
    for shaft in SIGNS["shafts"]:
        end = past(text, at, shaft)
        if end > at and text[end : end + 1] == SIGNS["head"]:
            return end + 1
    if text[at : at + 1] and text[at] in SIGNS["arrows"]:
        return at + 1 + (text[at + 1 : at + 2] == SIGNS["selector"])
    return None


def plainly_at(text, at):
    """Where the second number begins of two between which a word or an arrow stands, or None."""
    end = past(text, at, JOINTS)
    found = arrow_end(text, end)
    # The shaft of an arrow may be signs that were passed over.
    if found is None and end > at and text[end - 1] in SIGNS["shafts"] and text[end : end + 1] == SIGNS["head"]:
        found = end + 1
    return None if found is None else past(text, found, JOINTS)


def briefly_at(text, at):
    """Where the second number begins of two between which one sign stands, and that sign, or None."""
    sign = past(text, at, BLANKS)
    if sign == len(text) or text[sign] not in BRIEF:
        return None
    return past(text, sign + 1, BLANKS)


def is_end(text, at, plainly):
    """Whether a second number may end here."""
    here = text[at : at + 1]
    if plainly:
        behind = at
        while behind < len(text) and text[behind] == ".":
            behind += 1
        return not (behind < len(text) and text[behind] in DIGITS)
    if here in LETTERS or here == "." and text[at + 1 : at + 2] in DIGITS:
        return False
    then = briefly_at(text, at)
    return then is None or then == len(text) or text[then] not in DIGITS


def is_begin(text, at, plainly):
    """Whether a first number may begin here."""
    before = text[at - 1 : at] if at else ""
    return not (before in DIGITS or before == ".") if plainly else not (
        before and (before in LETTERS | BRIEF or before == ".")
    )


def pairs_in(text, plainly):
    """The numbers of inputs and outputs that stand in a text: in words and arrows, or briefly; each with whether it may
    be a size."""
    found, at = [], 0
    while at < len(text):
        end = past(text, at, DIGITS)
        if end == at:
            at += 1
            continue
        begin, at = at, end
        if end - begin > LONGEST_NUMBER or not is_begin(text, begin, plainly):
            continue
        second = (plainly_at if plainly else briefly_at)(text, end)
        if second is None:
            continue
        last = past(text, second, DIGITS)
        if second < last <= second + LONGEST_NUMBER and is_end(text, last, plainly):
            sign = text[past(text, end, BLANKS)]
            found.append((int(text[begin:end]), int(text[second:last]), not plainly and sign in SIGNS["size"]))
            at = last
    return found


def told_with_sizes(label):
    """The pairs that a label tells of, each with whether it may be the size of a layout too."""
    text = RICH_TEXT.sub(" ", label[:MOST])
    pairs = pairs_in(text, True) or pairs_in(text, False)
    found = {}
    for inputs, outputs, size in pairs:
        if inputs and outputs:
            found[inputs, outputs] = found.get((inputs, outputs), True) and size
    return found


@lru_cache(KEPT)
def pairs_told(label):
    """The same as `told`, which doesn't change."""
    return tuple(told_with_sizes(label))


def told(label):
    """The numbers of inputs and outputs that a label tells of: one pair, or several where it isn't clear, or none."""
    return list(pairs_told(label))


def spelled(pairs):
    """Such pairs in words."""
    return " or ".join(f"{inputs} to {outputs}" for inputs, outputs in pairs)


@dataclass(frozen=True)
class Claims:
    """What a label claims: of each property the words that claim it, as they stand there; and whether it speaks of
    lanes."""

    properties: dict
    lanes: bool = False


def words_in(text):
    """The words of letters in a text: each with where it begins and ends."""
    found, at = [], 0
    while at < len(text):
        end = past(text, at, LETTERS)
        if end > at:
            found.append((text[at:end].lower(), at, end))
        at = max(end, at + 1)
    return found


@lru_cache(KEPT)
def claims(label):
    """What a label claims. A claim behind a word that denies it is none."""
    text = RICH_TEXT.sub(" ", label[:MOST])
    words, found, lanes, at = words_in(text), {}, False, 0
    while at < len(words):
        there = near(text, words, at)
        told_ = max(
            (it for it in WORDS["claims"] if there[: len(it["words"])] == it["words"]), key=length_of, default=None
        )
        if told_ is None:
            at += 1
            continue
        end = at + len(told_["words"])
        lanes = lanes or told_.get("lanes", False)
        if at == 0 or words[at - 1][0] not in WORDS["negations"]:
            for prop in told_["properties"]:
                found.setdefault(prop, " ".join(text[words[at][1] : words[end - 1][2]].split()))
        at = end
    return Claims({prop: it for prop, it in found.items() if prop in PROPERTIES}, lanes)


def near(text, words, at):
    """The words that stand together from one on: with no number and no bracket between."""
    found = [words[at][0]]
    for before, here in zip(words[at:], words[at + 1 :]):
        if len(found) == MOST_WORDS or any(it in APART for it in text[before[2] : here[1]]):
            break
        found.append(here[0])
    return found


def length_of(claim):
    return len(claim["words"])
