"""JSON: objects, lists and texts are Python's, and a number is the tuple of its pieces.

Python's own reader would not tell where a text goes wrong, would round numbers, and would take
more than the standard does. A fault is told by its place: the first byte with which the text
can no longer go on to be JSON.
"""

import json
import re
from fractions import Fraction

from opinion.answers import need
from opinion.lines import past_blanks

DEEPEST = 64  # objects and lists that stand in one another
HEX = "[0-9a-fA-F]"
TEXT = f'"(?:[^"\\\\\0-\x1f]++|\\\\["\\\\/bfnrt]|\\\\u{HEX}{{4}})*+'  # without the closing mark
NUMBER = (
    "(-?)(0|[1-9][0-9]*)"
    "(?:\\.([0-9]+))?"
    "(?:[eE]([-+]?)0*([0-9]{1,18})[0-9]*)?"
    "(?![-+.0-9eE])"
)
SCALAR = re.compile(f'{TEXT}"|null|true|false|{NUMBER}')
FRONT = re.compile(  # the longest front of a scalar
    f"{TEXT}(?:\\\\(?:u{HEX}{{0,3}})?)?"
    "|-?(?:0|[1-9][0-9]*)(?:\\.[0-9]*)?(?:(?<=[0-9])[eE][-+]?[0-9]*)?"
    "|n(?:ul?)?|t(?:ru?)?|f(?:a(?:ls?)?)?|-?"
)
MOST_DIGITS = 30  # of a number that can be a coordinate, a direction or a version


def json_value(text, at, depth=0):
    """The value that begins at a place or behind the blanks there, and the place behind it.

    So many objects and lists are open around it: at most 64 may be.
    """
    at = past_blanks(text, at)
    opened = text[at:at + 1]
    if opened not in ("{", "["):
        return json_scalar(text, at)
    need(depth < DEEPEST, 11, "Deep", at)
    read = json_object if opened == "{" else json_list
    return read(text, at + 1, depth + 1)


def json_object(text, at, depth):
    """The members of an object by name, and the place behind it; it begins before `at`.

    No name may stand in it twice.
    """
    members = {}
    if closes(text, at, "}"):
        return members, past_blanks(text, at) + 1
    while True:
        start = past_blanks(text, at)
        need(text[start:start + 1] == '"', 10, "Json", start)
        name, at = json_scalar(text, start)
        need(name not in members, 12, "DuplicateKey", start)
        at = past_sign(text, at, ":")
        members[name], at = json_value(text, at, depth)
        if closes(text, at, "}"):
            return members, past_blanks(text, at) + 1
        at = past_sign(text, at, ",")


def json_list(text, at, depth):
    """The values of a list, and the place behind it; it begins before `at`."""
    values = []
    if closes(text, at, "]"):
        return values, past_blanks(text, at) + 1
    while True:
        value, at = json_value(text, at, depth)
        values.append(value)
        if closes(text, at, "]"):
            return values, past_blanks(text, at) + 1
        at = past_sign(text, at, ",")


def closes(text, at, sign):
    """Whether this sign is the next that is no blank."""
    at = past_blanks(text, at)
    return text[at:at + 1] == sign


def past_sign(text, at, sign):
    """The place behind this sign, which must be the next that is no blank."""
    at = past_blanks(text, at)
    need(text[at:at + 1] == sign, 10, "Json", at)
    return at + 1


def json_scalar(text, at):
    """The text, number or word that begins at a place, and the place behind it.

    A text must be UTF-8. Of escaped surrogates a pair is one character, and a single one is
    U+FFFD.
    """
    match, front = SCALAR.match(text, at), FRONT.match(text, at)
    try:
        front[0].encode("latin-1").decode("utf-8")
    except UnicodeDecodeError as fault:
        wrong = fault.start if "start" in fault.reason else fault.end
        need(False, 10, "Json", at + wrong)
    need(match, 10, "Json", front.end())
    if text[at] not in '"ntf':
        return match.groups(""), match.end()
    value = json.loads(match[0].encode("latin-1"))
    if text[at] == '"':
        value = value.encode("utf-16", "surrogatepass").decode("utf-16", "replace")
    return value, match.end()


def halves(value):
    """Twice a number, where that is a whole number of at most 30 digits; None for all else."""
    if not isinstance(value, tuple):
        return None
    sign, front, behind, power_sign, power = value
    digits = (front + behind).rstrip("0")
    power = int(power_sign + (power or "0")) + len(front) - len(digits)
    digits = digits.lstrip("0")
    if not digits:
        return 0
    if not -1 <= power <= MOST_DIGITS - len(digits):
        return None
    twice = 2 * int(sign + digits) * Fraction(10) ** power
    return int(twice) if twice.denominator == 1 else None
