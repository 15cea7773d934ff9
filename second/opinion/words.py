"""The commands: their words, and how each is answered."""

import re

from opinion.answers import EVIDENCE_REFUSED, INPUT_REFUSED, TOO_LONG, UNREADABLE, USAGE
from opinion.answers import Answer, need
from opinion.certificates import check_steps, read_dimacs
from opinion.designs import own_tier, read_design
from opinion.fewest import check as check_fewest
from opinion.formula import FlowFormula
from opinion.json_text import json_value
from opinion.lanes import ANY, LAWS
from opinion.layouts import lays, read_request
from opinion.lines import lines_of, past_blanks
from opinion.parts import TIERS, parts_of
from opinion.properties import PROPERTIES
from opinion.states import read_state, tests

DESIGN_BYTES, ALL_BYTES = 1 << 24, 1 << 30  # of a design alone, and with what is behind it
ACROSS = "([1-9][0-9]?|1[0-5][0-9]|160)"
NUMBER = re.compile("0|[1-9][0-9]{0,8}")
GRID = re.compile(f"{ACROSS}x{ACROSS}")
ENDS = re.compile("[1-9]|1[0-6]")  # a number of inputs or outputs of a network of fewest splitters


def run(words, read, read_file):
    """The status and the text that answer the words.

    `read` gives at most so many bytes of the input, and `read_file` those of a file. A file that
    can't be read is a fault of the input.
    """
    try:
        found = answer(words, read, read_file)
    except Answer as refused:
        found = refused
    except OSError:
        return UNREADABLE, ""
    return found.status, found.text


def answer(words, read, read_file):
    """The verdict of the command that the words tell; `usage` where they tell none."""
    match words:
        case ["recover", *options]:
            by_lanes = words_of_lanes(options)
            return recovered(text_of(read, DESIGN_BYTES), by_lanes)
        case ["check", prop] if prop in PROPERTIES:
            return checked(prop, text_of(read, ALL_BYTES))
        case ["flow-check", prop] if prop in PROPERTIES:
            return flow_checked(prop, text_of(read, ALL_BYTES))
        case ["none", path] if path:
            certificate = text_of(read, ALL_BYTES)
            return refuted(decoded(read_file(path)), certificate)
        case ["check-fewest", wish, *ends] if is_wish(wish) and are_ends(ends):
            text = text_of(read, ALL_BYTES)
            return Answer(1, check_fewest(wish.split(","), *map(int, ends), text))
        case ["laid", *options]:
            rectangle, tier, path = words_of_laid(options)
            blueprint = text_of(read, ALL_BYTES)
            return laid(decoded(read_file(path)), rectangle, tier, blueprint)
    raise Answer(USAGE, "usage")


def is_wish(word):
    """Whether the word names properties, each at most once, with `balanced` among them."""
    names = word.split(",")
    return len(set(names)) == len(names) and "balanced" in names and set(names) <= set(PROPERTIES)


def are_ends(words):
    """Whether the words are a number of inputs and one of outputs."""
    return len(words) == 2 and all(map(ENDS.fullmatch, words))


def decoded(data):
    """A text of one character for each byte."""
    return data.decode("latin-1")


def text_of(read, most):
    """The text of the input, which has at most so many bytes."""
    text = decoded(read(most + 1))
    if len(text) > most:
        raise Answer(TOO_LONG, "too long")
    return text


def words_of_laid(words):
    """The rectangle, the tier and the request's path: `--grid WxH [--tier TIER] REQUEST`.

    They stand in this order. An option may be one word, `--grid=WxH`, or two. Where no tier is
    named, it is the request's own.
    """
    grid, rest = option("--grid", words)
    tier, behind = option("--tier", rest)
    if tier in TIERS and behind:
        rest = behind
    else:
        tier = None
    rectangle = GRID.fullmatch(grid or "")
    if not rectangle or len(rest) != 1 or not rest[0]:
        raise Answer(USAGE, "usage")
    return (int(rectangle[1]), int(rectangle[2])), tier and TIERS.index(tier), rest[0]


def words_of_lanes(words):
    """The law of merges and the stubs: `--lanes [--merges LAW] [--stubs LIST]`; None without words.

    They stand in this order. The list has numbers of at most nine digits, each once, with commas.
    """
    if not words:
        return None
    front, *rest = words
    merges, rest = option("--merges", rest)
    stubs, rest = option("--stubs", rest)
    numbers = [] if stubs is None else stubs.split(",")
    is_list = all(map(NUMBER.fullmatch, numbers)) and len(set(numbers)) == len(numbers)
    if front != "--lanes" or merges not in (None, *LAWS) or not is_list or rest:
        raise Answer(USAGE, "usage")
    return merges or ANY, [int(number) for number in numbers]


def option(name, words):
    """The value of an option at the front of words, or None, and the words behind it."""
    front, *rest = words or [""]
    if front == name and rest:
        return rest[0], rest[1:]
    if front.startswith(name + "="):
        return front[len(name) + 1:], rest
    return None, words


def recovered(text, by_lanes):
    """`recover`: the text of a design's network, or of that of its lanes."""
    return Answer(0, read_design(text, alone=True, by_lanes=by_lanes).net.text())


def checked(prop, text):
    """`check`: that a certificate shows the property, or that it fails in a state."""
    net, *_, behind = read_design(text)
    lines = lines_of(text[behind:])
    if lines[0] == f"yes {prop}":
        check_steps(FlowFormula(net, prop), lines[0], lines)
        return Answer(0, "yes", prop)
    check_state(net, prop, lines)
    return Answer(1, "no", prop)


def flow_checked(prop, text):
    """`flow-check`: that the property fails in a state."""
    net, *_, behind = read_design(text)
    check_state(net, prop, lines_of(text[behind:]))
    return Answer(0, "breaks", prop)


def check_state(net, prop, lines):
    """Refuses the first test that a state of these lines does not pass."""
    for test, at, is_passed in tests(net, prop, *read_state(net, prop, lines)):
        need(is_passed, 54, "NotBreaking", test, at)


def refuted(formula, certificate):
    """`none`: that a certificate refutes a formula in DIMACS."""
    formula = read_dimacs(lines_of(formula))
    check_steps(formula, "none", lines_of(certificate[past_blanks(certificate, 0):]))
    return Answer(1, "none")


def laid(request, rectangle, tier, blueprint):
    """`laid`: whether a blueprint lays a request.

    The blueprint is evidence, so a refusal of it has that status, with the same words.
    """
    wanted = read_request(request, *rectangle)
    tier = own_tier(request) if tier is None else tier
    try:
        root, behind = json_value(blueprint, 0)
        is_laid = lays(*wanted, *rectangle, tier, parts_of(root, True))
        rest = past_blanks(blueprint, behind)
        need(rest == len(blueprint), 10, "Json", rest)
    except Answer as refused:
        if refused.status != INPUT_REFUSED:
            raise
        raise Answer(EVIDENCE_REFUSED, refused.text.strip()) from None
    return Answer(0, "laid") if is_laid else Answer(1, "not laid")
