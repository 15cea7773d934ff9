"""Designs: a network text, or a blueprint in JSON, at the front of a text."""

from opinion.answers import need
from opinion.json_text import json_value
from opinion.lanes import recover_lanes
from opinion.lines import past_blanks
from opinion.networks import Extras, Read, read_net
from opinion.parts import parts_of
from opinion.recovery import recover


def read_design(text, extras=Extras.PRIORITIES, alone=False, in_basic_belts=False, by_lanes=None):
    """The network at the front of a text, and the place behind it and the blanks there.

    What begins with a brace, behind blanks or not, is a blueprint, and all else a network text.
    A design that stands alone has nothing but blanks behind it. The caps of a blueprint may be
    asked in basic belts, and its network by lanes: with the law of merges, and entities that are no
    inputs.
    """
    start = past_blanks(text, 0)
    is_blueprint = text[start:start + 1] == "{"
    if is_blueprint:
        root, behind = json_value(text, start)
        parts = parts_of(root, extras is not Extras.NOTHING)
        if by_lanes is None:
            net = recover(parts, in_basic_belts)[0]
        else:
            net = recover_lanes(parts, *by_lanes, in_basic_belts=in_basic_belts)[0]
        read = Read.of(net, behind)
    else:
        read = read_net(text, extras)
    rest = past_blanks(text, read.behind)
    if alone and is_blueprint:
        need(rest == len(text), 10, "Json", rest)
    elif alone:
        need(rest == len(text), 40, "NetLine", text.count("\n", 0, rest) + 1)
    return read._replace(behind=rest)


def own_tier(text):
    """The tier of all parts of the blueprint at the front of a text, or the slowest one where they
    have several; and that of a network text."""
    start = past_blanks(text, 0)
    if text[start:start + 1] != "{":
        return 0
    tiers = {part.tier for part in parts_of(json_value(text, start)[0], True)}
    return tiers.pop() if len(tiers) == 1 else 0
