"""Networks and states as the program writes them, and what a state shows in words."""

from dataclasses import dataclass
from fractions import Fraction

from .design import SPEED
from .words import NUMBERS, PROPERTIES, of_properties

PROMISES, KNOWN_AS = of_properties("promise"), of_properties("known_as")
"""What each property says of every steady state, and what players call it."""

ITEMS = NUMBERS["items"]
"""How many items a second a full basic belt carries; a full belt of each tier above carries so many more."""
MOST_LISTED = NUMBERS["most_listed"]
"""How many numbers a sentence has at most."""


@dataclass(frozen=True)
class Net:
    """A network's text as numbers: how many ends and splitters, and of each edge its ends and its cap."""

    inputs: int
    outputs: int
    splitters: int
    edges: list


@dataclass(frozen=True)
class State:
    """A state of a network: a load for each input, a room for each output, a flow and a mark for each edge."""

    loads: list
    rooms: list
    flows: list
    marks: list


def read_net(text):
    """The network of a text that the program wrote."""
    head, *lines = text.splitlines()
    edges = [it.split(" ")[1:] for it in lines if it.startswith("edge ")]
    return Net(*map(int, head.split(" ")[1:4]), [(it[0], it[1], int(it[2]) if len(it) > 2 else 1) for it in edges])


def read_state(text):
    """The state of a text that the program wrote."""
    rows = {line.split(" ")[0]: line.split(" ")[1:] for line in text.splitlines()}
    loads, rooms, flows = ([Fraction(word) for word in rows[name]] for name in ("load", "room", "flow"))
    return State(loads, rooms, flows, rows["mark"])


def at_ends(net, state):
    """The flow at each input, and at each output."""
    carried = {}
    for (source, target, _), flow in zip(net.edges, state.flows):
        carried[source], carried[target] = flow, flow
    return [carried[f"i{k}"] for k in range(net.inputs)], [carried[f"o{k}"] for k in range(net.outputs)]


def mixed(number):
    """A number as one says it: what is whole, and the part that is left, as in 36 7/8."""
    whole, rest = divmod(Fraction(number), 1)
    return f"{whole} {rest}" if whole and rest else str(whole or rest)


def listed(numbers, spelled=mixed):
    """The numbers, so spelled; where there are many, the first ones and between which all are."""
    if len(numbers) <= MOST_LISTED:
        return ", ".join(map(spelled, numbers))
    first, least, most = ", ".join(map(spelled, numbers[:MOST_LISTED])), spelled(min(numbers)), spelled(max(numbers))
    return f"{first} and so on, from {least} to {most}"


def decimal(number):
    """A number with two decimal places at most: the nearest, of two the greater."""
    whole, rest = divmod((200 * number.numerator + number.denominator) // (2 * number.denominator), 100)
    return f"{whole}.{rest:02}".rstrip("0").rstrip(".")


def together(names):
    """Names in a row, the last two with a word between."""
    return " and ".join([", ".join(names[:-1]), names[-1]] if names[1:] else names)


def told_of_ends(word, names, told, rest):
    """What is told of each of some ends, those of which the same is told together, and one thing last, of all
    others."""
    groups = {}
    for name, it in zip(names, told):
        groups.setdefault(it, []).append(name)
    if len(groups) == 1 and len(names) > 1:
        return f"all {word}s {told[0]}"
    shown_ = [f"{together(them)} {it}" for it, them in groups.items() if it != rest or len(groups) == 1]
    others = [f"the others {rest}"] if rest in groups and len(groups) > 1 else []
    many = len(names) - len(groups.get(rest, [])) > 1
    return f"{word}{'s' if many else ''} {', '.join(shown_ + others)}"


def set_up(net, state):
    """What comes in at each input and what is taken at each output, in words."""
    caps = {end: cap for source, target, cap in net.edges for end in (source, target)}
    inputs, outputs = ([f"{word}{k}" for k in range(count)] for word, count in (("i", net.inputs), ("o", net.outputs)))
    loads = [{0: "empty", caps[end]: "full"}.get(it, f"with {mixed(it)}") for end, it in zip(inputs, state.loads)]
    rooms = [
        {0: "blocked", caps[end]: "open"}.get(it, f"open for {mixed(it)}") for end, it in zip(outputs, state.rooms)
    ]
    return f"{told_of_ends('input', inputs, loads, 'empty')}; {told_of_ends('output', outputs, rooms, 'open')}"


@dataclass(frozen=True)
class Unshared:
    """Two ends of a state in which what is left isn't shared evenly: an output that could take more, or an input that
    could give more, with the flow and how much it could be, and another end with a greater flow."""

    less: str
    flow: Fraction
    could: Fraction
    more: str
    greater: Fraction

    @property
    def is_output(self):
        return self.less[0] == "o"


def unshared(prop, net, state):
    """The end that has least of those that could have more, and the end that has most, where the property is one of
    sharing; else None."""
    if prop not in ("fair", "drawn-fairly"):
        return None
    sign, flows, most = ("o", at_ends(net, state)[1], state.rooms) if prop == "fair" else (
        "i", at_ends(net, state)[0], state.loads
    )
    short = [at for at, flow in enumerate(flows) if flow < most[at]]
    less, more = min(short, key=flows.__getitem__), max(range(len(flows)), key=flows.__getitem__)
    return Unshared(f"{sign}{less}", flows[less], most[less], f"{sign}{more}", flows[more])


def apart(prop, net, state):
    """Which end has less than is fair in a state, and which more, by their names."""
    them = unshared(prop, net, state)
    return {them.less: "less", them.more: "more"} if them else {}


def told_of_unshared(them, belt, itemed):
    """Which of two ends has more, and which less, in words."""
    word, verb = ("output", "carries") if them.is_output else ("input", "gives")
    could = f"would take {mixed(them.could)}" if them.is_output else f"has {mixed(them.could)}"
    items = f" ({itemed(them.greater)} and {itemed(them.flow)} items a second)" if itemed else ""
    belts = f"{mixed(them.greater)} {belt}{'' if them.greater == 1 else 's'}"
    only = f"{them.less}, which {could}, only {mixed(them.flow)}{items}"
    return f"{word.capitalize()} {them.more} {verb} {belts} and {only}"


def shown(prop, net, state, tiers=()):
    """What the state shows, in words: in belts and, where the tiers of the design's parts are known, in items a
    second."""
    given, carried = at_ends(net, state)
    belt = "basic belt" if len(tiers) > 1 else "belt"
    speed = ITEMS * (SPEED[tiers[0]] if len(tiers) == 1 else 1)
    if them := unshared(prop, net, state):
        said = told_of_unshared(them, belt, (lambda it: decimal(it * speed)) if tiers else None)
        return f"{said}: {set_up(net, state)}."
    if prop in ("balanced", "drawn-evenly"):
        what, flows = ("outputs carry", carried) if prop == "balanced" else ("inputs give", given)
        items = f", or {listed([it * speed for it in flows], decimal)} items a second" if tiers else ""
        said = f"The {what} {listed(flows)} {belt}s{items}, and should all {what.split()[1]} the same"
    else:
        out, most = sum(carried), min(sum(state.loads), sum(state.rooms))
        items = f", {decimal(out * speed)} of {decimal(most * speed)} items a second" if tiers else ""
        comes = "comes" if most == 1 or 0 < out <= 1 else "come"
        said = f"{mixed(out)} of {mixed(most)} {belt}{'' if most == 1 else 's'} {comes} through{items}"
    return f"{said}: {set_up(net, state)}."
