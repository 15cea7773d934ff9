"""States, and the laws of a steady state in which a property fails.

A state has a load of each input, a room of each output, and of each edge a flow and a mark: it is
backed, where items queue up to its end and wait, or free, where all move on. Loads, rooms and
flows are parts of a full belt; where a design has several tiers, of a basic one.
"""

from fractions import Fraction
from functools import reduce
from typing import NamedTuple

from opinion.answers import WIDE_STATE, Answer, need
from opinion.lines import nothing_after
from opinion.numbers import fraction_of, plus
from opinion.properties import EVEN, FAIR, FULL_LOADS, FULL_ROOMS

MARKS = {"f": 0, "b": 1}  # free, backed


class State(NamedTuple):
    """A state, by the numbers of inputs, outputs and edges."""

    loads: list
    rooms: list
    flows: list
    backed: list


class End(NamedTuple):
    """An input or an output, its edge, and its load or room."""

    word: str
    number: int
    edge: int
    amount: Fraction


def read_state(net, prop, lines):
    """The state of six lines; refuses the first that isn't the one that belongs there.

    They are `no` and the property, the loads, the rooms, the flows, the marks, and `end`, with
    single spaces between words.
    """
    counts = {
        "no": 1,
        "load": net.counts["i"],
        "room": net.counts["o"],
        "flow": len(net.edges),
        "mark": len(net.edges),
        "end": 0,
    }
    readers = {"no": {prop: prop}.get, "mark": MARKS.get}
    lists = []
    for number, ((word, count), line) in enumerate(zip(counts.items(), lines), 1):
        first, *words = line.split(" ")
        values = list(map(readers.get(word, fraction_of), words))
        is_right = first == word and len(values) == count and None not in values
        need(is_right, 50, "CertLine", number)
        lists.append(values)
    nothing_after(lines, len(counts))
    return State(*lists[1:5])


def tests(net, prop, loads, rooms, flows, backed):
    """Each test of a state in order: its word, its place, and whether the state passes it.

    Of no property these are the laws of a steady state alone.
    """
    state = State(loads, rooms, flows, backed)
    inputs = [End("load", *end) for end in zip(range(len(loads)), net.input_edges(), loads)]
    outputs = [End("room", *end) for end in zip(range(len(rooms)), net.output_edges(), rooms)]
    yield from amounts(net, inputs, prop in FULL_LOADS)
    yield from amounts(net, outputs, prop in FULL_ROOMS)
    yield from ranges(net, state)
    yield from conservation(net, state)
    yield from evenness(net, state)
    yield from backing(net, state)
    yield from inputs_give(state, inputs)
    yield from outputs_take(state, outputs)
    if prop in EVEN:
        yield from is_uneven(state, outputs if prop == "balanced" else inputs)
    elif prop in FAIR:
        yield from is_unfair(state, outputs if prop == "fair" else inputs)
    elif prop:
        yield from is_less(state, outputs)


def amounts(net, ends, at_cap):
    """A load or room is from 0 to its edge's cap, and at the cap where the property says so."""
    for end in ends:
        cap = net.edges[end.edge].cap
        yield end.word, end.number, end.amount == cap or 0 <= end.amount < cap and not at_cap


def ranges(net, state):
    """A flow is from 0 to its edge's cap."""
    for edge, flow in enumerate(state.flows):
        yield "range", edge, 0 <= flow <= net.edges[edge].cap


def conservation(net, state):
    """What goes into a splitter comes out of it."""
    for splitter in net.ends("s"):
        number = splitter[1]
        coming = total((state.flows[edge] for edge in net.ins[splitter]), "conserve", number)
        leaving = total((state.flows[edge] for edge in net.outs[splitter]), "conserve", number)
        yield "conserve", number, coming == leaving


def evenness(net, state):
    """A splitter deals evenly, but for what is full, waits, or is preferred.

    An edge out of it that is free, and one into it that is backed, is full or carries no less
    than the one beside it. If it is preferred, it is full or the one beside it carries nothing.
    """
    for is_first, side, edge, other in sorted(net.beside()):
        is_enough = is_full(net, state, edge) or (
            state.flows[other] == 0 if is_first else state.flows[edge] >= state.flows[other]
        )
        word = ("prior-" if is_first else "even-") + ("in" if side else "out")
        yield word, edge, state.backed[edge] != side or is_enough


def backing(net, state):
    """An edge into a splitter is backed only where each edge out of it is backed or full."""
    for number, edge in enumerate(net.edges):
        yield "backing", number, not state.backed[number] or all(
            state.backed[behind] or is_full(net, state, behind) for behind in net.outs[edge.target]
        )


def inputs_give(state, inputs):
    """An input's edge carries its load, or where it is backed, less."""
    for _, number, edge, load in inputs:
        flow = state.flows[edge]
        yield "input", number, flow == load or flow < load and state.backed[edge]


def outputs_take(state, outputs):
    """An output's edge carries its room, or where it is free, less."""
    for _, number, edge, room in outputs:
        flow = state.flows[edge]
        yield "output", number, flow == room or flow < room and not state.backed[edge]


def is_uneven(state, ends):
    """`balanced` fails where two outputs carry unlike flows, `drawn-evenly` where inputs do."""
    yield "kept", 0, len({state.flows[end.edge] for end in ends}) > 1


def is_unfair(state, ends):
    """`fair` fails where an output that is short carries less than another; or an input does."""
    most = max(state.flows[end.edge] for end in ends)
    yield "kept", 0, any(state.flows[end.edge] < min(end.amount, most) for end in ends)


def is_less(state, outputs):
    """`unlimited` and `full` fail where outputs do not carry the lesser of loads and rooms."""
    carried = total((state.flows[end.edge] for end in outputs), "kept", 0)
    loads, rooms = total(state.loads, "kept", 0), total(state.rooms, "kept", 0)
    yield "kept", 0, carried != min(loads, rooms)


def is_full(net, state, edge):
    """Whether an edge carries its cap."""
    return state.flows[edge] == net.edges[edge].cap


def total(numbers, test, place):
    """The sum of numbers; where one on the way is too wide, a test and its place are told."""
    try:
        return reduce(plus, numbers, Fraction(0))
    except OverflowError:
        raise Answer(WIDE_STATE, "wide state", test, place) from None
