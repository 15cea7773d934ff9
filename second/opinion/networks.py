"""Networks of splitters, and their texts.

An edge goes from an end to an end. An end is a letter and a number: `i` an input, `o` an output,
and `s` a splitter.
"""

import re
from collections import defaultdict
from enum import Enum
from itertools import permutations
from typing import NamedTuple

from opinion.answers import need
from opinion.lines import lines_of

MOST = 2048  # inputs, outputs, splitters and edges
WAYS = ("north", "east", "south", "west")

SHORT = "(0|[1-9][0-9]{0,3})"  # longer numbers are past every limit
LONG = "(0|[1-9][0-9]{0,8})"
NET_LINE = re.compile("net (0|[1-9][0-9]*) (0|[1-9][0-9]*) (0|[1-9][0-9]*)")
EDGE_LINE = re.compile(f"edge ([is]){SHORT} ([so]){SHORT}(?: ([1-4]))?")
PRIORITY_LINE = re.compile(f"(give|take) s{SHORT} {SHORT}")
ANY_LINE = re.compile(f"take s{SHORT} any")
PIN_LINE = re.compile(f"pin ([io]){SHORT} {LONG} {LONG}(?: ({'|'.join(WAYS)}))?")
SIDE_LINE = re.compile(f"side (?:([io]){SHORT}|(inputs|outputs)) ({'|'.join(WAYS)})")
ROW_LINE = re.compile("row (inputs|outputs)")
BLOCK_LINE = re.compile(f"block {LONG} {LONG}")


class Extras(Enum):
    """What may stand behind the edges of a network text."""

    NOTHING = 0
    PRIORITIES = 1  # of a design
    PINS = 2  # and priorities, sides, rows and blocked cells: of a request for a layout


class Edge(NamedTuple):
    """A line of belts, and how much it carries at most: its tier, from 1 to 4."""

    start: tuple
    target: tuple
    cap: int


class Pin(NamedTuple):
    """The cell, and the direction or None, at which a request wants an end; and its line.

    Where the cell is None, the direction is that of the side of the rectangle across which the
    end comes in or leaves.
    """

    end: tuple
    cell: tuple
    dir: int
    line: int


class Row(NamedTuple):
    """That all ends of a letter stand side by side, and its line."""

    letter: str
    line: int


class Block(NamedTuple):
    """A cell that a request keeps empty, and its line."""

    cell: tuple
    line: int


class Net:
    """A network: so many ends of each letter, and edges numbered in their order."""

    def __init__(self, inputs, outputs, splitters):
        self.counts = {"i": inputs, "o": outputs, "s": splitters}
        self.edges = []
        self.outs = defaultdict(list)  # of each end, the numbers of the edges that leave it
        self.ins = defaultdict(list)  # and of those that lead to it
        self.first = {"give": {}, "take": {}}  # of a splitter, the edge that comes first
        self.any = set()  # the splitters that may prefer any edge into them, or none

    def ends(self, letter):
        """All ends of a letter."""
        return [(letter, number) for number in range(self.counts[letter])]

    def input_edges(self):
        """The edge of each input."""
        return [self.outs[end][0] for end in self.ends("i")]

    def output_edges(self):
        """The edge of each output."""
        return [self.ins[end][0] for end in self.ends("o")]

    def add(self, edge):
        """Adds an edge, whose number is how many there were before."""
        self.outs[edge.start].append(len(self.edges))
        self.ins[edge.target].append(len(self.edges))
        self.edges.append(edge)

    def has_room(self, edge):
        """Whether both ends of an edge exist and take one more: a splitter two, others one."""
        return all(
            number < self.counts[letter] and len(near[letter, number]) < (2 if letter == "s" else 1)
            for (letter, number), near in ((edge.start, self.outs), (edge.target, self.ins))
        )

    def is_connected(self):
        """Whether each input and each output has its edge."""
        return all(self.outs[end] for end in self.ends("i")) and all(
            self.ins[end] for end in self.ends("o")
        )

    def is_first(self, edge):
        """Whether an edge comes first where it leaves a splitter, and where it enters one."""
        ends = ("give", self.edges[edge].start), ("take", self.edges[edge].target)
        return tuple(
            letter == "s" and self.first[word].get(number) == edge
            for word, (letter, number) in ends
        )

    def beside(self):
        """The edges that a splitter weighs against the one beside them, as tuples.

        Whether the edge comes first, the side (0 out of the splitter, 1 into it), the edge, and
        the one beside it. Where one edge of a side comes first, the other is not weighed; none is
        of those into a splitter that may prefer any.
        """
        sides = (self.outs, self.first["give"]), (self.ins, self.first["take"])
        return [
            (splitter in first, side, edge, other)
            for side, (near, first) in enumerate(sides)
            for letter, splitter in self.ends("s")
            for edge, other in permutations(near[letter, splitter], 2)
            if first.get(splitter, edge) == edge and not (side and splitter in self.any)
        ]

    def text(self):
        """The network text: edges in their order, priorities by splitter, `give` before `take`."""
        lines = ["net {i} {o} {s}".format(**self.counts)]
        for edge in self.edges:
            cap = f" {edge.cap}" if edge.cap > 1 else ""
            lines.append("edge {}{} {}{}".format(*edge.start, *edge.target) + cap)
        for _, splitter in self.ends("s"):
            for word, first in self.first.items():
                if splitter in first:
                    lines.append(f"{word} s{splitter} {first[splitter]}")
            if splitter in self.any:
                lines.append(f"take s{splitter} any")
        return "\n".join([*lines, "end"])


class Read(NamedTuple):
    """A network, what a request asks of its ends and of cells, and the place behind its text."""

    net: Net
    pins: list
    rows: list
    blocks: list
    behind: int

    @classmethod
    def of(cls, net, behind=0):
        """A network of which nothing else is asked."""
        return cls(net, [], [], [], behind)


def read_net(text, extras=Extras.PRIORITIES):
    """Reads a network text up to its line `end`.

    Lines stand in order: `net`, edges, priorities, then pins, sides and rows, then blocks. Before
    `end` each input and each output has its edge, and there is one of each at least.
    """
    lines = lines_of(text)
    read = Read.of(read_net_line(lines[0]))
    net, latest, behind = read.net, 0, len(lines[0]) + 1
    for number, line in enumerate(lines[1:], 2):
        behind += len(line) + 1
        if line == "end":
            need(net.is_connected(), 40, "NetLine", number)
            need(net.counts["i"] > 0 and net.counts["o"] > 0, 42, "NoEnds")
            return read._replace(behind=min(behind, len(text)))
        turn, take, match = sort_of(line, extras)
        need(match and turn >= latest, 40, "NetLine", number)
        latest = turn
        take(read, match, number)
    raise AssertionError("the empty line behind all others is refused")


def read_net_line(line):
    """`net I O S`: the network of so many inputs, outputs and splitters, without edges."""
    header = NET_LINE.fullmatch(line)
    need(header, 40, "NetLine", 1)
    counts = [int(digits[:5]) for digits in header.groups()]
    need(max(counts) <= MOST, 41, "TooLarge")
    return Net(*counts)


def sort_of(line, extras):
    """The turn of a line behind `net` in their order, what takes it, and its match or None."""
    sorts = [(0, take_edge, EDGE_LINE)]
    if extras is not Extras.NOTHING:
        sorts += [(1, take_priority, PRIORITY_LINE)]
    if extras is Extras.PRIORITIES:
        sorts += [(1, take_any, ANY_LINE)]
    if extras is Extras.PINS:
        sorts += [(2, take_pin, PIN_LINE), (2, take_side, SIDE_LINE), (2, take_row, ROW_LINE)]
        sorts += [(3, take_block, BLOCK_LINE)]
    for turn, take, form in sorts:
        match = form.fullmatch(line)
        if match:
            return turn, take, match
    return 0, None, None


def take_edge(read, match, number):
    """`edge A B` or `edge A B C`: an edge from A to B, of cap C or 1; both have room for it."""
    start, target = (match[1], int(match[2])), (match[3], int(match[4]))
    edge = Edge(start, target, int(match[5] or 1))
    need(read.net.has_room(edge), 40, "NetLine", number)
    need(len(read.net.edges) < MOST, 41, "TooLarge")
    read.net.add(edge)


def take_priority(read, match, number):
    """`give sN E`, `take sN E`: edge E comes first of those out of, or into, splitter N.

    E is such an edge, and nothing was told of that side before.
    """
    word, splitter, edge = match[1], int(match[2]), int(match[3])
    near = read.net.outs if word == "give" else read.net.ins
    first = read.net.first[word]
    is_told = splitter in first or word == "take" and splitter in read.net.any
    need(not is_told and edge in near["s", splitter], 40, "NetLine", number)
    first[splitter] = edge


def take_any(read, match, number):
    """`take sN any`: splitter N may prefer any edge into it, or none; nothing was told of these."""
    splitter, net = int(match[1]), read.net
    is_told = splitter in net.first["take"] or splitter in net.any
    need(not is_told and splitter < net.counts["s"], 40, "NetLine", number)
    net.any.add(splitter)


def take_pin(read, match, number):
    """`pin END X Y` or `pin END X Y WAY`: the cell of an end, and the direction of its belt."""
    end, cell = (match[1], int(match[2])), (int(match[3]), int(match[4]))
    need(end[1] < read.net.counts[end[0]], 40, "NetLine", number)
    read.pins.append(Pin(end, cell, match[5] and WAYS.index(match[5]), number))


def take_side(read, match, number):
    """`side END WAY`, `side inputs WAY`, `side outputs WAY`: the side of one end, or of each."""
    kind = match[3] and match[3][0]
    ends = read.net.ends(kind) if kind else [(match[1], int(match[2]))]
    need(all(end[1] < read.net.counts[end[0]] for end in ends), 40, "NetLine", number)
    read.pins.extend(Pin(end, None, WAYS.index(match[4]), number) for end in ends)


def take_row(read, match, number):
    """`row inputs`, `row outputs`: all of them stand side by side."""
    read.rows.append(Row(match[1][0], number))


def take_block(read, match, number):
    """`block X Y`: a cell that stays empty."""
    read.blocks.append(Block((int(match[1]), int(match[2])), number))
