"""Recovery by lanes: the network of the lanes that parts show, side-loading and all.

A lane is a cell of a part and 0, the left one, or 1, as one sees it who looks in the part's
direction. Lanes go by cell, then left before right.
"""

from itertools import product
from typing import NamedTuple

from opinion.answers import need
from opinion.networks import MOST, Edge, Net
from opinion.parts import BELT, ENTRANCE, EXIT, SPLITTER, cells_of, moved
from opinion.recovery import exit_of, places_of

LAWS = ANY, STRAIGHT, REAR = "any", "straight", "rear"  # what is known of which lane goes first
LANES = (0, 1)
BEHIND = None  # where a feeder stands of a cell that isn't at a lane's side


class Feeder(NamedTuple):
    """A cell that looks at another and is taken there: from behind, or on the side of a lane."""

    cell: tuple
    side: int  # or BEHIND


class Run(NamedTuple):
    """Lanes in a row, where they begin and end, and which parts make them slow.

    An end is a word and what it names: the lane of an input, output, void or stop, the lane of a
    splitter's half, or the lane of a tee or side merge.
    """

    start: tuple
    target: tuple
    parts: list
    last: tuple  # the lane that leads to the target; None where a side merge does


class Lanes:
    """What leads to each lane of parts.

    `straight` has for a lane the one that leads straight to it, and `sides` those that lead to it
    from its side, the preferred one of two first. `stops` are lanes that lead nowhere though a
    part takes their cell.
    """

    def __init__(self, parts, at):
        self.parts, self.at = parts, at
        self.straight, self.sides, self.stops = {}, {}, set()
        self.feeders = {cell: self.feeders_of(cell) for cell in at}
        for cell in at:
            self.lead_to(cell)
        self.onto = {one: lane for lane, one in self.straight.items()}
        self.onto.update((one, lane) for lane, ones in self.sides.items() for one in ones)

    def part(self, cell):
        """The part on a cell."""
        return self.parts[self.at[cell][0]]

    def feeders_of(self, cell):
        """The feeders of a cell: that behind it, if any, then those at its left and right."""
        way = self.part(cell).dir
        sides = (way, BEHIND), ((way + 1) % 4, 0), ((way - 1) % 4, 1)
        spots = [(moved(cell, look, -1), look, side) for look, side in sides]
        return [
            Feeder(spot, side) for spot, look, side in spots
            if self.looks(spot, look) and takes(self.part(cell), side)
        ]

    def looks(self, cell, way):
        """Whether a part looks from a cell in a direction; an entrance looks in none."""
        return cell in self.at and self.part(cell).dir == way and self.part(cell).kind != ENTRANCE

    def lead_to(self, cell):
        """Notes what leads to both lanes of a cell, and what stops there."""
        part, feeders = self.part(cell), self.feeders[cell]
        before = [feeder.cell for feeder in feeders if feeder.side is BEHIND]
        if part.kind == BELT and len(feeders) == 1:
            before, feeders = [feeders[0].cell], []  # a curve keeps lanes
        if part.kind == EXIT:
            before = self.entrance_of(cell)
        for spot, lane in product(before, LANES):
            self.straight[cell, lane] = spot, lane
        for spot, near in feeders:
            if near is not BEHIND:
                rear, front = (spot, 1 - near), (spot, near)
                passed = {BELT: [rear, front], ENTRANCE: [rear], EXIT: [front]}[part.kind]
                self.sides[cell, near] = passed
                self.stops |= {rear, front}.difference(passed)

    def entrance_of(self, cell):
        """The cell of an exit's entrance, in a list that is empty for a lone exit."""
        part = self.part(cell)
        return [
            spot for steps in range(1, 12)
            for spot in [moved(cell, part.dir, -steps)]
            if spot in self.at and self.part(spot).kind == ENTRANCE
            and exit_of(self.parts, self.at, self.part(spot)) == self.at[cell][0]
        ]

    def leading(self, lane):
        """The lanes that lead to a lane: the straight one, if any, then those from its side."""
        straight = self.straight.get(lane)
        return ([straight] if straight else []) + self.sides.get(lane, [])

    def is_half(self, lane):
        """Whether a lane is a splitter's."""
        return self.part(lane[0]).kind == SPLITTER

    def next_link(self, lane):
        """The lane of a belt or piece to which this one alone leads, or None."""
        onto = self.onto.get(lane)
        is_link = onto and not self.is_half(onto) and len(self.leading(onto)) == 1
        return onto if is_link else None


def takes(part, side):
    """Whether a part takes from behind, or from a side: a splitter not from a side, and an exit
    from its sides alone."""
    return part.kind != EXIT if side is BEHIND else part.kind != SPLITTER


def recover_lanes(parts, merges=ANY, stubs=(), in_basic_belts=False):
    """The network of the lanes that parts show, the first part of each input and the last of each
    output, of which each has two ends.

    `stubs` are entities that are no inputs. Splitters are the left, then the right lanes of each
    splitter; then by lane its side merge and its tee; then the voids, and then the stops.
    """
    at = places_of(parts)
    lanes = Lanes(parts, at)
    refuse_pieces_and_blocked(lanes)
    refuse_rings(lanes)
    unfed = {
        i for i, part in enumerate(parts)
        if part.kind in (BELT, ENTRANCE) and not lanes.feeders[part.cell]
    }
    need(unfed.issuperset(stubs), 35, "Stub", min(set(stubs) - unfed, default=None))
    firsts = sorted(unfed.difference(stubs), key=lambda i: parts[i].cell)
    lasts = [
        i for i, part in enumerate(parts)
        if part.kind in (BELT, EXIT) and moved(part.cell, part.dir) not in at
    ]
    lasts.sort(key=lambda i: parts[i].cell)
    net = net_of(lanes, firsts, lasts, merges, in_basic_belts)
    most = max(*net.counts.values(), len(net.edges))
    need(most <= MOST, 41, "TooLarge")
    need(firsts and lasts, 42, "NoEnds")
    return net, [parts[i] for i in firsts], [parts[i] for i in lasts]


def refuse_pieces_and_blocked(lanes):
    """Refuses pieces without a partner, but not an exit that is looked at from a side or is one of
    several feeders of a belt; then parts that look at one that takes nothing from there."""
    unpaired, blocked = set(), set()
    for i, part in enumerate(lanes.parts):
        ahead = [moved(cell, part.dir) for cell in cells_of(part)]
        if part.kind == ENTRANCE:
            if exit_of(lanes.parts, lanes.at, part) is None:
                unpaired.add(i)
            continue
        for cell, spot in zip(cells_of(part), ahead):
            if spot in lanes.at and cell not in (one.cell for one in lanes.feeders[spot]):
                blocked.add(i)
        if part.kind == EXIT and not lanes.entrance_of(part.cell):
            onto = ahead[0] if ahead[0] in lanes.at else None
            among = onto and lanes.part(onto).kind == BELT and [
                one for one in lanes.feeders[onto] if len(lanes.feeders[onto]) > 1
            ]
            is_among = among and any(one.cell == part.cell for one in among)
            if not is_among and not lanes.feeders[part.cell]:
                unpaired.add(i)
    need(not unpaired, 31, "Unpaired", min(unpaired, default=None))
    need(not blocked, 33, "Blocked", min(blocked, default=None))


def refuse_rings(lanes):
    """Refuses the least part with a lane on a ring of lanes, each alone in leading to the next."""
    links = {lane for lane in product(lanes.at, LANES) if not lanes.is_half(lane)}
    onward = {lane: lanes.next_link(lane) for lane in links}
    for lane in links.difference(onward.values()):
        while lane is not None:
            links.discard(lane)
            lane = onward[lane]
    rings = {lanes.at[cell][0] for cell, _ in links}
    need(not rings, 34, "Ring", min(rings, default=None))


def net_of(lanes, firsts, lasts, merges, in_basic_belts):
    """The network of lanes: its splitters in their order, its runs, and its preferences."""
    parts = lanes.parts
    splitters = [i for i, part in enumerate(parts) if part.kind == SPLITTER]
    inputs, outputs = ends_of(parts, firsts), ends_of(parts, lasts)
    links = sorted(lane for lane in product(lanes.at, LANES) if not lanes.is_half(lane))
    voids = [lane for lane in links if not lanes.leading(lane) and lane not in inputs]
    numbers = {}
    for i, lane in product(splitters, LANES):
        for cell in cells_of(parts[i]):
            numbers["half", (cell, lane)] = 2 * splitters.index(i) + lane
    count = 2 * len(splitters)
    joints = [joint for lane in links for joint in joints_of(lanes, lane)]
    joints += [("void", lane) for lane in voids] + [("stop", lane) for lane in sorted(lanes.stops)]
    numbers.update((joint, count + n) for n, joint in enumerate(joints))
    starts = {("input", lane): ("i", n) for lane, n in inputs.items()}
    targets = {("output", lane): ("o", n) for lane, n in outputs.items()}
    splits = {joint: ("s", n) for joint, n in numbers.items()}
    starts.update(splits)
    targets.update(splits)
    net = Net(len(inputs), len(outputs), count + len(joints))
    is_one_tier = len({part.tier for part in parts}) == 1 and not in_basic_belts
    runs = runs_of(lanes, inputs, outputs, voids)
    runs.sort(key=lambda run: (*starts[run.start], run.start[1]))
    for number, run in enumerate(runs):
        cap = 1 if is_one_tier else 1 + min(part.tier for part in run.parts)
        net.add(Edge(starts[run.start], targets[run.target], cap))
        prefer(lanes, net, run, starts, targets, number, merges)
    for word, lane in joints:
        if word in ("side", "tee") and net.first["take"].get(numbers[word, lane]) is None:
            net.first["take"][numbers[word, lane]] = ANY
    return net


def ends_of(parts, indices):
    """The lanes of parts in their order, left before right, with their numbers."""
    return {(parts[i].cell, lane): 2 * n + lane for n, i in enumerate(indices) for lane in LANES}


def joints_of(lanes, lane):
    """Of a lane the side merge, where it has two sides, then the tee, where it has straight too."""
    sides = lanes.sides.get(lane, [])
    joints = [("side", lane)] if len(sides) == 2 else []
    return joints + [("tee", lane)] if sides and lane in lanes.straight else joints


def runs_of(lanes, inputs, outputs, voids):
    """The runs, and one from each side merge to the tee of its lane."""
    runs = []
    starts = [(("input", lane), lane) for lane in inputs]
    starts += [(("void", lane), lane) for lane in voids]
    for lane in product(lanes.at, LANES):
        if lanes.is_half(lane):
            starts.append((("half", lane), None))
        elif joints_of(lanes, lane):
            joints = joints_of(lanes, lane)
            if len(joints) == 2:
                runs.append(Run(*joints, [lanes.part(lane[0])], None))
            starts.append((joints[-1], lane))
    for start, first in starts:
        run = run_from(lanes, start, first, outputs)
        if run:
            runs.append(run)
    return runs


def run_from(lanes, start, first, outputs):
    """The run from a start, whose first lane is this; from a half where None. None where a half's
    front cell is empty."""
    last, lane = start[1], first if first else lanes.next_link(start[1])
    parts = [lanes.part(start[1][0])]
    while lane is not None:
        parts.append(lanes.part(lane[0]))
        last, lane = lane, lanes.next_link(lane)
    onto = lanes.onto.get(last)
    if onto is not None:
        if lanes.is_half(onto):
            target = "half", onto
        else:
            joints = joints_of(lanes, onto)
            target = joints[-1 if lanes.straight.get(onto) == last else 0]
        parts.append(lanes.part(onto[0]))
    elif last in lanes.stops:
        target = "stop", last
    elif last in outputs:
        target = "output", last
    else:
        return None
    return Run(start, target, parts, last)


def prefer(lanes, net, run, starts, targets, number, merges):
    """Notes where an edge comes first: at halves that splitters prefer, and at merges by law."""
    if run.start[0] == "half":
        cell = run.start[1][0]
        if lanes.part(cell).give == lanes.at[cell][1]:
            net.first["give"][starts[run.start][1]] = number
    word, lane = run.target
    is_first = (
        word == "half" and lanes.part(lane[0]).take == lanes.at[lane[0]][1]
        or word == "tee" and merges != ANY and lanes.straight[lane] == run.last
        or word == "side" and merges == REAR and lanes.sides[lane][0] == run.last
    )
    if is_first:
        net.first["take"][targets[run.target][1]] = number
