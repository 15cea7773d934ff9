"""Which bare halves of a design's splitters are ends, where its label tells how many inputs and outputs it has.

A label tells of counts alone, so what can't be told by them stays open: all choices of halves are found with which each
output is reached from each input, each splitter lies on a way from an input to an output, and no part stands in front
of a chosen half. Choices that make the same network are one. Where two networks are left, both are told: none is
dropped by where its halves lie, also where they can't all be led to beyond the design's border on free tiles, since
undergrounds may have led them there. Those come last, each with the tile at which there is no room.

It rests on parts and the network that they form, so that the same rule can be written elsewhere line by line."""

from dataclasses import dataclass

from .design import SPEED, box_of, step
from .trace import Layout, bare_ends

MOST_CHOICES, MOST_NETWORKS = 256, 64
"""How many choices there are at most, and how many networks; where there are more, none is told."""
MOST_LOOKED_AT = 20_000
"""How many ways to share ends among splitters are looked at for a label at most."""
MOST_SPLITTERS, MOST_BARE, MOST_CELLS = 512, 512, 65_536
"""How many splitters, bare ends, and cells of the design's box there are at most where choices are looked for."""
MOST_VISITED = 1_000_000
"""How many cells are come by at most where it is looked whether ends can be led out; beyond that there are too many to
look at."""
MOST_TRIED = 200
"""How many choices are tried to find that two networks are the same at most."""

WHOLE, ALL, ONE, SEVERAL, NONE, MANY, GAP = "whole", "all", "one", "several", "none", "many", "gap"
"""What comes out: the ends that stand are those that are meant; all bare halves are ends; one choice of them makes the
ends of the label, or several that make other networks, or none, or too many to look at; or a belt may be missing."""
UNJUDGED = (NONE, MANY, GAP)
"""What comes out where nothing is decided."""


@dataclass(frozen=True)
class Ends:
    """What is told of a design's ends."""

    status: str
    choices: tuple
    """The choices, the likely one first: of each the numbers of the halves that are ends, among `bare_ends`."""
    rooms: tuple
    """Of each choice the tile at which it lacks room to be led out, or None."""
    gaps: tuple
    """The tiles at which a belt may be missing."""
    stand: tuple
    """How many inputs and outputs stand, and how many there would be with all bare halves."""
    could: tuple


def ends_of(parts, taken, pairs):
    """What is told of the ends of these parts, where other things stand on the taken cells, and a label tells of these
    pairs of numbers; Untraced where the parts have no network."""
    network, bare = Layout(parts).network(), bare_ends(parts)
    stand = len(network.inputs), len(network.outputs)
    could = stand[0] + sum(not it.front for it in bare), stand[1] + sum(it.front for it in bare)
    everything = tuple(range(len(bare)))
    if could in pairs:
        return Ends(ALL if bare else WHOLE, (everything,), (None,), (), stand, could)
    gaps = gaps_of(parts, taken, network, bare)
    if gaps:
        return Ends(GAP, (), (), gaps, stand, could)
    if stand in pairs or not pairs and min(stand) > 0:
        return Ends(WHOLE, ((),), (None,), (), stand, could)
    if not pairs:
        return Ends(ALL, (everything,), (None,), (), stand, could)
    least_x, least_y, most_x, most_y = box_of([cell for part in parts for cell in part.cells])
    cells = (most_x - least_x + 1) * (most_y - least_y + 1)
    if len(network.splitters) > MOST_SPLITTERS or len(bare) > MOST_BARE or cells > MOST_CELLS:
        return Ends(MANY, (), (), (), stand, could)
    plan, found = Plan(parts, taken, network, bare), []
    for pair in pairs:
        if all(low <= it <= high for low, it, high in zip(stand, pair, could)):
            them = plan.choices(pair)
            if them is None or len(found) + len(them) > MOST_CHOICES:
                return Ends(MANY, (), (), (), stand, could)
            found += them
    groups = plan.grouped(found)
    if groups is None or plan.tiles.visited > MOST_VISITED:
        return Ends(MANY, (), (), (), stand, could)
    status = NONE if not groups else ONE if len(groups) == 1 else SEVERAL
    choices, rooms = zip(*groups) if groups else ((), ())
    return Ends(status, choices, rooms, (), stand, could)


def gaps_of(parts, taken, network, bare):
    """The free tiles that lie in front of an output or a bare half, and from which a belt would feed an input or a bare
    half, from west to east and then from north to south."""
    there = {cell for part in parts for cell in part.cells} | set(taken)
    fronts, fed = set(), set()
    for half in network.outputs:
        fronts.add(step(parts[half.part].cells[half.half], parts[half.part].direction))
    for half in network.inputs:
        part = parts[half.part]
        for turn in (1, 2, 3) if part.kind == "belt" else (2,):
            fed.add(step(part.cells[half.half], (part.direction + turn) % 4))
    for it in bare:
        part = parts[it.part]
        (fronts if it.front else fed).add(outside(part, it))
    return tuple(sorted((fronts & fed) - there, key=lambda cell: (cell[1], cell[0])))


def outside(part, bare):
    """The cell beyond a bare end of a splitter."""
    return step(part.cells[bare.half], way_out(part, bare))


def way_out(part, bare):
    """The direction from a bare end of a splitter to what is beyond it."""
    return part.direction if bare.front else (part.direction + 2) % 4


def shares(least, most, total):
    """All ways to share a total among places, so many at least and at most at each; in order."""
    if not least:
        if total == 0:
            yield ()
        return
    low, high = max(least[0], total - sum(most[1:])), min(most[0], total - sum(least[1:]))
    for count in range(low, high + 1):
        for rest in shares(least[1:], most[1:], total - count):
            yield (count, *rest)


class Flow:
    """A graph in which as much flows as can: edges in pairs, there and back, each with its room."""

    def __init__(self):
        self.out, self.target, self.room = [], [], []
        self.visited = 0
        """How many nodes were come by so far."""

    def node(self):
        """A new node's number."""
        self.out.append([])
        return len(self.out) - 1

    def edge(self, source, target, room):
        """The number of a new edge; that of its way back is the next one."""
        for at, to, much in ((source, target, room), (target, source, 0)):
            self.out[at].append(len(self.target))
            self.target.append(to)
            self.room.append(much)
        return len(self.target) - 2

    def is_raised(self, source, sink, room):
        """Lets one more flow, and takes it out of the rooms; whether it could."""
        came, line = {source: None}, [source]
        for node in line:
            self.visited += 1
            if self.visited > MOST_VISITED:
                return False
            for edge in self.out[node]:
                to = self.target[edge]
                if room[edge] and to not in came:
                    came[to] = edge
                    line.append(to)
            if sink in came:
                break
        if sink not in came:
            return False
        node = sink
        while node != source:
            edge = came[node]
            room[edge] -= 1
            room[edge ^ 1] += 1
            node = self.target[edge ^ 1]
        return True


class Tiles(Flow):
    """The free tiles of a design as a graph, from its source to beyond the border: none is come by twice."""

    def __init__(self, taken, box):
        super().__init__()
        self.taken, self.box = taken, box
        self.source, self.sink = self.node(), self.node()
        self.into = {}
        """The node of each tile that is reached."""

    def is_inside(self, cell):
        """Whether a tile is in the design's box."""
        least_x, least_y, most_x, most_y = self.box
        return least_x <= cell[0] <= most_x and least_y <= cell[1] <= most_y

    def led(self, edge, cell):
        """Is told which tile a new edge leads to."""

    def lead(self, node, cell):
        """An edge from a node to a free tile, or out of the box; whether the tile is a new one."""
        if not self.is_inside(cell):
            self.led(self.edge(node, self.sink, 1), cell)
            return False
        if cell in self.taken:
            return False
        is_new = cell not in self.into
        if is_new:
            self.into[cell] = self.node()
            self.edge(self.into[cell], self.node(), 1)
        self.led(self.edge(node, self.into[cell], 1), cell)
        return is_new

    def spread(self):
        """Reaches all free tiles from those that are reached."""
        line = list(self.into)
        for cell in line:
            for direction in range(4):
                there = step(cell, direction)
                if self.lead(self.into[cell] + 1, there):
                    line.append(there)


class Plan:
    """A design's splitters with their bare halves: what can be chosen, and what comes of it. A choice is two tuples:
    how many ends each splitter gets at its back, and in front."""

    def __init__(self, parts, taken, network, bare):
        self.parts, self.bare, self.network = parts, bare, network
        self.taken = {cell for part in parts for cell in part.cells} | set(taken)
        self.tiles = Tiles(self.taken, box_of([cell for part in parts for cell in part.cells]))
        """The graph of the free tiles by which bare ends are led out."""
        self.count = len(network.splitters)
        number = {part: at for at, part in enumerate(network.splitters)}
        self.halves = [([], []) for _ in range(self.count)]
        """Of each splitter the numbers of the bare ends at its back, and of those in front."""
        for at, it in enumerate(bare):
            self.halves[number[it.part]][it.front].append(at)
        self.ways = [self.straight(it) for it in bare]
        self.read_edges()
        self.make_flow()

    def straight(self, bare):
        """Whether the straight way from a bare end to beyond the border is taken, and how many belts it has."""
        part = self.parts[bare.part]
        cell, direction, belts = part.cells[bare.half], way_out(part, bare), 0
        is_taken = False
        while self.tiles.is_inside(cell):
            cell, belts = step(cell, direction), belts + 1
            is_taken = is_taken or cell in self.taken
        return is_taken, belts

    def read_edges(self):
        """Reads from the network which splitters lead to which, and the ends that stand at each."""
        self.stands = [[0, 0] for _ in range(self.count)]
        self.is_fed, self.is_leading = [False] * self.count, [False] * self.count
        self.next = [[] for _ in range(self.count)]
        self.is_passing = False
        """Whether an input leads to an output past all splitters."""
        for edge in self.network.edges:
            source = int(edge.source[1:]) if edge.source[0] == "s" else None
            target = int(edge.target[1:]) if edge.target[0] == "s" else None
            if source is None and target is None:
                self.is_passing = True
            elif source is None:
                self.stands[target][0] += 1
            elif target is None:
                self.stands[source][1] += 1
            else:
                self.next[source].append(target)
            if target is not None:
                self.is_fed[target] = True
            if source is not None:
                self.is_leading[source] = True
        self.reach = [self.reached(at) for at in range(self.count)]

    def reached(self, start):
        """The splitters that are reached from one, itself too."""
        found, line = {start}, [start]
        for at in line:
            for to in self.next[at]:
                if to not in found:
                    found.add(to)
                    line.append(to)
        return found

    def make_flow(self):
        """Leads the bare ends into the graph of the free tiles, and finds which can be led out."""
        self.starts = []
        """Of each bare end the edge on which it is led out."""
        for number in range(len(self.bare)):
            start = self.tiles.node()
            self.starts.append(self.tiles.edge(self.tiles.source, start, 0))
            self.tiles.lead(start, self.beyond(number))
        self.tiles.spread()
        self.outer = self.flooded()
        filled = {cell for part in self.parts for cell in part.cells}
        self.halves = [
            tuple([it for it in side if self.beyond(it) not in filled] for side in sides) for sides in self.halves
        ]
        self.free = [[len(side) for side in sides] for sides in self.halves]
        """How many bare ends each splitter has at its back and in front that no part stands in front of."""
        self.is_all_led_out = False
        out = [it for sides in self.halves for side in sides for it in side if self.is_out(it)]
        self.is_all_led_out = self.lacking(out) is None
        """Whether all bare ends that can be led out alone can be together."""

    def beyond(self, number):
        """The cell beyond a bare end."""
        return outside(self.parts[self.bare[number].part], self.bare[number])

    def is_out(self, number):
        """Whether a bare end can be led out where it is alone."""
        cell = self.beyond(number)
        return not self.tiles.is_inside(cell) or cell in self.outer

    def flooded(self):
        """The free cells from which a way leads out of the box."""
        tiles = self.tiles
        line = [cell for cell in tiles.into if any(not tiles.is_inside(step(cell, it)) for it in range(4))]
        found = set(line)
        for cell in line:
            for direction in range(4):
                beside = step(cell, direction)
                if beside in tiles.into and beside not in found:
                    found.add(beside)
                    line.append(beside)
        return found

    def lacking(self, halves):
        """The cell beyond the first of these bare ends that can't be led out, alone or together with those before it;
        None where all can."""
        alone = next((it for it in halves if not self.is_out(it)), None)
        if alone is not None:
            return self.beyond(alone)
        if self.is_all_led_out:
            return None
        room = list(self.tiles.room)
        for it in halves:
            room[self.starts[it]] = 1
            if not self.tiles.is_raised(self.tiles.source, self.tiles.sink, room):
                return self.beyond(it)
        return None

    def bounds(self, front, may):
        """How many ends each splitter gets at least and at most, where only some may get any; None where one that must
        may not."""
        must = [not there for there in (self.is_leading if front else self.is_fed)]
        least = [int(it) for it in must]
        most = [self.free[at][front] if may[at] else 0 for at in range(self.count)]
        return None if any(low > high for low, high in zip(least, most)) else (least, most)

    def shared(self, front, may, total):
        """All ways to share so many ends among the splitters that may get some."""
        both = self.bounds(front, may)
        if both is None:
            return
        least, most = both
        places = [at for at in range(self.count) if most[at]]
        for them in shares([least[at] for at in places], [most[at] for at in places], total):
            found = [0] * self.count
            for at, count in zip(places, them):
                found[at] = count
            yield tuple(found)

    def choices(self, pair):
        """All choices that make so many inputs and outputs, or None where there are too many to look at."""
        if self.is_passing or self.count == 0:
            return []
        inputs, outputs = (pair[side] - sum(it[side] for it in self.stands) for side in (0, 1))
        wanted = {at for at in range(self.count) if self.stands[at][1] or not self.is_leading[at]}
        """The splitters that have an output, or must get one."""
        may, found, looked = [wanted <= self.reach[at] for at in range(self.count)], [], 0
        for ins in self.shared(0, may, inputs):
            looked += 1
            common = self.common(ins)
            if common is not None:
                for outs in self.shared(1, [at in common for at in range(self.count)], outputs):
                    looked += 1
                    if self.is_leading_on(outs):
                        found.append((ins, outs))
                    if looked > MOST_LOOKED_AT or len(found) > MOST_CHOICES:
                        return None
            if looked > MOST_LOOKED_AT:
                return None
        return found

    def common(self, ins):
        """The splitters that are reached from all inputs; None where one is reached from none of them, or an output
        that stands isn't reached from all."""
        entered = [at for at in range(self.count) if ins[at] or self.stands[at][0]]
        if not entered:
            return None
        common, either = set(self.reach[entered[0]]), set()
        for at in entered:
            common &= self.reach[at]
            either |= self.reach[at]
        is_sound = len(either) == self.count and all(at in common for at in range(self.count) if self.stands[at][1])
        return common if is_sound else None

    def is_leading_on(self, outs):
        """Whether each splitter leads to an output."""
        left = {at for at in range(self.count) if outs[at] or self.stands[at][1]}
        return all(left & self.reach[at] for at in range(self.count))

    def halves_of(self, choice):
        """The bare ends of a choice: of two one that can be led out, then the one whose straight way is free, and then
        the shorter."""
        found = []
        for at in range(self.count):
            for front in (0, 1):
                them = sorted(self.halves[at][front], key=lambda it: (not self.is_out(it), *self.ways[it], it))
                found += them[: choice[front][at]]
        return tuple(sorted(found))

    def cost(self, halves, lacking):
        """By what choices are put in order: whether they lack room, how many straight ways are taken, and then how many
        belts there are."""
        return lacking is not None, sum(self.ways[it][0] for it in halves), sum(self.ways[it][1] for it in halves)

    def grouped(self, choices):
        """The bare ends of one choice for each network that they make, and where they lack room, the likely one first,
        each the likeliest of its network; None where there are too many networks."""
        told = [(halves, self.lacking(halves)) for halves in map(self.halves_of, choices)]
        alike, found = {}, []
        for halves, lacking in sorted(told, key=lambda it: self.cost(*it)):
            marks, edges = self.told(halves)
            colours = refined(marks, edges)
            shape = shape_of(colours, edges)
            others = alike.setdefault(shape, [])
            if not any(is_same(marks, edges, *it) for it in others):
                others.append((marks, edges))
                found.append((halves, lacking))
            if len(found) > MOST_NETWORKS:
                return None
        return found

    def told(self, halves):
        """The network with these ends, as what stands at each splitter and the edges between splitters. Each edge has
        its cap, and whether a splitter with two edges at that side prefers it."""
        mixed = len({it.tier for it in self.parts}) > 1
        number = {part: at for at, part in enumerate(self.network.splitters)}
        edges = [(edge.source, edge.target, edge.cap, edge.run[0][1], edge.run[-1][1]) for edge in self.network.edges]
        lines = []
        for source, target, cap, first, last in edges:
            lines.append([number.get(first.part), first.half, number.get(last.part), last.half, cap])
        for it in halves:
            bare = self.bare[it]
            cap, at = SPEED[self.parts[bare.part].tier] if mixed else 1, number[bare.part]
            lines.append([at, bare.half, None, 0, cap] if bare.front else [None, 0, at, bare.half, cap])
        count = [[0, 0] for _ in range(self.count)]
        for source, _, target, _, _ in lines:
            for at, front in ((source, 1), (target, 0)):
                if at is not None:
                    count[at][front] += 1
        marks, found = [[] for _ in range(self.count)], []
        for source, first, target, last, cap in lines:
            gives = source is not None and count[source][1] == 2 and self.prefers(source, first, "give")
            takes = target is not None and count[target][0] == 2 and self.prefers(target, last, "take")
            kind = 4 * cap + 2 * gives + takes
            if source is None and target is not None:
                marks[target].append((0, kind))
            elif target is None and source is not None:
                marks[source].append((1, kind))
            elif source is not None:
                found.append((source, target, kind))
        return [tuple(sorted(it)) for it in marks], found

    def prefers(self, at, half, member):
        """Whether a splitter prefers this half's side of its output, or of its input."""
        part = self.parts[self.network.splitters[at]]
        side = part.give if member == "give" else part.take
        return side is not None and (half == part.left_half()) == (side == "left")


def ranks(told):
    """Of each of some things the number of those that are less, without repeats."""
    order = {it: at for at, it in enumerate(sorted(set(told)))}
    return [order[it] for it in told]


def refined(marks, edges):
    """Colours by which vertices are told apart as far as by what stands around them; equal ones stay equal."""
    colours, number = ranks(marks), 0
    while len(set(colours)) != number:
        number = len(set(colours))
        out, into = [[] for _ in colours], [[] for _ in colours]
        for source, target, kind in edges:
            out[source].append((colours[target], kind))
            into[target].append((colours[source], kind))
        colours = ranks([(it, tuple(sorted(out[at])), tuple(sorted(into[at]))) for at, it in enumerate(colours)])
    return colours


def shape_of(colours, edges):
    """What is equal of networks that are the same."""
    return tuple(sorted(colours)), tuple(
        sorted((colours[source], colours[target], kind) for source, target, kind in edges)
    )


def is_same(marks, edges, other_marks, other_edges):
    """Whether a renaming of its splitters takes one network to another; two for which none is found in so many tries
    are taken for different ones. Both are refined as one network, in which two vertices of a pair stay equal."""
    count = len(marks)
    both = edges + [(source + count, target + count, kind) for source, target, kind in other_edges]
    waiting, tried = [[(it, -1) for it in [*marks, *other_marks]]], 0
    while waiting and tried < MOST_TRIED:
        pairs, tried = waiting.pop(), tried + 1
        colours = refined(pairs, both)
        if sorted(colours[:count]) != sorted(colours[count:]):
            continue
        classes = {}
        for at, colour in enumerate(colours):
            classes.setdefault(colour, ([], []))[at >= count].append(at)
        choices = [them for them in classes.values() if len(them[0]) > 1]
        if not choices:
            name = {ours[0]: theirs[0] - count for ours, theirs in classes.values()}
            renamed = sorted((name[source], name[target], kind) for source, target, kind in edges)
            if renamed == sorted(other_edges) and all(marks[at] == other_marks[name[at]] for at in range(count)):
                return True
            continue
        ours, theirs = min(choices, key=lambda them: (len(them[0]), them[0][0]))
        for other in reversed(theirs):
            next_ = [(pair[0], pair[1]) for pair in pairs]
            next_[ours[0]] = next_[other] = (next_[ours[0]][0], tried)
            waiting.append(next_)
    return False
