"""Bare halves of splitters, and how they are opened: with belts of the splitter's tier, straight from the half to one
cell beyond the border of the design, where that way is free; where it crosses another such way, turned at the first
belt. What comes out has the network of before and just these ends more, by the program's own word; a half for which
that isn't so stays bare."""

from bisect import bisect_left, bisect_right
from collections import defaultdict
from dataclasses import dataclass, field, replace

from . import design, ends, labels, leading, refusals
from .design import EAST, PREFIXES, SOUTH, WEST, step
from .entities import listed
from .trace import Half, Layout, Untraced, bare_ends, place_of, same_network, spelled, tile

NO_ENDS = "refused 42 "


class Refused(Exception):
    """Why a design has no network, as the program says it."""


@dataclass(frozen=True)
class Way:
    """The belts from a bare end to beyond the border: the end's place, its splitter, whether it is an output, and the
    belts from the half on, each with its cell and its direction; or why there is no way."""

    place: tuple
    splitter: object
    front: bool
    belts: tuple
    why: str | None = None


@dataclass(frozen=True)
class Opened:
    """A design with some of its bare halves opened."""

    text: str
    answer: str
    """The program's network of it, or its refusal."""
    belts: int
    """How many belts were added, behind all other entities."""
    opened: list
    unopened: list
    """The ends that can't be opened, each with the reason."""
    before: tuple
    """How many inputs and outputs there were, are, and would be with all open."""
    after: tuple
    would: tuple
    ends: str = ""
    """What the rule of ends tells, as `ends` names it; nothing where it isn't asked."""
    gaps: list = field(default_factory=list)
    """The tiles at which a belt may be missing."""
    choices: list = field(default_factory=list)
    """Where several choices of halves make the ends that the label tells of, the design with each, the likely one
    first."""
    is_marked: bool = False
    """Whether the ends are marked in the network alone, since not all have room for belts: the network is what is
    judged."""
    lacking: tuple | None = None
    """Of one of several choices the tile at which it lacks room to be led out by belts, or None."""


class Ground:
    """The cells that are taken, by row and by column, and by what."""

    def __init__(self, found, bystanders):
        self.taken = {cell: it.name for it in bystanders for cell in it.cells}
        self.taken |= {cell: f"the {part.kind}" for part in found.parts for cell in part.cells}
        self.box = design.box_of([cell for part in found.parts for cell in part.cells])
        lines = defaultdict(list)
        for cell in self.taken:
            for axis in (0, 1):
                lines[axis, cell[1 - axis]].append(cell[axis])
        self.lines = {key: sorted(them) for key, them in lines.items()}

    def first_taken(self, cell, direction, most):
        """The first taken cell ahead, so many cells away at most, or None."""
        axis = 0 if direction in (EAST, WEST) else 1
        line = self.lines.get((axis, cell[1 - axis]), [])
        at = bisect_right(line, cell[axis]) if direction in (EAST, SOUTH) else bisect_left(line, cell[axis]) - 1
        if not 0 <= at < len(line) or abs(line[at] - cell[axis]) > most:
            return None
        return (line[at], cell[1]) if axis == 0 else (cell[0], line[at])

    def to_border(self, cell, direction):
        """How many cells lie between this one and that beyond the border ahead, which counts."""
        least_x, least_y, most_x, most_y = self.box
        return {0: cell[1] - least_y, 1: most_x - cell[0], 2: most_y - cell[1], 3: cell[0] - least_x}[direction] + 1


def straight(cell, direction, count, front):
    """The belts of a straight way that leads from a half in a direction."""
    belt = direction if front else (direction + 2) % 4
    return tuple((step(cell, direction, k), belt) for k in range(1, count + 1))


def turned(ground, used, cell, direction, front):
    """The belts of the shorter way that is turned at its first belt, to the left or to the right; or None."""
    first, found = step(cell, direction), []
    for aside in ((direction + 3) % 4, (direction + 1) % 4):
        count = ground.to_border(first, aside)
        if count > 0 and ground.first_taken(first, aside, count) is None:
            rest = straight(first, aside, count, front)
            found.append(((first, aside if front else (direction + 2) % 4), *rest))
    found = [it for it in found if not any(place in used for place, _ in it)]
    return min(found, key=len, default=None)


def ways_of(found, bystanders, most):
    """The ways of all bare ends, with so many belts at most. No two of them cross: the shorter goes before, and the
    other is turned where it can be."""
    ground, ways, used, ends = Ground(found, bystanders), {}, {}, []
    for bare in bare_ends(found.parts):
        part = found.parts[bare.part]
        direction, cell = (part.direction if bare.front else (part.direction + 2) % 4), part.cells[bare.half]
        ends.append((ground.to_border(cell, direction), bare, direction, cell))
    for count, bare, direction, cell in sorted(ends, key=lambda it: it[0]):
        place, there = place_of(found.parts, bare), ground.first_taken(cell, direction, count)
        why, belts = None, ()
        if there is not None:
            why = f"{ground.taken[there]} at tile {tile(there)} is in the way"
        elif count <= most - len(used):
            belts = straight(cell, direction, count, bare.front)
            crossed = next((used[it] for it, _ in belts if it in used), None)
            belts = belts if crossed is None else turned(ground, used, cell, direction, bare.front) or ()
            why = None if belts else f"its way crosses that of the {spelled([crossed])}"
        if why is None and not 0 < len(belts) <= most - len(used):
            why, belts = f"the design would have more than {design.MOST_ENTITIES} entities", ()
        used |= {it: place for it, _ in belts}
        ways[bare] = Way(place, found.parts[bare.part], bare.front, belts, why)
    return [ways[bare] for _, bare, *_ in ends]


def belts_of(found, entities, ways):
    """The entities of the belts of these ways, behind those that there are."""
    numbers = [it.value("entity_number") for it in entities]
    number = max((it for it in numbers if isinstance(it, int)), default=0)
    quarter = 4 if found.sixteenths else 2
    for way in ways:
        for cell, direction in way.belts:
            number += 1
            halves = (2 * it + 1 + by for it, by in zip(cell, found.shift))
            x, y = (it / 2 if it % 2 else it // 2 for it in halves)
            name, turn = PREFIXES[way.splitter.tier] + "transport-belt", quarter * direction
            yield f'{{"entity_number":{number},"name":"{name}","position":{{"x":{x},"y":{y}}},"direction":{turn}}}'


def without(lines, ends):
    """A network's lines without these ends and the edges at them, all else numbered anew."""
    places, kept, edges, counts = {}, [], [], [0, 0]
    for which, sign in enumerate("io"):
        for k in range(int(lines[0].split(" ")[1 + which])):
            if f"{sign}{k}" not in ends:
                places[f"{sign}{k}"] = f"{sign}{counts[which]}"
                counts[which] += 1
    told = [line.split(" ") for line in lines[1:]]
    for number, (_, source, target, *cap) in enumerate(it for it in told if it[0] == "edge"):
        if source not in ends and target not in ends:
            edges.append(number)
            kept.append(" ".join(["edge", places.get(source, source), places.get(target, target), *cap]))
    numbers = {str(old): new for new, old in enumerate(edges)}
    kept += [f"{it[0]} {it[1]} {numbers[it[2]]}" for it in told if it[0] in ("give", "take") and it[2] in numbers]
    return [f"net {counts[0]} {counts[1]} {lines[0].split(' ')[3]}", *kept, "end"]


def plain(lines):
    return [line for line in lines if line.split(" ")[0] not in ("give", "take")]


class Opening:
    """A design with the program's word on it, from which ways are opened."""

    def __init__(self, text, bystanders, recover):
        self.text, self.recover = text, recover
        self.taken = [cell for it in bystanders for cell in it.cells]
        self.answer = recover(text)
        if self.answer.startswith("net "):
            self.lines, self.is_whole = self.answer.splitlines(), True
        elif self.answer.startswith(NO_ENDS):
            self.lines, self.is_whole = [], False
        else:
            raise Refused(self.answer)
        try:
            self.found = design.read(text)
            self.network = Layout(self.found.parts).network()
            self.bare = bare_ends(self.found.parts)
            belts = design.MOST_ENTITIES - len(self.found.parts)
            self.ways = ways_of(self.found, bystanders, belts) if self.network.splitters else []
        except (design.Unreadable, Untraced):
            self.found = self.network = None
            self.ways = self.bare = []
        self.listed = listed(text) if self.ways else None
        if self.network and not self.is_whole:
            self.lines = self.network.lines()

    def ends(self):
        """How many inputs and outputs there are."""
        return tuple(map(int, self.lines[0].split(" ")[1:3])) if self.lines else (0, 0)

    def more_ends(self, ways):
        """How many there are with these ways open."""
        inputs, outputs = self.ends()
        return inputs + sum(not it.front for it in ways), outputs + sum(it.front for it in ways)

    def with_ways(self, ways):
        """The text with these ways open, and what the program says of it; and why it can't be taken, or None."""
        text = self.listed.with_more(list(belts_of(self.found, self.listed.entities, ways)))
        answer = self.recover(text)
        other = "with belts there the network would be another one"
        if not answer.startswith(("net ", NO_ENDS)):
            return text, answer, f"with belts there the program says: {refusals.told(answer, text)}"
        try:
            network = Layout(design.read(text).parts).network()
        except (design.Unreadable, Untraced):
            return text, answer, other
        both = ("i", network.inputs), ("o", network.outputs)
        new = len(self.found.parts)
        ends = {f"{sign}{k}" for sign, them in both for k, it in enumerate(them) if it.part >= new}
        is_told = answer.startswith("net ")
        left = without(answer.splitlines() if is_told else network.lines(), ends)
        is_same = left == self.lines if self.is_whole else plain(left) == self.lines
        is_traced = same_network(network, answer) if is_told else not (network.inputs and network.outputs)
        return text, answer, None if is_traced and is_same and len(ends) == len(ways) else other

    def opened(self, ways):
        """Opens these ways, but for those with which the network would be another one."""
        best, kept, refused = (self.text, self.answer), [], {}
        left = [ways] if ways else []
        while left:
            batch = left.pop()
            text, answer, why = self.with_ways([*kept, *batch])
            if why is None:
                best, kept = (text, answer), [*kept, *batch]
            elif len(batch) == 1:
                refused[batch[0].place] = why
            else:
                half = len(batch) // 2
                left += [batch[half:], batch[:half]]
        reasons = ((it.place, it.why or refused.get(it.place)) for it in self.ways)
        unopened = [(place, why) for place, why in reasons if why]
        ends, belts = self.more_ends(kept), sum(len(it.belts) for it in kept)
        return Opened(*best, belts, [it.place for it in kept], unopened, self.ends(), ends, ends)


    def marked(self, ways):
        """The design with these ends marked in its network alone."""
        text = self.with_ends(ways)
        answer = self.recover(text)
        new = {f"{sign}{k}" for sign, old, now in zip("io", self.ends(), self.more_ends(ways)) for k in range(old, now)}
        if not answer.startswith("net "):
            return None
        left = without(answer.splitlines(), new)
        if sorted(left) != sorted(self.lines) if self.is_whole else sorted(plain(left)) != sorted(self.lines):
            return None
        places, after = [it.place for it in ways], self.more_ends(ways)
        return Opened(self.text, answer, 0, places, [], self.ends(), after, after, is_marked=True)

    def with_ends(self, ways):
        """The network's text with these bare halves as ends, behind those that there are."""
        parts, network = self.found.parts, self.network
        names, mixed = {part: f"s{k}" for k, part in enumerate(network.splitters)}, len({it.tier for it in parts}) > 1
        edges = [(edge.source, edge.target, edge.cap, edge.run[0][1], edge.run[-1][1]) for edge in network.edges]
        counts = list(self.ends())
        for bare in (self.bare[self.ways.index(way)] for way in ways):
            half, cap = Half(bare.part, bare.half), design.SPEED[parts[bare.part].tier] if mixed else 1
            end = f"{'io'[bare.front]}{counts[bare.front]}"
            counts[bare.front] += 1
            ends_ = (names[bare.part], end) if bare.front else (end, names[bare.part])
            edges.append((*ends_, cap, half if bare.front else None, None if bare.front else half))
        lines = [f"edge {source} {target}{f' {cap}' if cap != 1 else ''}" for source, target, cap, _, _ in edges]
        gives, takes = ({it[at]: number for number, it in enumerate(edges)} for at in (3, 4))
        for part, name in names.items():
            left = parts[part].left_half()
            for word, side, at in (("give", parts[part].give, gives), ("take", parts[part].take, takes)):
                half = Half(part, left if side == "left" else 1 - left)
                lines += [f"{word} {name} {at[half]}"] if side and half in at else []
        return "\n".join([f"net {counts[0]} {counts[1]} {len(names)}", *lines, "end\n"])

    def opened_as(self, ways):
        """The design with all of these ends: with belts where each has room for them, straight or along paths; else
        marked."""
        if all(it.why is None for it in ways):
            found = self.opened(ways)
            if len(found.opened) == len(ways):
                return found
        return self.led(ways) or self.marked(ways)

    def led(self, ways):
        """The design with all of these ends led out along paths; None where that can't be, or makes another network."""
        parts = self.found.parts
        cells = [cell for it in parts for cell in it.cells]
        pairs = [(self.bare[self.ways.index(way)], way) for way in ways]
        found = leading.led(parts, [*self.taken, *cells], design.box_of(cells), self.bare, self.network, pairs)
        belts = sum(len(it.belts) for it in found or ())
        if not found or len(parts) + belts > design.MOST_ENTITIES:
            return None
        text, answer, why = self.with_ways(found)
        places, after = [it.place for it in ways], self.more_ends(ways)
        return Opened(text, answer, belts, places, [], self.ends(), after, after) if why is None else None

    def told_ends(self, label):
        """What the rule of ends tells of the design, or None where its parts can't be traced; a pair that may be its
        own size, and fits its size and not its ends, is none."""
        if self.network is None:
            return None
        pairs = labels.told_with_sizes(label)
        told = ends.ends_of(self.found.parts, self.taken, list(pairs))
        least_x, least_y, most_x, most_y = design.box_of([cell for it in self.found.parts for cell in it.cells])
        size = most_x - least_x + 1, most_y - least_y + 1
        left = [it for it, may in pairs.items() if not (may and it in (size, size[::-1]))]
        if told.status == ends.NONE and len(left) < len(pairs):
            return ends.ends_of(self.found.parts, self.taken, left)
        return told


MODES = ("never", "label", "always")
"""When bare halves are opened: never, by the rule of ends, or all that can be."""


def opened(opening, mode, label):
    """Opens bare halves: none; or all; or by the rule of ends those that the label tells of, and where it tells of
    none, all where without them there is no input or no output."""
    free = [it for it in opening.ways if it.why is None]
    told = opening.told_ends(label)
    gaps = list(told.gaps) if told else []
    shut = opening.opened([])
    if told:
        shut = replace(shut, would=told.could)
    if mode == "always":
        return replace(opening.opened(free), gaps=gaps)
    if mode == "never" or told is None:
        return replace(shut, gaps=gaps)
    if told.status == ends.ALL and not labels.told(label):
        return replace(opening.opened(free), ends=ends.ALL, would=told.could)
    return by_choices(opening, told, replace(shut, gaps=gaps, ends=told.status, unopened=[]))


def by_choices(opening, told, shut):
    """Opens the choice of halves that is told, or makes of several a design each; else the design as it stands."""
    pairs = [it for it in zip(told.choices, told.rooms) if it[0]]
    found = [opening.opened_as([opening.ways[it] for it in halves]) for halves, _ in pairs]
    if None in found:
        return replace(shut, ends=ends.NONE)
    known = {"ends": told.status, "would": told.could, "unopened": []}
    found = [replace(it, lacking=lacking, **known) for it, (_, lacking) in zip(found, pairs)]
    return replace(shut, choices=found) if told.status == ends.SEVERAL else found[0] if found else shut
