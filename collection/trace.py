"""The network that a design's parts form, with the cells that each of its edges runs over.

The program has the last word on networks: this one only tells where on a picture an edge lies, and only where its text
is what the program prints."""

from dataclasses import dataclass

from .design import REACH, SPEED, step


class Untraced(Exception):
    """Why parts have no network, in words."""


@dataclass(frozen=True)
class Half:
    """A cell of a part: of a splitter, one of its two halves."""

    part: int
    half: int = 0


@dataclass
class Edge:
    """A run of belts between two ends: from an input or a splitter to a splitter or an output."""

    source: str
    target: str
    cap: int
    run: list
    """The cells that it runs over, in order, each with the part there; a splitter's half at either end."""


@dataclass
class Network:
    """A network with its ends' cells."""

    edges: list
    inputs: list
    outputs: list
    splitters: list

    def lines(self):
        """Its text, in lines."""
        caps = (f" {it.cap}" if it.cap != 1 else "" for it in self.edges)
        edges = [f"edge {it.source} {it.target}{cap}" for it, cap in zip(self.edges, caps)]
        return [f"net {len(self.inputs)} {len(self.outputs)} {len(self.splitters)}", *edges, "end"]


def standing(parts):
    """What stands on each cell."""
    return {cell: Half(number, half) for number, part in enumerate(parts) for half, cell in enumerate(part.cells)}


def exit_ahead(parts, at, entrance):
    """The number of the exit that an entrance leads to, or None: the first piece of its tier on its line decides."""
    for count in range(1, REACH[entrance.tier] + 2):
        there = at.get(step(entrance.cells[0], entrance.direction, count))
        part = parts[there.part] if there else None
        if part and part.kind in ("entrance", "exit") and part.tier == entrance.tier:
            if (part.direction - entrance.direction) % 2 == 0:
                return there.part if part.kind == "exit" and part.direction == entrance.direction else None
    return None


@dataclass(frozen=True)
class Bare:
    """An end of a splitter's half to which no belt leads: the splitter's number among the parts, the number of the
    half's cell, and whether it is the end in front, where nothing takes, or that at the back, which nothing feeds."""

    part: int
    half: int
    front: bool


def bare_ends(parts):
    """The bare ends of all halves, in the order of the parts, and of a half that at the back first."""
    at, found = standing(parts), []
    for number, part in enumerate(parts):
        for half, cell in enumerate(part.cells if part.kind == "splitter" else ()):
            behind = at.get(step(cell, part.direction, -1))
            feeder = parts[behind.part] if behind else None
            if not feeder or feeder.kind == "entrance" or feeder.direction != part.direction:
                found.append(Bare(number, half, False))
            if step(cell, part.direction) not in at:
                found.append(Bare(number, half, True))
    return found


def tile(cell):
    return f"({cell[0]}, {cell[1]})"


def place_of(parts, bare):
    """A bare end as what it would be, an input or an output, and the cell of its half."""
    return "output" if bare.front else "input", *parts[bare.part].cells[bare.half]


def spelled(places, most=None):
    """Such places in words, so many at most."""
    more = 0 if most is None else max(0, len(places) - most)
    told = []
    for word in ("input", "output"):
        tiles = [tile(cell) for kind, *cell in places[: len(places) - more] if kind == word]
        told += [f"{word}{'s' * (len(tiles) > 1)} at {', '.join(tiles)}"] if tiles else []
    return " and ".join(told) + (f", and {more} more" if more else "")


class Layout:
    """Parts with what each hands on to."""

    def __init__(self, parts):
        self.parts, self.at = parts, standing(parts)
        if len(self.at) != sum(len(part.cells) for part in parts):
            raise Untraced("two parts stand on one tile")
        self.exit_of = {n: exit_ahead(parts, self.at, it) for n, it in enumerate(parts) if it.kind == "entrance"}
        if None in self.exit_of.values():
            raise Untraced("an underground belt has no other end")
        self.entrance_of = {exit_: entrance for entrance, exit_ in self.exit_of.items()}
        self.next, self.feeders = {}, {}
        for number, part in enumerate(parts):
            if part.kind == "exit" and number not in self.entrance_of:
                raise Untraced("an underground belt has no other end")
            for half in range(len(part.cells)):
                taker = self.taker(Half(number, half))
                self.next[Half(number, half)] = taker
                if taker is not None:
                    self.feeders.setdefault(taker, []).append(Half(number, half))
        if any(len(them) > 1 for them in self.feeders.values()):
            raise Untraced("a belt is loaded from its side")

    def taker(self, half):
        """What a part's cell hands on to, or None where its front is empty."""
        part = self.parts[half.part]
        if part.kind == "entrance":
            return Half(self.exit_of[half.part])
        taker = self.at.get(step(part.cells[half.half], part.direction))
        if taker is None:
            return None
        other = self.parts[taker.part]
        turn = (other.direction - part.direction) % 4
        if turn == 2 or (turn and other.kind == "splitter") or (turn == 0 and other.kind == "exit"):
            raise Untraced("what leaves a part can't go on")
        if turn and other.kind in ("entrance", "exit"):
            raise Untraced("an underground belt is loaded from its side")
        return taker

    def cell(self, half):
        return self.parts[half.part].cells[half.half]

    def network(self):
        """The network, numbered as the program numbers it."""
        parts = self.parts
        starts = (Half(n) for n, it in enumerate(parts) if it.kind in ("belt", "entrance"))
        stops = (Half(n) for n, it in enumerate(parts) if it.kind in ("belt", "exit"))
        inputs = sorted((it for it in starts if it not in self.feeders), key=self.cell)
        outputs = sorted((it for it in stops if self.next[it] is None), key=self.cell)
        splitters = [n for n, it in enumerate(parts) if it.kind == "splitter"]
        names = {half: f"o{k}" for k, half in enumerate(outputs)}
        names |= {Half(n, half): f"s{k}" for k, n in enumerate(splitters) for half in (0, 1)}
        mixed = len({it.tier for it in parts}) > 1
        sources = [(f"i{k}", [half]) for k, half in enumerate(inputs)]
        for k, n in enumerate(splitters):
            taken = [(half, self.next[half]) for half in (Half(n, 0), Half(n, 1))]
            sources += [(f"s{k}", [half, taker]) for half, taker in taken if taker is not None]
        edges = [self.edge(source, run, names, mixed) for source, run in sources]
        seen = {half.part for edge in edges for _, half in edge.run}
        if not seen.issuperset(n for n, it in enumerate(parts) if it.kind != "splitter"):
            raise Untraced("a ring of belts has no splitter")
        return Network(edges, inputs, outputs, splitters)

    def edge(self, source, run, names, mixed):
        while run[-1] not in names:
            run.append(self.next[run[-1]])
        cap = min(SPEED[self.parts[half.part].tier] for half in run) if mixed else 1
        return Edge(source, names[run[-1]], cap, [(self.cell(half), half) for half in run])


def same_network(network, text):
    """Whether the program's text tells the same network; lines about preferred sides are passed over."""
    lines = [line for line in text.splitlines() if line.split(" ")[0] in ("net", "edge", "end")]
    return lines == network.lines()
