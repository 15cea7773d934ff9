"""Belts by which bare halves are led out of a design where no straight way is free: along paths on free tiles, none of
which is shared. A path that a flow finds is one of the fewest turns back, and no more is said of it."""

from dataclasses import replace

from .design import step
from .ends import Tiles, outside, way_out


class Paths(Tiles):
    """The free tiles of a design as a graph, and the paths from some bare ends to beyond its border."""

    def __init__(self, parts, taken, box, ends):
        super().__init__(taken, box)
        self.parts, self.ends, self.cell_of = parts, ends, {}
        self.starts = [self.start(it) for it in ends]
        self.spread()

    def start(self, bare):
        """The node of a bare end, whose one edge leads to the tile beyond it."""
        node = self.node()
        self.edge(self.source, node, 1)
        self.lead(node, outside(self.parts[bare.part], bare))
        return node

    def led(self, edge, cell):
        """Remembers the tile that an edge leads to."""
        self.cell_of[edge] = cell

    def found(self):
        """The tiles of each end's path, from the half on; None where not all can be led out together."""
        room = list(self.room)
        if not all(self.is_raised(self.source, self.sink, room) for _ in self.ends):
            return None
        return [self.path(node, room) for node in self.starts]

    def path(self, node, room):
        """The tiles from a node on, along the edges on which something flows."""
        cells = []
        while True:
            edge = next(it for it in self.out[node] if it in self.cell_of and not room[it])
            cells.append(self.cell_of[edge])
            if cells[-1] not in self.into:
                return cells
            node = self.into[cells[-1]] + 1


def belts_along(parts, bare, cells):
    """The belts of a path, each with its tile and its direction: away from an end in front, and towards one at the
    back."""
    part = parts[bare.part]
    line = [part.cells[bare.half], *cells]
    ways = [next(it for it in range(4) if step(one, it) == other) for one, other in zip(line, line[1:])]
    if bare.front:
        return tuple(zip(cells, [*ways[1:], ways[-1]]))
    return tuple((cell, (way + 2) % 4) for cell, way in zip(cells, ways))


def led(parts, taken, box, bare, network, pairs):
    """The ways of these ends, each with its bare end, with belts along paths; None where not all can be led out, or
    would be more than are allowed. What stands in front of an end, or of another bare half, is left free."""
    chosen = [it for it, _ in pairs]
    kept = {outside(parts[it.part], it) for it in bare if it not in chosen}
    kept |= {step(parts[it.part].cells[it.half], parts[it.part].direction) for it in network.outputs}
    starts = {outside(parts[it.part], it) for it in chosen}
    found = Paths(parts, (set(taken) | kept - starts), box, chosen).found()
    if found is None:
        return None
    return [replace(way, belts=belts_along(parts, it, cells), why=None) for (it, way), cells in zip(pairs, found)]
