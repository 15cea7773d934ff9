"""A design's parts as they are drawn: what each entity is, where it stands, and which way it goes."""

import json
from dataclasses import dataclass
from decimal import Decimal
from pathlib import Path

TIERS = ("basic", "fast", "express", "turbo")
SPEED = {tier: speed for speed, tier in enumerate(TIERS, 1)}
REACH = {"basic": 4, "fast": 6, "express": 8, "turbo": 10}
"""How many tiles lie between the two ends of an underground belt at most."""

PREFIXES = {"basic": "", "fast": "fast-", "express": "express-", "turbo": "turbo-"}
BODIES = {"transport-belt": "belt", "underground-belt": "underground", "splitter": "splitter"}
NAMES = {prefix + body: (kind, tier) for tier, prefix in PREFIXES.items() for body, kind in BODIES.items()}
PIECES = {"input": "entrance", "output": "exit"}

BYSTANDERS = {
    name: tuple(map(int, size.split("x")))
    for size, names in json.loads(Path(__file__).with_name("bystanders.json").read_text("utf-8"))["tiles"].items()
    for name in names
}
"""What can't touch a belt, with its size where it faces north."""

NORTH, EAST, SOUTH, WEST = range(4)
STEPS = ((0, -1), (1, 0), (0, 1), (-1, 0))
"""How a cell's coordinates change by a step to the north, east, south and west: x grows to the east, y to the south."""

SIXTEENTHS_SINCE = 2
"""From this major version on a full turn has sixteen directions, and eight before."""

MOST_ENTITIES = 16384
WIDEST = 2048
"""How many cells a picture has at most, from west to east and from north to south."""


class Unreadable(Exception):
    """Why no picture can be drawn, in words."""


@dataclass(frozen=True)
class Part:
    """A belt, an end of an underground belt, or a splitter; a splitter's lesser half is its first cell."""

    entity: int
    kind: str
    tier: str
    direction: int
    cells: tuple
    give: str | None = None
    """The side of its output that a splitter prefers, left or right; and of its input."""
    take: str | None = None

    def left_half(self):
        """Which of a splitter's cells is on the left hand of one who looks in its direction."""
        return 0 if self.direction in (NORTH, EAST) else 1


@dataclass(frozen=True)
class Stranger:
    """An entity that is no part: where its middle is, in halves of a tile; how many tiles wide and high it is; and
    whether it stands by, since it can't touch a belt."""

    entity: int
    name: str
    middle: tuple
    size: tuple = (1, 1)
    stands_by: bool = False

    @property
    def cells(self):
        """The cells that it reaches into, from west to east and then from north to south."""
        ranges = (range((it - size) // 2, (it + size + 1) // 2) for it, size in zip(self.middle, self.size))
        xs, ys = ranges
        return tuple((x, y) for y in ys for x in xs)


@dataclass
class Design:
    """What a blueprint shows, and how its text tells places and directions."""

    parts: list
    strangers: list
    shift: tuple = (0, 0)
    """By how many halves of a tile the positions are greater than those of the cells."""
    sixteenths: bool = False
    """Whether a full turn has sixteen directions, and not eight."""

    def tiers(self):
        """How many parts of each kind there are of each tier, for the tiers that occur."""
        return {
            tier: {kind: sum(it.kind == kind for it in parts) for kind in ("belt", "entrance", "exit", "splitter")}
            for tier in TIERS
            if (parts := [it for it in self.parts if it.tier == tier])
        }

    def box(self):
        """The least and the greatest x and y of the cells."""
        return box_of([cell for it in [*self.parts, *self.strangers] for cell in it.cells])


def box_of(cells):
    """The least and the greatest x and y of some cells."""
    return min(x for x, _ in cells), min(y for _, y in cells), max(x for x, _ in cells), max(y for _, y in cells)


def step(cell, direction, count=1):
    """The cell so many steps away."""
    return cell[0] + count * STEPS[direction][0], cell[1] + count * STEPS[direction][1]


def halves(number):
    """Twice a coordinate, or None where that is no number within bounds."""
    try:
        twice = 2 * Decimal(str(number))
    except ArithmeticError:
        return None
    return twice if twice.is_finite() and abs(twice) <= 2**31 else None


def entity_of(entities, index):
    """The entity at a place of the list, or an empty one."""
    found = entities[index] if 0 <= index < len(entities) else None
    return found if isinstance(found, dict) else {}


def blueprint_of(text):
    """The blueprint's members."""
    try:
        root = json.loads(text, parse_float=Decimal)
    except (ValueError, ArithmeticError, RecursionError):
        raise Unreadable("the text is no JSON that can be drawn") from None
    blueprint = root.get("blueprint") if isinstance(root, dict) else None
    if not isinstance(blueprint, dict):
        raise Unreadable("the text is no blueprint")
    return blueprint


def entities_of(text):
    """The list of a blueprint's entities, whatever they are."""
    entities = blueprint_of(text).get("entities", [])
    if not isinstance(entities, list):
        raise Unreadable("the blueprint has no list of entities")
    return entities


def direction_of(entity, sixteenths):
    """North, east, south or west; None where it is none of these."""
    turn, size = entity.get("direction", 0), 4 if sixteenths else 2
    if isinstance(turn, bool) or not isinstance(turn, (int, Decimal)) or turn not in (0, size, 2 * size, 3 * size):
        return None
    return int(turn) // size


def is_wide(kind, direction, axis):
    """Whether a part has two cells along this axis: 0 from west to east, 1 from north to south."""
    return kind == "splitter" and (direction in (NORTH, SOUTH)) == (axis == 0)


def side_of(entity, member):
    """The side that a splitter prefers, where it prefers one."""
    return entity.get(member) if entity.get(member) in ("left", "right") else None


def middle_of(entity):
    """An entity's middle, in halves of a tile, or None where it has none."""
    position = entity.get("position")
    middle = [halves(position.get(it)) for it in "xy"] if isinstance(position, dict) else [None]
    return None if None in middle else tuple(middle)


def stranger_of(index, entity, middle, sixteenths, is_nothing=False):
    """What is no part, at the tiles nearest to its position; whether it is taken for nothing."""
    name = entity.get("name")
    size = BYSTANDERS.get(name) if isinstance(name, str) else None
    sides = size or (1, 1)
    sides = sides[::-1] if direction_of(entity, sixteenths) in (EAST, WEST) else sides
    return Stranger(index, str(name), tuple(map(int, middle)), sides, size is not None or is_nothing)


def cells_of(kind, direction, middle):
    """The cells of a part with this middle, the lesser one first."""
    x, y = middle
    if kind != "splitter":
        return (((x - 1) // 2, (y - 1) // 2),)
    if direction in (NORTH, SOUTH):
        return (x // 2 - 1, (y - 1) // 2), (x // 2, (y - 1) // 2)
    return ((x - 1) // 2, y // 2 - 1), ((x - 1) // 2, y // 2)


def part_of(index, entity, name, middle, shift, sixteenths):
    """The part that an entity of this name is, on the grid with this shift, or where none is given on its own; None
    where it is none."""
    direction = direction_of(entity, sixteenths)
    if name not in NAMES or direction is None or any(it != int(it) for it in middle):
        return None, shift
    kind, tier = NAMES[name]
    kind = PIECES.get(str(entity.get("type")), "entrance") if kind == "underground" else kind
    off = tuple(int(middle[axis] + (not is_wide(kind, direction, axis))) % 2 for axis in (0, 1))
    if off != (shift or off):
        return None, shift
    cells = cells_of(kind, direction, [int(it) - by for it, by in zip(middle, off)])
    sides = [side_of(entity, it) for it in ("output_priority", "input_priority")] if kind == "splitter" else []
    return Part(index, kind, tier, direction, cells, *sides), off


def read(text, bounded=True, treated=()):
    """The parts of a blueprint's text, and what is no part; the first part tells how the grid lies. What has no
    position is left out. Where it is bounded, what is too much for a picture isn't read. Names are taken for others as
    told."""
    blueprint = blueprint_of(text)
    entities = entities_of(text)
    if bounded and len(entities) > MOST_ENTITIES:
        raise Unreadable(f"there are more than {MOST_ENTITIES} entities")
    version = blueprint.get("version", 0)
    sixteenths = isinstance(version, (int, Decimal)) and version >= SIXTEENTHS_SINCE << 48
    parts, others, shift, treated = [], [], None, dict(treated)
    for index, entity in enumerate(entities):
        middle = middle_of(entity) if isinstance(entity, dict) else None
        if middle is not None:
            name = entity.get("name") if isinstance(entity.get("name"), str) else None
            part, shift = part_of(index, entity, treated.get(name, name), middle, shift, sixteenths)
            parts += [part] if part else []
            others += [] if part else [(index, entity, middle)]
    if not parts and not others:
        raise Unreadable("the blueprint has no entities" if not entities else "no entity has a position")
    shift = shift or (0, 0)
    moved = [(index, entity, [it - by for it, by in zip(middle, shift)]) for index, entity, middle in others]
    nothing = {name for name, part in treated.items() if part is None}
    strangers = [stranger_of(*it, sixteenths, str(it[1].get("name")) in nothing) for it in moved]
    found = Design(parts, strangers, shift, sixteenths)
    least_x, least_y, most_x, most_y = found.box()
    if bounded and max(most_x - least_x, most_y - least_y) >= WIDEST:
        raise Unreadable(f"the entities reach over more than {WIDEST} tiles")
    return found


def bystanders(text, treated=()):
    """What stands by in a blueprint's text, which may be more than a picture shows."""
    try:
        return [it for it in read(text, bounded=False, treated=treated).strangers if it.stands_by]
    except Unreadable:
        return []
