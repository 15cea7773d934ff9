"""Blueprints: entities are read as parts, which are belts, underground pieces and splitters."""

from typing import NamedTuple

from opinion.answers import need
from opinion.json_text import halves

MOST_ENTITIES = 16384
FARTHEST = 1 << 20  # of twice a coordinate, with either sign
TIERS = ("basic", "fast", "express", "turbo")
STEPS = ((0, -1), (1, 0), (0, 1), (-1, 0))  # of north, east, south and west
BELT, PIECE, SPLITTER = "transport-belt", "underground-belt", "splitter"
ENTRANCE, EXIT = "input", "output"  # the two kinds of underground pieces
NAMES = {
    front + name: (name, tier)
    for name in (BELT, PIECE, SPLITTER)
    for tier, front in enumerate(("", "fast-", "express-", "turbo-"))
}
SIDES = ("input_priority", "output_priority")
WIDEST_VERSION = 1 << 64
VERSION_TWO = 2 << 48  # from here on a turn has 16 directions, before it 8
UNREAD = ("control_behavior", "filter")  # with either an entity does what is not read here


class Part(NamedTuple):
    """An entity. The cell of a splitter is its lesser half's, in the west or the north."""

    kind: str
    tier: int
    dir: int
    cell: tuple
    take: int  # the half from which a splitter takes first, 0 the lesser, or None
    give: int  # and to which it gives first


def moved(cell, way, steps=1):
    """The cell so many steps from a cell in a direction."""
    return cell[0] + steps * STEPS[way][0], cell[1] + steps * STEPS[way][1]


def cells_of(part):
    """The cells of a part; of a splitter the lesser half's, then that east or south of it."""
    if part.kind == SPLITTER:
        return [part.cell, moved(part.cell, 1 + part.dir % 2)]
    return [part.cell]


def parts_of(root, priorities):
    """The parts of a blueprint, in the order of its entities.

    Unless priorities are read, a preferred side is refused as a filter is. The first entity
    tells whether centres of cells are whole numbers or lie half-way between them.
    """
    entities, turn = entities_of(root)
    parts, shift = [], None
    for index, entity in enumerate(entities):
        kind, tier = kind_of(index, entity)
        spot = position_of(index, entity)
        way = direction_of(index, entity, turn)
        kind = piece_of(index, entity) if kind == PIECE else kind
        sides = sides_of(index, entity) if kind == SPLITTER else ("none", "none")
        cell, shift = cell_of(index, kind, way, spot, shift)
        for member in UNREAD:
            need(member not in entity, 27, "Special", index, member)
        for member, side in zip(SIDES, sides):
            need(side == "none" or priorities, 27, "Special", index, member)
        parts.append(Part(kind, tier, way, cell, *(half_of(side, way) for side in sides)))
    return parts


def entities_of(root):
    """The entities of a blueprint, and how many steps of its directions a quarter turn has.

    A book is refused as such. A blueprint may leave its entities and its version out.
    """
    blueprint = root.get("blueprint") if isinstance(root, dict) else None
    entities = blueprint.get("entities", []) if isinstance(blueprint, dict) else None
    is_book = isinstance(root, dict) and "blueprint" not in root and "blueprint_book" in root
    need(not is_book, 21, "Book")
    need(isinstance(entities, list), 20, "NotBlueprint")
    twice = halves(blueprint["version"]) if "version" in blueprint else 0
    need(twice is not None and twice % 2 == 0, 20, "NotBlueprint")
    version = twice // 2
    need(0 <= version < WIDEST_VERSION, 20, "NotBlueprint")
    need(len(entities) <= MOST_ENTITIES, 22, "TooMany")
    return entities, 2 if version < VERSION_TWO else 4


def kind_of(index, entity):
    """An entity's kind and tier, by its name."""
    need(isinstance(entity, dict), 24, "BadMember", index, "entity")
    need(isinstance(entity.get("name"), str), 24, "BadMember", index, "name")
    need(entity["name"] in NAMES, 23, "Unsupported", index)
    return NAMES[entity["name"]]


def position_of(index, entity):
    """Twice an entity's coordinates, each None where that is no whole number."""
    spot = entity.get("position")
    is_spot = isinstance(spot, dict) and all(isinstance(spot.get(axis), tuple) for axis in "xy")
    need(is_spot, 24, "BadMember", index, "position")
    return [halves(spot[axis]) for axis in "xy"]


def direction_of(index, entity, turn):
    """An entity's direction in quarter turns from north, which is where none is told."""
    twice = halves(entity["direction"]) if "direction" in entity else 0
    need(twice in range(0, 8 * turn, 2 * turn), 24, "BadMember", index, "direction")
    return twice // (2 * turn)


def piece_of(index, entity):
    """Whether an underground piece is an entrance or an exit."""
    need(entity.get("type") in (ENTRANCE, EXIT), 24, "BadMember", index, "type")
    return entity["type"]


def sides_of(index, entity):
    """The sides that a splitter prefers: where it takes from, and where it gives to."""
    for member in SIDES:
        is_side = entity.get(member, "none") in ("none", "left", "right")
        need(is_side, 24, "BadMember", index, member)
    return tuple(entity.get(member, "none") for member in SIDES)


def cell_of(index, kind, way, twice, shift):
    """The cell of an entity, by twice its coordinates, and the shift of all coordinates.

    Its centre is a cell's, or of a splitter the middle of two cells, which lie across its
    direction. The shift of the first entity holds for all.
    """
    need(None not in twice and max(map(abs, twice)) <= FARTHEST, 25, "OffGrid", index)
    odd = [way % 2, 1 - way % 2] if kind == SPLITTER else [1, 1]
    shift = shift or [(at + want) % 2 for at, want in zip(twice, odd)]
    twice = [at - by for at, by in zip(twice, shift)]
    is_on_grid = all(at % 2 == want for at, want in zip(twice, odd))
    need(is_on_grid, 25, "OffGrid", index)
    return tuple((at - 1) // 2 for at in twice), shift


def half_of(side, way):
    """The half of a splitter on a side of it, or None.

    The lesser half is the left one where it faces north or east, and else the right one.
    """
    if side == "none":
        return None
    return int((side == "right") != (way > 1))
