"""Loaders at the ends of a test rig: what a loader gives to a belt comes in there, and what it takes from one goes out,
so without them the belts that they stand at are ends."""

from . import design
from .design import step

LOADERS = {"loader": 2, "fast-loader": 2, "express-loader": 2, "turbo-loader": 2, "loader-1x1": 1}
"""The game's loaders, with how many tiles long they are."""


def cells_of(middle, direction, length):
    """The cells of a loader with this middle, in halves of a tile."""
    along = 0 if direction in (design.EAST, design.WEST) else 1
    x, y = (int(it) for it in middle)
    if length == 1:
        return [((x - 1) // 2, (y - 1) // 2)]
    return [(x // 2 + by, (y - 1) // 2) if along == 0 else ((x - 1) // 2, y // 2 + by) for by in (-1, 0)]


def end_loaders(text, treated=()):
    """The numbers in the list of entities of the loaders that stand at ends: each in line with the one belt that it
    touches, and no container between one that takes and one that gives; of all loaders, or of none."""
    if not any(f'"{name}"' in text for name in LOADERS):
        return set()
    try:
        found, entities = design.read(text, treated=treated), design.entities_of(text)
    except design.Unreadable:
        return set()
    there = {cell: part for part in found.parts for cell in part.cells}
    loaders = [it for it in found.strangers if it.name in LOADERS]
    boxes = {cell: it for it in found.strangers if it.name not in LOADERS for cell in it.cells}
    sides, ends = {}, set()
    for it in loaders:
        entity = entities[it.entity]
        direction = design.direction_of(entity, found.sixteenths)
        if direction is None:
            return set()
        cells = cells_of(it.middle, direction, LOADERS[it.name])
        mouths = [step(cells[0], direction, -1), step(cells[-1], direction)]
        if direction in (design.NORTH, design.WEST):
            mouths = [step(cells[-1], direction, -1), step(cells[0], direction)]
        parts = [there[cell] for cell in mouths if cell in there]
        if len(parts) != 1 or any((part.direction - direction) % 2 for part in parts):
            return set()
        for cell in mouths:
            if cell in boxes:
                sides.setdefault(id(boxes[cell]), set()).add(str(entity.get("type")))
        ends.add(it.entity)
    return set() if any(len(them) > 1 for them in sides.values()) else ends
