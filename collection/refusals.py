"""Refusals of designs, in words, with the entities that they name and the tiles where these stand."""

from dataclasses import dataclass

from . import design
from .design import step
from .files import plain
from .trace import bare_ends, place_of, spelled, standing, tile
from .words import NUMBERS
from .words import WORDS as SHARED

SAID = SHARED["refusals"]
LONGEST, MOST_NAMED = NUMBERS["longest_name"], NUMBERS["most_named"]
"""How much of a name or a number is told, and how many bare halves are named at most."""

WORDS = {int(number): words for number, words in SAID["words"].items()}
OF_ENTITIES = {int(number): count for number, count in SAID["entities"].items()}
"""How many entities each refusal names first."""
TO_LAY_OUT = {int(number): words for number, words in SAID["to_lay_out"].items()}
"""Why no smaller layout of a design is looked for, where the refusal means something else than of a design."""
SIDE_LOAD, BLOCKED, NO_ENDS = 32, 33, 42
BROKEN = range(SAID["broken"]["from"], SAID["broken"]["to"] + 1)
"""The refusals of what is no blueprint at all."""


@dataclass(frozen=True)
class Refusal:
    """A refusal in words, and the places that it names: cells, each with words."""

    words: str
    places: tuple = ()


def number_of(line):
    """The number of a refusal's line, or None."""
    words = line.split(" ")
    return int(words[1]) if words[0] == "refused" and len(words) > 2 and words[1].isdigit() else None


def tiles(cells):
    """Some tiles in words."""
    *most, last = [tile(it) for it in cells]
    return f"tiles {', '.join(most)} and {last}" if most else f"tile {last}"


def told_entity(entities, index, cells):
    """An entity by its number in the blueprint, its name and its tiles, or where it has none, its position."""
    entity = design.entity_of(entities, index)
    place = f" at {tiles(cells)}" if cells else ""
    position = entity.get("position")
    if not cells and isinstance(position, dict):
        x, y = (plain(str(position.get(it)))[:LONGEST] for it in "xy")
        place = f" at x {x}, y {y}"
    told = plain(str(entity.get("entity_number", index + 1)))[:LONGEST]
    return f"entity {told} ({plain(str(entity.get('name', 'no name')))[:LONGEST]}{place})"


def feeders(parts, part):
    """The cells from which something is handed to a part."""
    at, found = standing(parts), []
    for cell in part.cells:
        for direction in range(4):
            there = at.get(step(cell, direction, -1))
            other = parts[there.part] if there else None
            if other and other is not part and other.kind != "entrance" and other.direction == direction:
                found.append(other.cells[there.half])
    return found


def obstacle(parts, part):
    """The cell in front of a part at which what leaves it can't go on, with the reason; or None."""
    at = standing(parts)
    for cell in part.cells if part.kind != "entrance" else ():
        ahead = step(cell, part.direction)
        other = parts[at[ahead].part] if ahead in at else None
        turn = (other.direction - part.direction) % 4 if other else 0
        if turn == 2:
            return ahead, "runs head-on into"
        if turn and other.kind == "splitter":
            return ahead, "runs into the side of"
        if other and not turn and other.kind == "exit":
            return ahead, "runs into the back of"
    return None


def around(number, parts, part):
    """More words of what is wrong at a part, and more cells."""
    if number == SIDE_LOAD:
        cells = feeders(parts, part)
        return (f", from {tiles(cells)}" if cells else ""), cells
    found = obstacle(parts, part) if number == BLOCKED else None
    if found is None:
        return "", []
    cell, how = found
    other = parts[standing(parts)[cell].part]
    return f": it {how} the {KINDS[other.kind]} at {tiles([cell])}", [cell]


KINDS = {"belt": "belt", "entrance": "underground entrance", "exit": "underground exit", "splitter": "splitter"}


def refusal(line, text):
    """What a refusal's line says of a design's text; of any other line, the line."""
    number, words = number_of(line), line.split(" ")
    if number not in WORDS:
        return Refusal(line)
    named = [int(it) for it in words[3 : 3 + OF_ENTITIES.get(number, 0)] if it.isdigit()]
    try:
        entities = design.entities_of(text) if named or number == NO_ENDS else []
        found = design.read(text, bounded=False) if entities else design.Design([], [])
    except design.Unreadable:
        entities, found = [], design.Design([], [])
    places = {it.entity: it for it in [*found.parts, *found.strangers]}
    cells = {entity: it.cells for entity, it in places.items() if number != 25 or it in found.parts}
    rest = [told_entity(entities, it, cells.get(it)) for it in named] + words[3 + len(named) :]
    start = f"refused {number} {words[2]}: {WORDS[number].format(*rest, '', '')}"
    marked = [(places[it].cells, start) for it in named if it in places]
    if number == NO_ENDS:
        them = [place_of(found.parts, it) for it in bare_ends(found.parts)]
        told = f"{start}; belts are wanted at halves of splitters: {spelled(them, MOST_NAMED)}" if them else start
        return Refusal(told, tuple((((x, y),), f"a belt is wanted here, for an {kind}") for kind, x, y in them))
    if named and named[0] in places and places[named[0]] in found.parts:
        more, others = around(number, found.parts, places[named[0]])
        return Refusal(start + more, (*marked, *(((cell,), start + more) for cell in others)))
    return Refusal(start, tuple(marked))


def told(line, text):
    """A refusal's line in words."""
    return refusal(line, text).words
