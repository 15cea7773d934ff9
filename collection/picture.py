"""Pictures of designs, as plain lists of elements: the parts with what is marked on them, and the numbered ends.

`drawn` is a function of parts and marks alone, so that another program can draw the same picture of the same parts:

- An element is a list of three: a name of SVG, its members by name, and what is in it, a text or a list of elements. So
  elements are JSON; `svg` spells them.
- Every number is a whole one, and none comes about by rounding. A cell is 24 units wide: the cell (x, y) is the square
  from (24x, 24y) to (24x + 24, 24y + 24), where x grows to the east and y to the south.
- A shape is a list of commands: M and L with a point, A with a radius, whether it turns clockwise, and a point, and Z.
  It is drawn for a part that goes north, around the middle of its cells. `placed` turns it by the part's direction
  (north, east, south and west are 0 to 3), each quarter taking (x, y) to (-y, x), moves it there, and spells it, with a
  blank between two numbers alone.
- All shapes of one layer and tier make one path, in the order of the parts, and of a splitter its lesser half's first.
  So a design of a thousand parts is a few elements. The paths come in the order of `LAYERS`, each layer by tier; one
  without a shape is left out. The members of a path are `class`, which is the layer and then the tier, and `d`.
- The paths of the layer `way` stand in a group, which is there in any case, with an `id` where one is given: a state's
  flows are drawn over the parts, and this group over them once more. It comes before the layer `bend`.
- Behind the paths come the preferred sides of splitters, in the order of the parts and `give` before `take`; then what
  is no part; then what is refused, in the order given. Each is a group with a title.

`badges` numbers the ends of a network, on the cells that `badge_cells` gives, and `rules` the columns and rows.

What tells what: an entrance narrows on its way and an exit widens, and between them the run below is dashed. A half's
end to which no belt leads is hollow. Added belts have dashed rims. A preferred side has a triangle, at the front for an
output and at the back for an input. What is refused has a red frame."""

from collections import defaultdict
from dataclasses import dataclass
from html import escape

from .design import STEPS, TIERS, step
from .files import plain
from .trace import exit_ahead, standing

CELL = 24
HALF = CELL // 2

STRAIGHT = [("M", -9, 12), ("L", -9, -12), ("L", 9, -12), ("L", 9, 12), ("Z",)]
STRAIGHT_RIM = [("M", -9, 12), ("L", -9, -12), ("M", 9, 12), ("L", 9, -12)]
STRAIGHT_WAY = [("M", -5, 4), ("L", 0, -2), ("L", 5, 4)]
FROM_LEFT = [("M", -12, -9), ("A", 3, 0, -9, -12), ("L", 9, -12), ("A", 21, 1, -12, 9), ("Z",)]
FROM_LEFT_RIM = [("M", -12, -9), ("A", 3, 0, -9, -12), ("M", -12, 9), ("A", 21, 0, 9, -12)]
FROM_LEFT_WAY = [("M", -8, -5), ("L", -1, -5), ("L", -1, 2)]
BEHIND = [("M", -9, 12), ("L", -9, 0), ("L", 9, 0), ("L", 9, 12), ("Z",)]
BEHIND_RIM = [("M", -9, 12), ("L", -9, 0), ("M", 9, 12), ("L", 9, 0)]
GOING_DOWN = [("M", -11, 3), ("L", -11, 1), ("L", -5, -9), ("A", 2, 1, -3, -10), ("L", 3, -10), ("A", 2, 1, 5, -9)]
GOING_DOWN += [("L", 11, 1), ("L", 11, 3), ("Z",)]
GOING_DOWN_WAY = [("M", -4, 0), ("L", 0, -5), ("L", 4, 0)]
COMING_UP = [("M", -11, -3), ("L", -11, -1), ("L", -5, 9), ("A", 2, 0, -3, 10), ("L", 3, 10), ("A", 2, 0, 5, 9)]
COMING_UP += [("L", 11, -1), ("L", 11, -3), ("Z",)]
COMING_UP_WAY = [("M", -4, 5), ("L", 0, 0), ("L", 4, 5)]
BAR = [("M", -19, -8), ("L", 19, -8), ("A", 4, 1, 23, -4), ("L", 23, 4), ("A", 4, 1, 19, 8), ("L", -19, 8)]
BAR += [("A", 4, 1, -23, 4), ("L", -23, -4), ("A", 4, 1, -19, -8), ("Z",)]

# Of a splitter's half these are drawn around the middle of its own cell, and mirrored where it isn't on the left.
HALF_WAY = [("M", -5, 3), ("L", 0, -3), ("L", 5, 3)]
HALF_WAY_FRONT = [("M", -4, -1), ("L", 0, -6), ("L", 4, -1)]
HALF_WAY_BACK = [("M", -4, 6), ("L", 0, 1), ("L", 4, 6)]
HOLE_FRONT = [("M", -8, -1), ("L", -8, -6), ("L", 9, -6), ("L", 9, -1), ("Z",)]
HOLE_BACK = [("M", -8, 6), ("L", -8, 1), ("L", 9, 1), ("L", 9, 6), ("Z",)]
HOLE_BOTH = [("M", -8, 6), ("L", -8, -6), ("L", 9, -6), ("L", 9, 6), ("Z",)]
PREFERRED_FRONT = [("M", -7, -7), ("L", 0, -14), ("L", 7, -7), ("Z",)]
PREFERRED_BACK = [("M", -7, 14), ("L", 0, 7), ("L", 7, 14), ("Z",)]

LAYERS = ("body", "body added", "rim", "rim added", "way", "bend", "run", "solid", "hole", "cut", "hint")
UNTIERED = ("body", "body added", "hole", "cut")
"""The layers that are the same for all tiers."""


@dataclass(frozen=True)
class Marks:
    """What is marked on a picture: the bare ends of halves, as `Bare` tells them; the numbers of added belts; and what
    is refused, each with its cells and with words."""

    bare: tuple = ()
    added: frozenset = frozenset()
    refused: tuple = ()


def mirrored(shape):
    """The shape seen in a mirror that stands north to south."""
    flip = {"M": lambda x, y: (-x, y), "L": lambda x, y: (-x, y), "A": lambda r, turn, x, y: (r, 1 - turn, -x, y)}
    return [(it[0], *flip[it[0]](*it[1:])) if len(it) > 1 else it for it in shape]


def backwards(shape):
    """The shape turned by half a turn."""
    return [(*it[:-2], -it[-2], -it[-1]) if len(it) > 1 else it for it in shape]


def turned(x, y, direction):
    for _ in range(direction):
        x, y = -y, x
    return x, y


def placed(shape, direction, middle):
    """The path of a shape that goes in this direction around this middle."""
    words = []
    for name, *rest in shape:
        if not rest:
            words.append(name)
            continue
        x, y = turned(*rest[-2:], direction)
        arc = f"{rest[0]} {rest[0]} 0 0 {rest[1]} " if name == "A" else ""
        words.append(f"{name}{arc}{middle[0] + x} {middle[1] + y}")
    return "".join(words)


def middle_of(cell):
    return cell[0] * CELL + HALF, cell[1] * CELL + HALF


def middle_of_all(cells):
    """The middle of one cell, or of the two of a splitter."""
    (x, y), (far_x, far_y) = map(middle_of, (cells[0], cells[-1]))
    return (x + far_x) // 2, (y + far_y) // 2


def fed_from_side(parts, at, belt):
    """1 or 3 quarter turns to the side from which alone something leads onto a belt, or 0."""
    feeding = []
    for turn in (0, 1, 3):
        there = at.get(step(belt.cells[0], (belt.direction + 2 + turn) % 4))
        other = parts[there.part] if there else None
        if other and other.kind != "entrance" and other.direction == (belt.direction + turn) % 4:
            feeding.append(turn)
    return feeding[0] if len(feeding) == 1 else 0


TURNS = {0: (STRAIGHT, STRAIGHT_RIM, STRAIGHT_WAY), 1: (FROM_LEFT, FROM_LEFT_RIM, FROM_LEFT_WAY)}
TURNS[3] = tuple(map(mirrored, TURNS[1]))


def belt_shapes(part, turn, added):
    """The shapes of a belt, each with its layer; what is added is dashed."""
    body, rim, way = TURNS[turn]
    dashed = " added" * added
    return [("body" + dashed, body), ("rim" + dashed, rim), ("bend" if turn else "way", way)]


BEFORE, BEFORE_RIM = backwards(BEHIND), backwards(BEHIND_RIM)
ENTRANCE_SHAPES = ("body", BEHIND), ("rim", BEHIND_RIM), ("solid", GOING_DOWN), ("cut", GOING_DOWN_WAY)
EXIT_SHAPES = ("body", BEFORE), ("rim", BEFORE_RIM), ("solid", COMING_UP), ("cut", COMING_UP_WAY)


def half_shapes(is_left, front, back):
    """The shapes of a splitter's half but for the bar, by whether it is the left one, and whether its ends are bare."""
    shapes = [] if back else [("body", BEHIND), ("rim", BEHIND_RIM)]
    shapes += [] if front else [("body", BEFORE), ("rim", BEFORE_RIM)]
    if front and back:
        shapes += [("hole", HOLE_BOTH), ("hint", HALF_WAY)]
    elif front:
        shapes += [("hole", HOLE_FRONT), ("cut", HALF_WAY_BACK)]
    elif back:
        shapes += [("hole", HOLE_BACK), ("cut", HALF_WAY_FRONT)]
    else:
        shapes += [("cut", HALF_WAY)]
    return shapes if is_left else [(layer, mirrored(shape)) for layer, shape in shapes]


def layers_of(parts, marks):
    """The paths of all shapes, by layer and tier."""
    at, layers = standing(parts), defaultdict(list)
    bare = {(it.part, it.half, it.front) for it in marks.bare}

    def add(part, layer, shape, cells):
        path = placed(shape, part.direction, middle_of_all(cells))
        layers[layer, "" if layer in UNTIERED else part.tier].append(path)

    for number, part in enumerate(parts):
        shapes = {"entrance": ENTRANCE_SHAPES, "exit": EXIT_SHAPES, "splitter": (("solid", BAR),)}.get(part.kind)
        if part.kind == "belt":
            shapes = belt_shapes(part, fed_from_side(parts, at, part), number in marks.added)
        for layer, shape in shapes:
            add(part, layer, shape, part.cells)
        for half, cell in enumerate(part.cells if part.kind == "splitter" else ()):
            ends = ((number, half, front) in bare for front in (True, False))
            for layer, shape in half_shapes(half == part.left_half(), *ends):
                add(part, layer, shape, [cell])
        exit_ = exit_ahead(parts, at, part) if part.kind == "entrance" else None
        if exit_ is not None:
            (x, y), (far_x, far_y) = map(middle_of, (part.cells[0], parts[exit_].cells[0]))
            layers["run", part.tier].append(f"M{x} {y}L{far_x} {far_y}")
    return layers


def paths(layers, layer):
    """The elements of a layer."""
    tiers = [tier for tier in ("", *TIERS) if (layer, tier) in layers]
    names = [f"{layer} {tier}" if tier else layer for tier in tiers]
    return [["path", {"class": it, "d": "".join(layers[layer, tier])}, ""] for it, tier in zip(names, tiers)]


def titled(title, *elements):
    """A group of elements with a title."""
    return ["g", {}, [["title", {}, title], *elements]]


def sign(text, x, y, kind=""):
    """A word on the picture, in smaller letters where it is long."""
    names = ["sign", *kind.split(), *(["small"] if len(text) > 4 else [])]
    return ["text", {"class": " ".join(names), "x": x, "y": y}, text]


def preferred(part):
    """The marks on the sides that a splitter prefers."""
    found = []
    for side, word, shape in ((part.give, "output", PREFERRED_FRONT), (part.take, "input", PREFERRED_BACK)):
        if side:
            half = part.left_half() if side == "left" else 1 - part.left_half()
            path = placed(shape, part.direction, middle_of(part.cells[half]))
            found.append(titled(f"prefers its {side} {word}", ["path", {"class": "preferred", "d": path}, ""]))
    return found


def framed(cells, words):
    """The frame around what is refused, with the reason."""
    (x, y), (far_x, far_y) = cells[0], cells[-1]
    size = {"width": (far_x - x + 1) * CELL + 4, "height": (far_y - y + 1) * CELL + 4}
    return titled(words, ["rect", {"class": "frame", "x": x * CELL - 2, "y": y * CELL - 2, **size, "rx": 5}, ""])


def stranger(it):
    """What is no part: a box over its tiles with its name as title, and with a question mark but where it stands by."""
    (x, y), (width, height) = (value * HALF for value in it.middle), (value * CELL - 4 for value in it.size)
    kind = "bystander" if it.stands_by else "stranger"
    box = {"class": kind, "x": x - width // 2, "y": y - height // 2, "width": width, "height": height, "rx": 3}
    return titled(plain(it.name), ["rect", box, ""], *([] if it.stands_by else [sign("?", x, y + 3)]))


def drawn(parts, strangers=(), marks=Marks(), ways=None):
    """The elements that draw parts, with what is no part and what is marked; the group of ways has this id."""
    layers = layers_of(parts, marks)
    at = LAYERS.index("way")
    found = [path for layer in LAYERS[:at] for path in paths(layers, layer)]
    found.append(["g", {"id": ways} if ways else {}, paths(layers, "way")])
    found += [path for layer in LAYERS[at + 1 :] for path in paths(layers, layer)]
    found += [it for part in parts if part.kind == "splitter" for it in preferred(part)]
    found += [stranger(it) for it in strangers]
    return found + [framed(cells, words) for cells, words in marks.refused]


def badge_cells(parts, network):
    """The cell on which each end's number is drawn: the one outside, or its own where that isn't free."""
    taken, cells = set(standing(parts)), {}
    for word, halves, sign_ in (("i", network.inputs, -1), ("o", network.outputs, 1)):
        for k, half in enumerate(halves):
            part = parts[half.part]
            outside = step(part.cells[0], part.direction, sign_)
            cells[f"{word}{k}"] = part.cells[0] if outside in taken else outside
            taken.add(outside)
    return cells


def badges(cells, told=None, apart=None):
    """The elements that number the ends on these cells; with a state, each with its load or room, a fraction; and which
    of two ends has less, and which more."""
    found = []
    for name, cell in cells.items():
        x, y = middle_of(cell)
        kind = "in" if name[0] == "i" else "out"
        height = 14 if told is None else 20
        size = {"x": x - 11, "y": y - height // 2, "width": 22, "height": height, "rx": 4}
        has = (apart or {}).get(name, "")
        found.append(["rect", {"class": f"badge {kind}{' ' * bool(has)}{has}", **size}, ""])
        if told is None:
            found.append(sign(name, x, y + 3, "on"))
        else:
            what = f"{'load' if kind == 'in' else 'room'} {told[name]}"
            both = sign(name, x, y - 1, "on"), sign(short(told[name]), x, y + 8, "on")
            found.append(titled(f"{name}: {what}{f', has {has}' if has else ''}", *both))
    return found


def short(fraction):
    """A fraction's text where it is short, else a decimal number of three places: the nearest, of two the greater."""
    text = str(fraction)
    if len(text) <= 5:
        return text
    whole, rest = divmod((2000 * fraction.numerator + fraction.denominator) // (2 * fraction.denominator), 1000)
    return f"{whole}.{rest:03}".rstrip("0").rstrip(".")


def box_of(design, cells=()):
    """How far a picture reaches, with these cells of badges: its least x and y, its width and its height, in cells."""
    least_x, least_y, most_x, most_y = design.box()
    xs, ys = [least_x, most_x, *(x for x, _ in cells)], [least_y, most_y, *(y for _, y in cells)]
    return min(xs), min(ys), max(xs) - min(xs) + 1, max(ys) - min(ys) + 1


def rules(box):
    """The elements that number each fifth column of tiles above a picture, and each fifth row at its left."""
    x, y, width, height = box
    columns, rows = ([k for k in range(*them) if k % 5 == 0] for them in ((x, x + width), (y, y + height)))
    found = [sign(str(k), k * CELL + HALF, y * CELL - 7, "rule") for k in columns]
    return found + [sign(str(k), x * CELL - 12, k * CELL + HALF + 3, "rule") for k in rows]


def svg(elements):
    """The text of elements."""
    found = []
    for name, members, content in elements:
        told = "".join(f' {key}="{escape(str(value))}"' for key, value in members.items())
        inside = escape(content) if isinstance(content, str) else svg(content)
        found.append(f"<{name}{told}>{inside}</{name}>" if inside else f"<{name}{told}/>")
    return "".join(found)


class Picture:
    """A design's picture: its parts with what is marked, its network where there is one, and how far it reaches."""

    def __init__(self, design, network=None, marks=Marks()):
        self.design, self.network, self.marks = design, network, marks
        self.badges = badge_cells(design.parts, network) if network else {}
        self.box = box_of(design, self.badges.values())

    def view(self, ruled=False):
        """The part of the plane that the picture shows, with a narrow margin, and where it is ruled, the numbers."""
        (x, y, width, height), more = (it * CELL for it in self.box), 20 if ruled else 0
        return f"{x - 4 - more} {y - 4 - more} {width + 8 + more} {height + 8 + more}"

    def parts(self, ways):
        """The text of the parts; the group of this name tells the directions of straight belts."""
        return svg(drawn(self.design.parts, self.design.strangers, self.marks, ways))

    def rules(self):
        """The text of the numbers of columns and rows."""
        return svg(rules(self.box))

    def halves(self, places, before=(0, 0)):
        """The text of the marks of ends at halves for whose belts there is no room, behind so many inputs and
        outputs."""
        at, found, counts = standing(self.design.parts), [], dict(zip(("input", "output"), before))
        for kind, *cell in places:
            name = f"{kind[0]}{counts[kind]}"
            counts[kind] += 1
            (x, y), (along, down) = middle_of(cell), STEPS[self.design.parts[at[tuple(cell)].part].direction]
            away = -7 if kind == "input" else 7
            x, y, word = x + away * along, y + away * down, "in" if kind == "input" else "out"
            found.append(
                ["rect", {"class": f"badge {word}", "x": x - 8, "y": y - 5, "width": 16, "height": 10, "rx": 3}, ""]
            )
            found.append(sign(name, x, y + 3, "on"))
        return svg(found)

    def ends(self, told=None, apart=None):
        """The text of the numbers of the ends; with a state, each with its load or room, and which has less or more."""
        return svg(badges(self.badges, told, apart))
