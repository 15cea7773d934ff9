"""Wishes: layouts of any network with so many ends, and the formula that each of them meets.

A wish is a text: `any N M`, maybe `full`, sides and rows of all inputs or all outputs, blocked
cells, and `end`. Facts say what stands on the cells of a rectangle and how it hands on, without a
name of a splitter or an edge. Columns say what each cell hands on where a single input brings
something: the state is `balanced`, so every output takes its even share of it.
"""

import re
from fractions import Fraction
from itertools import combinations, product
from typing import NamedTuple

from opinion.answers import need
from opinion.formula import Formula
from opinion.layouts import is_inside
from opinion.lines import lines_of
from opinion.networks import BLOCK_LINE, ROW_LINE, WAYS
from opinion.parts import moved
from opinion.recovery import REACHES

MOST_ENDS = 64
MOST_CELLS = 1024  # of a rectangle in which a wish has a formula
ANY_LINE = re.compile("any ([1-9][0-9]?) ([1-9][0-9]?)")
SIDE_LINE = re.compile(f"side (inputs|outputs) ({'|'.join(WAYS)})")
LESSER, GREATER = "lesser", "greater"
BELT, ENTRANCE, EXIT = "belt", "entrance", "exit"
HALVES = LESSER, GREATER
SHAPES = BELT, ENTRANCE, EXIT, *HALVES
EMPTY = "empty", None
CONTENTS = [EMPTY, *product(SHAPES, range(4))]
TURNED_BACK = 2  # quarter turns


class Wish(NamedTuple):
    """So many inputs and outputs of a network that is balanced, and `full` where this is asked.

    `sides` has for the letter of ends the direction of the side where they stand, `rows` the
    letters of those that stand side by side, `blocks` the cells that stay empty.
    """

    inputs: int
    outputs: int
    full: bool
    sides: dict
    rows: set
    blocks: set


def read_wish(text, width, height):
    """The wish at the front of a text, for a rectangle, and the place behind its line `end`."""
    lines = lines_of(text)
    header = ANY_LINE.fullmatch(lines[0])
    need(header and max(map(int, header.groups())) <= MOST_ENDS, 40, "NetLine", 1)
    wish = Wish(*map(int, header.groups()), lines[1] == "full", {}, set(), set())
    faults, are_blocks, behind = [], False, 0
    for number, line in enumerate(lines, 1):
        behind += len(line) + 1
        if line == "end":
            need(not faults, *min(faults, default=(0, "")))
            return wish, min(behind, len(text))
        if number == 1 or number == 2 and wish.full:
            continue
        side, row, block = (form.fullmatch(line) for form in (SIDE_LINE, ROW_LINE, BLOCK_LINE))
        need(block or (side or row) and not are_blocks, 40, "NetLine", number)
        if block:
            are_blocks = True
            cell = int(block[1]), int(block[2])
            if not is_inside(cell, width, height) or cell in wish.blocks:
                faults.append((46, "Block", number))
            wish.blocks.add(cell)
        else:
            letter = (side or row)[1][0]
            if letter in (wish.sides if side else wish.rows):
                faults.append((44, "Pin", number))
            if side:
                wish.sides[letter] = WAYS.index(side[2])
            else:
                wish.rows.add(letter)
    raise AssertionError("the empty line behind all others is refused")


class WishFormula(Formula):
    """The formula of a wish in a rectangle.

    `facts` has the variable of each fact, `columns_of` the column of each amount: `x` is what
    leaves a cell and `in` what comes into the half on it, of the flow of an input by its number,
    or of the flow of all inputs, which has the number `inputs` and is there where the wish is full
    and has no more inputs than outputs.
    """

    def __init__(self, wish, width, height, tier=0):
        super().__init__(0)
        self.wish, self.width, self.height = wish, width, height
        self.most = REACHES[tier] + 1
        self.cells = [(x, y) for y in range(height) for x in range(width)]
        self.border = border_of(width, height)
        self.flows = wish.inputs + (wish.full and wish.inputs <= wish.outputs)
        self.facts, self.columns_of = {}, {}
        for flow, word, cell in product(range(self.flows), ("x", "in"), self.cells):
            self.columns_of[flow, word, cell] = len(self.columns_of)
        for cell in self.cells:
            self.contents(cell)
            self.handing(cell)
            self.underground(cell)
        self.counted("begun", "begins", wish.inputs)
        self.counted("ended", "ends", wish.outputs)
        self.numbered()
        self.demanded()
        for flow in range(self.flows):
            self.flowing(flow)

    # ---- Facts and rules ----
    def fact(self, *words):
        """The variable of a fact."""
        if words not in self.facts:
            self.variables += 1
            self.facts[words] = self.variables
        return self.facts[words]

    def rule(self, given, one_of):
        """Where all the given facts hold, so does one of the others."""
        self.clauses.append([-fact for fact in given] + list(one_of))

    def at_most_one(self, facts):
        """No two of the facts hold."""
        for two in combinations(facts, 2):
            self.rule(two, [])

    def equals_one(self, fact, others):
        """The fact holds just where one of the others does."""
        self.rule([fact], others)
        for other in others:
            self.rule([other], [fact])

    def holds(self, cell, shape, way):
        """A part of this shape, so turned, stands on the cell."""
        return self.fact("kind", cell, (shape, way))

    def has(self, cell):
        """Whether the cell lies in the rectangle."""
        return is_inside(cell, self.width, self.height)

    def goes_into(self, cell, way):
        """What is behind the cell hands to it, where that is inside: a list of at most one."""
        behind = moved(cell, way, -1)
        return [self.fact("goes", behind, way)] if self.has(behind) else []

    def contents(self, cell):
        """Each cell holds one thing, and the halves of splitters stand side by side."""
        kinds = [self.fact("kind", cell, content) for content in CONTENTS]
        self.rule([], kinds)
        self.at_most_one(kinds)
        halves = [self.holds(cell, *half) for half in product(HALVES, range(4))]
        self.equals_one(self.fact("half", cell), halves)
        self.equals_one(self.fact("belt", cell), [self.holds(cell, BELT, way) for way in range(4)])
        for half, way in product(HALVES, range(4)):
            mate = self.mate(cell, half, way)
            other = GREATER if half == LESSER else LESSER
            one_of = [self.holds(mate, other, way)] if self.has(mate) else []
            self.rule([self.holds(cell, half, way)], one_of)

    @staticmethod
    def mate(cell, half, way):
        """The cell of the other half: that of a lesser one lies to the east or to the south."""
        return moved(cell, 1 + way % 2, 1 if half == LESSER else -1)

    def handing(self, cell):
        """What a cell hands on is taken, and what isn't fed begins an input at the border."""
        ways = range(4)
        begins = self.fact("begins", cell)
        for way in ways:
            front = moved(cell, way)
            if self.has(front):
                self.handed(cell, way, front)
        starters, into = [], {way: self.goes_into(cell, way) for way in ways}
        for way in ways:
            outside = not self.has(moved(cell, way, -1))
            begun = [begins] if outside else []
            across = into[(way + 1) % 4] + into[(way + 3) % 4]
            belt, entrance = self.holds(cell, BELT, way), self.holds(cell, ENTRANCE, way)
            self.rule([belt], into[way] + across + begun)
            self.rule([entrance], into[way] + begun)
            starters += [belt, entrance] if outside else []
        self.rule([begins], starters)
        fronts = [way for way in ways if self.has(moved(cell, way))]
        self.at_most_one([self.fact("goes", cell, way) for way in fronts])
        self.at_most_one([begins] + sum(into.values(), []))
        enders = [self.holds(cell, shape, way) for shape in (BELT, EXIT) for way in ways
                  if not self.has(moved(cell, way))]
        self.equals_one(self.fact("ends", cell), enders)

    def handed(self, cell, way, front):
        """A belt or an exit hands to the cell in front, and so does a half unless it is empty."""
        goes = self.fact("goes", cell, way)
        self.rule([goes], [self.holds(cell, shape, way) for shape in (BELT, EXIT, *HALVES)])
        takers = [self.holds(front, shape, way) for shape in (ENTRANCE, *HALVES)]
        self.rule([goes], [self.fact("belt", front), *takers])
        self.rule([goes, self.holds(front, BELT, (way + TURNED_BACK) % 4)], [])
        for shape in BELT, EXIT:
            self.rule([self.holds(cell, shape, way)], [goes])
        for half in HALVES:
            self.rule([self.holds(cell, half, way)], [goes, self.fact("kind", front, EMPTY)])

    def underground(self, cell):
        """Each entrance has an exit within reach, and no piece of their axis between them."""
        for way in range(4):
            front, behind = moved(cell, way), moved(cell, way, -1)
            tunnel = self.fact("tunnel", cell, way)
            into = [self.fact("tunnel", behind, way)] if self.has(behind) else []
            entrance, leaving = self.holds(cell, ENTRANCE, way), self.holds(cell, EXIT, way)
            self.rule([entrance], [tunnel])
            self.rule([leaving], into)
            self.rule([tunnel], [entrance, *into])
            self.rule([tunnel, leaving], [])
            if self.has(front):
                back = (way + TURNED_BACK) % 4
                for piece in (ENTRANCE, way), (ENTRANCE, back), (EXIT, back):
                    self.rule([tunnel, self.holds(front, *piece)], [])
            else:
                self.rule([tunnel], [])
            self.pairs(cell, way)

    def pairs(self, cell, way):
        """An entrance begins one pair, and an exit ends one; the way between is a tunnel."""
        reach = range(1, self.most + 1)
        for shape, turn in (ENTRANCE, 1), (EXIT, -1):
            far = [(moved(cell, way, turn * k), k) for k in reach]
            pairs = [self.fact("pair", cell if turn > 0 else other, way, k)
                     for other, k in far if self.has(other)]
            self.rule([self.holds(cell, shape, way)], pairs)
            self.at_most_one(pairs)
        for k in reach:
            if self.has(moved(cell, way, k)):
                pair = self.fact("pair", cell, way, k)
                self.rule([pair], [self.holds(cell, ENTRANCE, way)])
                self.rule([pair], [self.holds(moved(cell, way, k), EXIT, way)])
                for j in range(1, k):
                    self.rule([pair], [self.fact("tunnel", moved(cell, way, j), way)])

    # ---- Ends ----
    def so_many(self, word, first, count):
        """At least so many of the first cells of the border have this: True, False or a fact."""
        return count == 0 or count <= first and self.fact(word, first, count)

    def holding(self, given, one_of):
        """A rule of facts and of what is True or False by itself."""
        if False not in given and True not in one_of:
            self.rule([f for f in given if f is not True], [f for f in one_of if f is not False])

    def counted(self, word, end, count):
        """Just so many cells of the border have this end; the other cells have none."""
        for first, cell in enumerate(self.border, 1):
            here = self.fact(end, cell)
            for many in range(1, min(first, count + 1) + 1):
                now = self.fact(word, first, many)
                before = self.so_many(word, first - 1, many)
                fewer = self.so_many(word, first - 1, many - 1)
                self.holding([before], [now])
                self.holding([fewer, here], [now])
                self.holding([now], [before, here])
                self.holding([now], [fewer])
        self.holding([], [self.so_many(word, len(self.border), count)])
        self.holding([self.so_many(word, len(self.border), count + 1)], [])

    def numbered(self):
        """The input with a number begins on the cell behind which so many have begun."""
        for number, (before, cell) in product(range(self.wish.inputs), enumerate(self.border)):
            first, begins = self.fact("first", number, cell), self.fact("begins", cell)
            enough = self.so_many("begun", before, number)
            more = self.so_many("begun", before, number + 1)
            self.rule([first], [begins])
            self.holding([first], [enough])
            self.holding([first, more], [])
            self.holding([begins, enough], [more, first])

    def demanded(self):
        """Ends stand at their sides and in their rows, and blocked cells are empty."""
        for letter, side in self.wish.sides.items():
            is_input = letter == "i"
            word, shapes = ("begins", (BELT, ENTRANCE)) if is_input else ("ends", (BELT, EXIT))
            way = (side + TURNED_BACK) % 4 if letter == "i" else side
            for cell in self.border:
                is_there = not self.has(moved(cell, side))
                one_of = [self.holds(cell, shape, way) for shape in shapes] if is_there else []
                self.rule([self.fact(word, cell)], one_of)
        for letter in sorted(self.wish.rows):
            self.in_row(letter)
        for cell in sorted(self.wish.blocks):
            self.rule([], [self.fact("kind", cell, EMPTY)])

    def in_row(self, letter):
        """All these ends stand on consecutive cells, on one of the places that hold so many."""
        word, count = ("begins", self.wish.inputs) if letter == "i" else ("ends", self.wish.outputs)
        places = [(cell, way) for way in (1, 2) for cell in self.cells
                  if self.has(moved(cell, way, count - 1))]
        self.rule([], [self.fact("lies", letter, *place) for place in places])
        for (cell, way), step in product(places, range(count)):
            end = self.fact(word, moved(cell, way, step))
            self.rule([self.fact("lies", letter, cell, way)], [end])

    # ---- Rows ----
    def same(self, flow, one, other, bound=0):
        """The variable of a row: the amounts of one list are together those of the other."""
        words = "row", flow, tuple(sorted(one)), tuple(sorted(other)), bound
        if words not in self.facts:
            amounts = [[self.columns_of[flow, *amount] for amount in side] for side in (one, other)]
            self.facts[words] = self.row(*amounts, "=", bound)
        return self.facts[words]

    def flowing(self, flow):
        """The rows of a flow: of one input that is loaded alone, or of all that are full."""
        is_one = flow < self.wish.inputs
        for cell in self.cells:
            for word in "x", "in":
                column = self.columns_of[flow, word, cell]
                self.rule([], [self.row([column], [])])
                if not is_one and word == "x":
                    self.rule([], [self.row([], [column], ">=", -1)])
        for cell in self.border:
            if is_one:
                self.rule([self.fact("first", flow, cell)], [self.same(flow, [("x", cell)], [], 1)])
                share = self.same(flow, [("x", cell)], [], Fraction(1, self.wish.outputs))
                self.rule([self.fact("ends", cell)], [share])
            else:
                self.rule([self.fact("begins", cell)], [self.same(flow, [("x", cell)], [], 1)])
        for cell, way in product(self.cells, range(4)):
            self.carried(flow, cell, way)
            self.divided(flow, cell, way, is_one)

    def carried(self, flow, cell, way):
        """What a cell hands on comes to the next one, and through a pair to its exit."""
        front = moved(cell, way)
        if self.has(front):
            goes, half = self.fact("goes", cell, way), self.fact("half", front)
            two = sorted((cell, front))
            self.rule([goes], [half, self.same(flow, [("x", two[0])], [("x", two[1])])])
            self.rule([goes, half], [self.same(flow, [("in", front)], [("x", cell)])])
        for k in range(1, self.most + 1):
            far = moved(cell, way, k)
            if self.has(far):
                two = sorted((cell, far))
                row = self.same(flow, [("x", two[0])], [("x", two[1])])
                self.rule([self.fact("pair", cell, way, k)], [row])

    def divided(self, flow, cell, way, is_even):
        """What comes into a splitter leaves it, by both halves evenly where both hand on."""
        for half in HALVES:
            here = self.holds(cell, half, way)
            front = moved(cell, way)
            goes = [self.fact("goes", cell, way)] if self.has(front) else []
            self.rule([here], self.goes_into(cell, way) + [self.same(flow, [("in", cell)], [])])
            self.rule([here], goes + [self.same(flow, [("x", cell)], [])])
        mate = self.mate(cell, LESSER, way)
        if self.has(mate):
            here = self.holds(cell, LESSER, way)
            row = self.same(flow, [("x", cell), ("x", mate)], [("in", cell), ("in", mate)])
            self.rule([here], [row])
            if is_even and self.has(moved(cell, way)):
                both = [self.fact("goes", cell, way), self.fact("goes", mate, way)]
                self.rule([here, *both], [self.same(flow, [("x", cell)], [("x", mate)])])


def border_of(width, height):
    """The cells of the border, clockwise from the north-west corner, each once."""
    north = [(x, 0) for x in range(width)]
    east = [(width - 1, y) for y in range(1, height)]
    south = [(x, height - 1) for x in range(width - 2, -1, -1)] if height > 1 else []
    west = [(0, y) for y in range(height - 2, 0, -1)] if width > 1 else []
    return north + east + south + west
