#!/usr/bin/env python3
"""Holds the formula of wishes against a list of all layouts of small grids.

    wishing.py PROGRAM [--cells N] [--ends N]

It lists every layout of at most three splitters, inputs and outputs in some grids of at most nine cells (`exhaust.py`),
and asks PROGRAM which of their networks are `balanced` and `full`. So it knows which wishes of at most three inputs and
outputs are laid there. Of each wish, with `full` and without, `cadical` is asked for facts that keep the formula, whose
rows are told by thresholds of what cells hand on: each of these clauses follows from rows and clauses of the formula.
What is found is a proposal: where it doesn't lay the wish, it is left out, and the next one is asked for. A wish must
be found exactly where it is laid. It prints what it compared, and ends with 1 where one is wrong."""

import argparse
import subprocess
import sys
import tempfile
from itertools import product
from pathlib import Path

sys.dont_write_bytecode = True

import exhaust
import opinion
from opinion import BELT, ENTRANCE, EXIT, SPLITTER, Answer, Part
from opinion.parts import moved
from opinion.recovery import handing, places_of
from opinion.wishes import EMPTY, GREATER, HALVES, LESSER, WishFormula, read_wish

GRIDS = (1, 1), (1, 2), (2, 1), (1, 4), (3, 1), (2, 2), (2, 3), (3, 2), (2, 4), (4, 2), (3, 3), (1, 8)
PARTS = {LESSER: SPLITTER, "belt": BELT, "entrance": ENTRANCE, "exit": EXIT}
PROPOSALS = 200  # of one wish, before it is given up
PARTS_OF_ONE = 24  # thresholds of what a cell hands on: even shares of two, three and four are among them
NONE = 20  # what cadical ends with where it finds nothing


class Thresholds:
    """Clauses of thresholds: that an amount of the formula is at least so many parts of 1."""

    def __init__(self, formula):
        self.formula, self.clauses, self.numbers = formula, [], {}
        for flow in range(formula.flows):
            self.flow(flow)

    def at_least(self, flow, word, cell, parts):
        """The variable that says so; True of no part, and False of more than are told apart."""
        if parts <= 0 or parts > PARTS_OF_ONE:
            return parts <= 0
        name = flow, word, cell, parts
        return self.numbers.setdefault(name, self.formula.variables + 1 + len(self.numbers))

    def imply(self, given, one_of):
        """Where all of these hold, one of those does."""
        if False not in given and True not in one_of:
            self.clauses.append([-x for x in given if x is not True] + [x for x in one_of if x is not False])

    def same(self, given, free, one, other, flow):
        """Two amounts are the same where all given facts hold, and none of the free ones."""
        for k in range(1, PARTS_OF_ONE + 1):
            here, there = (self.at_least(flow, *amount, k) for amount in (one, other))
            self.imply([*given, here], [*free, there])
            self.imply([*given, there], [*free, here])

    def flow(self, flow):
        """How amounts go along in a flow."""
        formula, is_one = self.formula, flow < self.formula.wish.inputs
        for cell, word, k in product(formula.cells, ("x", "in"), range(1, PARTS_OF_ONE)):
            more, less = (self.at_least(flow, word, cell, n) for n in (k + 1, k))
            self.imply([more], [less])
        for cell in formula.border:
            begins = formula.fact("first", flow, cell) if is_one else formula.fact("begins", cell)
            self.imply([begins], [self.at_least(flow, "x", cell, PARTS_OF_ONE)])
            for k in range(1, PARTS_OF_ONE + 1) if is_one else ():
                ends, has = formula.fact("ends", cell), self.at_least(flow, "x", cell, k)
                self.imply(*(([ends], [has]) if k * formula.wish.outputs <= PARTS_OF_ONE else ([ends, has], [])))
        for cell, way in product(formula.cells, range(4)):
            self.along(flow, cell, way)
            self.splitter(flow, cell, way, is_one)

    def along(self, flow, cell, way):
        """From cell to cell, into halves, and from entrances to their exits."""
        formula, front = self.formula, moved(cell, way)
        if formula.has(front):
            goes, half = formula.fact("goes", cell, way), formula.fact("half", front)
            self.same([goes], [half], ("x", cell), ("x", front), flow)
            self.same([goes, half], [], ("x", cell), ("in", front), flow)
        for k in range(1, formula.most + 1):
            if formula.has(far := moved(cell, way, k)):
                self.same([formula.fact("pair", cell, way, k)], [], ("x", cell), ("x", far), flow)

    def splitter(self, flow, cell, way, is_one):
        """What comes into a splitter leaves it, evenly in the flow of one input."""
        formula, front = self.formula, moved(cell, way)
        for half in HALVES:
            here = formula.holds(cell, half, way)
            goes = [formula.fact("goes", cell, way)] if formula.has(front) else []
            self.imply([here, self.at_least(flow, "in", cell, 1)], formula.goes_into(cell, way))
            self.imply([here, self.at_least(flow, "x", cell, 1)], goes)
        mate = formula.mate(cell, LESSER, way)
        if not formula.has(mate):
            return
        here, two = formula.holds(cell, LESSER, way), (cell, mate)
        goes = [formula.fact("goes", c, way) if formula.has(front) else False for c in two]
        if not is_one:
            for out in two:
                comes = [self.at_least(flow, "in", c, PARTS_OF_ONE) for c in two]
                self.imply([here, *comes], [self.at_least(flow, "x", out, PARTS_OF_ONE)])
            return
        for a, b in product(range(PARTS_OF_ONE + 1), repeat=2):
            comes = [self.at_least(flow, "in", c, k) for c, k in zip(two, (a, b))]
            for out, other in zip(two, reversed(goes)):
                if (a + b) % 2 == 0:
                    half = self.at_least(flow, "x", out, (a + b) // 2)
                    self.imply([here, *goes, *comes], [half])
                    if a and b:
                        self.imply([here, *goes, half], comes)
                if 0 < a + b <= PARTS_OF_ONE:
                    both = self.at_least(flow, "x", out, a + b)
                    self.imply([here, *comes], [both, other])
                    if a and b:
                        self.imply([here, both], [*comes, other])


class Asking:
    """Which wishes are laid, by proposals of a solver and by what the program decides of networks."""

    def __init__(self, program, folder):
        self.program, self.file, self.decided = program, Path(folder) / "formula", {}

    def has(self, net, prop):
        """Whether a network has a property."""
        asked = net.text(), prop
        if asked not in self.decided:
            words = [self.program, "decide", prop]
            ran = subprocess.run(words, input=net.text().encode(), capture_output=True, check=False)
            self.decided[asked] = ran.returncode == 0
        return self.decided[asked]

    def suits(self, net, full):
        """Whether a layout of a network lays the wish for as many ends."""
        return gets_through(net) and self.has(net, "balanced") and (not full or self.has(net, "full"))

    def solve(self, variables, clauses):
        """The true literals of a model, or None where there is none."""
        lines = [f"p cnf {variables} {len(clauses)}", *(" ".join(map(str, [*c, 0])) for c in clauses)]
        self.file.write_text("\n".join(lines) + "\n", encoding="ascii")
        ran = subprocess.run(["cadical", "-q", self.file], capture_output=True, text=True, check=False)
        if ran.returncode == NONE:
            return None
        words = (line.split()[1:] for line in ran.stdout.splitlines() if line.startswith("v "))
        return {int(word) for line in words for word in line if int(word) > 0}

    def is_found(self, text, width, height):
        """Whether a layout of a wish is found; None where proposals are too many, and how many failed."""
        wish, _ = read_wish(text, width, height)
        formula = WishFormula(wish, width, height)
        thresholds = Thresholds(formula)
        clauses = [c for c in formula.clauses if not any(abs(x) in formula.rows for x in c)] + thresholds.clauses
        contents = {number for words, number in formula.facts.items() if words[0] == "kind"}
        for failed in range(PROPOSALS):
            model = self.solve(formula.variables + len(thresholds.numbers), clauses)
            if model is None:
                return False, failed
            if self.suits(recovered(parts_of(formula, model)), wish.full):
                return True, failed
            clauses.append([-number for number in sorted(model & contents)])
        return None, PROPOSALS


def parts_of(formula, model):
    """The parts that stand on the cells by a model."""
    return [Part(PARTS[words[2][0]], 0, words[2][1], words[1], None, None)
            for words, number in formula.facts.items()
            if words[0] == "kind" and number in model and words[2] != EMPTY and words[2][0] != GREATER]


def recovered(parts):
    """The network that parts show once their closed rings are left out."""
    while True:
        try:
            return opinion.recover(parts)[0]
        except Answer as answer:
            words = answer.text.split()
            if words[:3] != ["refused", "34", "Ring"]:
                raise
        onto, ring, place = handing(parts, places_of(parts)), set(), (int(words[3]), 0)
        while place[0] not in ring:
            ring.add(place[0])
            place = onto[place]
        parts = [part for i, part in enumerate(parts) if i not in ring]


def gets_through(net):
    """Whether all that an input brings leads on to some output."""
    reached = closed(net.input_edges(), lambda edge: net.outs[net.edges[edge].target])
    leading = closed(net.output_edges(), lambda edge: net.ins[net.edges[edge].start])
    return reached <= leading


def closed(first, onward):
    """All that is reached from the first ones."""
    reached, left = set(first), list(first)
    while left:
        new = set(onward(left.pop())) - reached
        reached |= new
        left += new
    return reached


def net_of(shape):
    """A network of the listed shape."""
    inputs, outputs, edges = shape
    splitters = len({number for edge in edges for letter, number in (edge[:2], edge[2:]) if letter == "s"})
    return exhaust.network(inputs, outputs, splitters, [(edge[:2], edge[2:]) for edge in edges])


def compare(asking, width, height, most):
    """All wishes of a grid: the text of each that is found where it isn't laid, or the other way round."""
    listing = exhaust.Listing(width, height)
    laid = {(*shape[:2], full) for shape in listing.groups for full in (False, True)
            if asking.suits(net_of(shape), full)}
    wrong, dropped = [], 0
    for inputs, outputs, full in product(range(1, most + 1), range(1, most + 1), (False, True)):
        text = f"any {inputs} {outputs}\n" + "full\n" * full + "end\n"
        found, failed = asking.is_found(text, width, height)
        dropped += failed
        if found is not ((inputs, outputs, full) in laid):
            wrong.append(f"{width}x{height}, found: {found}\n{text}")
    counts = f"{listing.count} layouts, {len(laid)} wishes laid, {dropped} proposals left out"
    print(f"{width}x{height}: {counts}", flush=True)
    return wrong


def main():
    words = argparse.ArgumentParser(description="Holds the formula of wishes against a list of all layouts.")
    words.add_argument("program")
    words.add_argument("--cells", type=int, default=9)
    words.add_argument("--ends", type=int, default=exhaust.MOST)
    told, wrong = words.parse_args(), []
    with tempfile.TemporaryDirectory() as folder:
        asking = Asking(told.program, folder)
        for width, height in GRIDS:
            if width * height <= told.cells:
                wrong += compare(asking, width, height, told.ends)
    print("\n".join([*wrong, f"{len(wrong)} wrong"]))
    sys.exit(bool(wrong))


if __name__ == "__main__":
    main()
