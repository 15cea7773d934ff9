"""Evidence that no network of fewer splitters does it.

`check` reads blocks, one for each number of splitters from 0 on. A block refutes all networks of so
many splitters: classes that a leaf refutes, then a tree for each start, which is a list of classes.
A partial network has splitters of which some ports are joined; a branch joins the ports of one, one
after another, in every way. A leaf is a weighted sum of rows that no small flows meet.
"""

import re
from itertools import chain
from typing import NamedTuple

from opinion.answers import need
from opinion.networks import Edge, Net
from opinion.numbers import fraction_of
from opinion.states import MARKS, State, tests

MOST_SPLITTERS, MOST_WEIGHT, MOST_LINE = 16, 1000000, 4096
NUMBER, WEIGHT = re.compile(r"0|[1-9][0-9]*"), re.compile(r"-?[1-9][0-9]*")


class Class(NamedTuple):
    """How many ports a splitter has, in and out, and how many of them inputs and outputs are at."""

    ports: tuple
    ends: tuple


CLASSES = [
    Class((ins, outs), (fed, feeding))
    for ins, outs in ((1, 2), (2, 1), (2, 2))
    for fed in range(ins, -1, -1)
    for feeding in range(outs, -1, -1)
]


class Partial:
    """A partial network of these numbers of inputs and outputs: what of its splitters is joined."""

    def __init__(self, ends, numbers):
        self.ends, self.numbers = ends, numbers
        self.classes = [CLASSES[number] for number in numbers]
        self.first = [
            [sum(one.ends[side] for one in self.classes[:s]) for s in range(len(numbers) + 1)]
            for side in (0, 1)
        ]
        self.joins, self.chosen = [], []

    def open(self, side, s):
        """How many ports of a splitter are open on a side: 0 in, 1 out."""
        taken = sum(join[1 - side] == s for join in self.joins)
        return self.classes[s].ports[side] - self.classes[s].ends[side] - taken

    def splitters(self):
        """The numbers of the splitters."""
        return range(len(self.classes))

    def is_touched(self, s):
        """Whether a splitter was chosen, or a port of it is joined."""
        return s in self.chosen or any(s in join for join in self.joins)

    def has_end(self, side, s, end):
        """Whether a splitter has this input, or by side 1 this output."""
        return self.first[side][s] <= end < self.first[side][s + 1]

    def ways(self, side, s, before):
        """The other splitters to which the next port of s may be joined, in order.

        `before` is the one to which its first was joined by the same branch, and whether that was
        touched then.
        """
        fit = [t for t in self.splitters() if t != s and self.open(1 - side, t)]
        fit = [t for t in fit if (s, t)[:: 1 if side else -1] not in self.joins]
        touched = [t for t in fit if self.is_touched(t)]
        new = {self.numbers[t]: t for t in reversed(fit) if not self.is_touched(t)}
        untouched = [new[number] for number in sorted(new)]
        if before is None:
            return touched + untouched
        first, was_touched = before
        if was_touched:
            return [t for t in touched if t >= first] + untouched
        return [t for t in untouched if self.numbers[t] >= self.numbers[first]]

    def join(self, side, s, t):
        """Joins a port of s on a side to t."""
        self.joins.append((s, t) if side else (t, s))

    def net(self):
        """The network, where no port is open; None where one is."""
        if any(self.open(side, s) for s in self.splitters() for side in (0, 1)):
            return None
        net = Net(*self.ends, len(self.classes))
        for s in self.splitters():
            for i in range(self.first[0][s], self.first[0][s + 1]):
                net.add(Edge(("i", i), ("s", s), 1))
        for s in self.splitters():
            outputs = [("o", o) for o in range(self.first[1][s], self.first[1][s + 1])]
            for target in outputs + [("s", t) for r, t in self.joins if r == s]:
                net.add(Edge(("s", s), target, 1))
        return net

    def refutes(self, kind, end, weights):
        """Whether no small flows meet the weighted sum of rows of a kind and an end."""
        side = 0 if kind in "BZ" else 1
        shares = kind in "FB"
        lines = self.ends[side]
        # shares go along edges to an end of `side`, flows against them to one of the other side
        along = side if shares else 1 - side
        constant, negatives = 0, 0
        sums = {s: self.classes[s].ports[side] * weights.get(s, 0) for s in self.splitters()}
        for join in self.joins:
            sums[join[along]] -= weights.get(join[1 - along], 0)
        for s, weight in weights.items():
            constant += weight * self.has_end(along, s, end) * lines
            negatives += min(0, -weight) * self.open(along, s)
        for s, total in sums.items():
            if self.classes[s].ends[1 - along]:
                constant -= total
            else:
                negatives += min(0, total)
        if shares:
            return negatives * lines > constant
        return negatives == 0 > constant


def is_dead(net):
    """Whether some splitter has no way from an input, or none to an output."""
    found = []
    for side, letter in enumerate("io"):
        ways = [(edge.start, edge.target)[:: -1 if side else 1] for edge in net.edges]
        reached, before = set(net.ends(letter)), None
        while reached != before:
            before = reached
            reached = reached | {end for start, end in ways if start in reached}
        found.append(reached)
    return not (found[0] & found[1]).issuperset(net.ends("s"))


def starts(inputs, outputs, count, refuted):
    """The starts of so many splitters without a refuted class, in lexicographic order."""

    def longer(left, least, ins, outs, more):
        """The rests of starts of so many classes, from the least on."""
        if min(ins, outs) < 0 or abs(more) > left:
            return
        if left == 0:
            if ins == outs == more == 0:
                yield []
            return
        for number in range(least, len(CLASSES)):
            one = CLASSES[number]
            if number in refuted or (count > 1 and one.ports == one.ends):
                continue
            gained = one.ports[1] - one.ports[0]
            ends = ins - one.ends[0], outs - one.ends[1]
            for rest in longer(left - 1, number, *ends, more - gained):
                yield [number, *rest]

    return longer(count, 0, inputs, outputs, outputs - inputs)


class Reader:
    """The lines of the evidence, and what they are for."""

    def __init__(self, wish, inputs, outputs, lines):
        self.wish, self.ends = wish, (inputs, outputs)
        self.lines, self.number = iter(lines), 0
        self.line = None
        self.move()

    def move(self):
        """Goes to the next line. One that is too long is none that may stand in a block."""
        self.line = next(self.lines, None)
        self.number += 1
        if self.line and len(self.line) > MOST_LINE and self.line[:4] != "net ":
            self.line = "too long"

    def stands(self, right):
        """Refuses the line unless it may stand there."""
        need(right, 50, "CertLine", self.number)

    def refutes(self, right):
        """Refuses a claim that is wrong."""
        need(right, 55, "NotRefuted", self.number)

    def take(self, wanted):
        """Takes this line."""
        self.stands(self.line == wanted)
        self.move()

    def words(self):
        """The words of the line."""
        return [] if self.line is None else self.line.split(" ")

    def blocks(self):
        """Takes all blocks, and tells how many there are."""
        count = 0
        while self.line == f"none {count}" and count <= MOST_SPLITTERS:
            self.stands(count or self.ends != (1, 1))
            self.move()
            self.block(count)
            self.take("end")
            count += 1
        return count

    def block(self, count):
        """Takes what stands between the first line of a block and its end."""
        refuted = []
        while count and self.words()[:1] == ["c"]:
            words = self.words()
            right = len(words) > 1 and NUMBER.fullmatch(words[1]) and len(words[1]) < 3
            self.stands(right and max(refuted, default=-1) < int(words[1]) < len(CLASSES))
            refuted.append(int(words[1]))
            self.leaf(Partial(self.ends, refuted[-1:]), words[2:], 2)
        for start in starts(*self.ends, count, refuted):
            self.tree(Partial(self.ends, start))

    def leaf(self, partial, words, ends=None):
        """Takes a leaf that refutes the partial network, with an end below `ends`."""
        kinds = "FXBZ" if "drawn-evenly" in self.wish else "FX"
        right = len(words) >= 4 and len(words) % 2 == 0 and words[0] in [*kinds]
        right = right and all(NUMBER.fullmatch(word) and len(word) < 5 for word in words[2::2])
        right = right and NUMBER.fullmatch(words[1]) and len(words[1]) < 5
        right = right and all(WEIGHT.fullmatch(word) and len(word) < 9 for word in words[3::2])
        self.stands(right)
        end, splitters = int(words[1]), [int(word) for word in words[2::2]]
        weights = [int(word) for word in words[3::2]]
        most = self.ends[0 if words[0] in "XB" else 1]
        right = end < most and (ends is None or end < ends)
        right = right and all(a < b for a, b in zip(splitters, splitters[1:]))
        right = right and splitters[-1] < len(partial.classes)
        right = right and max(map(abs, weights)) <= MOST_WEIGHT
        self.stands(right)
        self.refutes(partial.refutes(words[0], end, dict(zip(splitters, weights))))
        self.move()

    def tree(self, partial):
        """Takes a tree that refutes the partial network."""
        words = self.words()
        if self.line == "N":
            return self.complete(partial)
        if words[:1] not in (["o"], ["i"]):
            return self.leaf(partial, words)
        right = len(words) == 2 and NUMBER.fullmatch(words[1]) and len(words[1]) < 5
        self.stands(right and int(words[1]) < len(partial.classes))
        side, s = "io".index(words[0]), int(words[1])
        self.stands(partial.open(side, s))
        self.move()
        partial.chosen.append(s)
        self.ways(partial, side, s, None)
        partial.chosen.pop()

    def ways(self, partial, side, s, before):
        """Takes what each way of a branch's next port leads to."""
        for t in partial.ways(side, s, before):
            touched = partial.is_touched(t)
            partial.join(side, s, t)
            if not partial.open(side, s):
                self.tree(partial)
            elif self.line == "+":
                self.move()
                self.ways(partial, side, s, (t, touched))
            else:
                self.leaf(partial, self.words())
            partial.joins.pop()

    def complete(self, partial):
        """Takes why a complete network does not do it."""
        net = partial.net()
        self.stands(net is not None)
        self.move()
        if self.line == "dead":
            self.refutes(is_dead(net))
            return self.move()
        prop = next((one for one in self.wish if self.line == f"no {one}"), None)
        self.stands(prop)
        self.move()
        lists = []
        counts = *self.ends, len(net.edges), len(net.edges)
        for word, count in zip(("load", "room", "flow", "mark"), counts):
            first, *values = self.words() or [None]
            read = MARKS.get if word == "mark" else fraction_of
            values = [read(value) for value in values]
            self.stands(first == word and len(values) == count and None not in values)
            lists.append(values)
            self.move()
        for word, place, passes in tests(net, prop, *State(*lists)):
            need(passes, 54, "NotBreaking", word, place)


def check(wish, inputs, outputs, text):
    """`none below K`, where the text has K blocks that refute all networks of so many splitters."""
    lines = text.split("\n")
    if lines[-1] == "":
        lines.pop()
    reader = Reader(wish, inputs, outputs, lines)
    count = reader.blocks()
    if reader.line is not None and not reader.line.startswith("net "):
        for line in chain([reader.line], reader.lines):
            need(not line.strip(" \t\r"), 50, "CertLine", reader.number)
            reader.number += 1
    return f"none below {count}"
