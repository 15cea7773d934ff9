#!/usr/bin/env python3
"""Tests of the second opinion, by worked networks, states, certificates, blueprints and requests."""

import sys

sys.dont_write_bytecode = True

import ast
import random
import subprocess
import unittest
from collections import Counter
from fractions import Fraction
from importlib.machinery import SourceFileLoader
from importlib.util import module_from_spec, spec_from_loader
from pathlib import Path

HERE = Path(__file__).resolve().parent
sys.path.insert(0, str(HERE))

import opinion
import simplest

BELT = "net 1 1 0\nedge i0 o0\nend\n"
SPLITTER = "net 2 2 1\nedge i0 s0\nedge i1 s0\nedge s0 o0\nedge s0 o1\nend\n"
TWO = "net 2 2 0\nedge i0 o0\nedge i1 o1\nend\n"
LOOP = "net 1 3 3\nedge i0 s0\nedge s0 s1\nedge s0 s2\nedge s1 o0\nedge s1 o1\nedge s2 o2\nedge s2 s0\nend\n"
BUTTERFLY = ("net 4 4 4\nedge i0 s0\nedge i1 s0\nedge i2 s1\nedge i3 s1\nedge s0 s2\nedge s0 s3\n"
             "edge s1 s2\nedge s1 s3\nedge s2 o0\nedge s2 o1\nedge s3 o2\nedge s3 o3\nend\n")
FIRST = "net 1 2 1\nedge i0 s0\nedge s0 o0\nedge s0 o1\ngive s0 1\nend\n"
TAKEN = "net 2 1 1\nedge i0 s0\nedge i1 s0\nedge s0 o0\ntake s0 0\nend\n"
UNEVEN = "net 1 3 2\nedge i0 s0\nedge s0 o0\nedge s0 s1\nedge s1 o1\nedge s1 o2\nend\n"
EXPRESS = "net 1 2 1\nedge i0 s0 4\nedge s0 o0\nedge s0 o1 4\nend\n"
PINNED = "net 1 1 0\nedge i0 o0\npin i0 0 0\npin o0 2 0\nblock 1 0\nend\n"
WIDE = "1/85070591730234615865843651857942052864"
BREAKING = [
    (LOOP, "unlimited", "1", "0 0 1", "1/2 0 1 0 0 1/2 1/2", "b b f b b f f"),
    (BUTTERFLY, "unlimited", "1 1 0 0", "1 1 0 0", "1/2 1/2 0 0 1 0 0 0 1/2 1/2 0 0", "b b f f f b f b f f b b"),
    (EXPRESS, "balanced", "4", "1 4", "4 1 3", "f f f"), (FIRST, "balanced", "1", "1 1", "1 1 0", "f f f"),
    (TAKEN, "drawn-evenly", "1 1", "1", "1 0 1", "b b b"),
    ("net 2 2 2\nedge i0 s0\nedge i1 s0\nedge s0 s1\nedge s1 o0\nedge s1 o1\nend\n", "full", "1 1", "1 1",
     "1/2 1/2 1 1/2 1/2", "b b f f f"),
    (UNEVEN, "fair", "1", "1/2 1 1", "1 1/2 1/2 1/4 1/4", "f f f f f"), (FIRST, "fair", "1", "1 1", "1 1 0", "f f f"),
    (TAKEN, "drawn-fairly", "1 1", "1", "1 0 1", "b b b"),
]
YES = ["yes unlimited", "f -10 -16 0 1 1", "f -12 -17 0 1 1", "r 0 14 15 16 17 11 13 0", "end"]
VERSIONS = {1: 281479271677952, 2: 562949953421312}
MAP = """
^^.^^
[].[]
^^<^^
^.uu^
^>>>^
^^UU.
[][].
^^^^.
"""


def run(words, data, **files):
    files = {name: text.encode() for name, text in files.items()}
    data = data if isinstance(data, bytes) else data.encode()
    return opinion.run(words.split(), lambda most: data[:most], files.__getitem__)


def state(prop, loads, rooms, flows, marks):
    return f"no {prop}\nload {loads}\nroom {rooms}\nflow {flows}\nmark {marks}\nend\n"


def lines(*changed, text=YES):
    """The lines of a certificate, some of them changed by their number."""
    text = dict(enumerate(text, 1))
    text.update(changed)
    return "".join(f"{line}\n" for _, line in sorted(text.items()) if line is not None)


def blueprint(*parts, version=1, kept=""):
    """Parts as (name, x, y, eighths, more members) with the cell of a belt, or of a splitter's lesser half."""
    entities = []
    for name, x, y, way, *more in parts:
        across, by = name.endswith("splitter"), way // (2 if version == 1 else 4)
        place = x + 0.5 + 0.5 * (across and by % 2 == 0), y + 0.5 + 0.5 * (across and by % 2 == 1)
        members = "".join(f',"{name}":{value}' for name, value in (more[0] if more else {}).items())
        entities.append(f'{{"name":"{name}","position":{{"x":{place[0]},"y":{place[1]}}},"direction":{way}{members}}}')
    return f'{{"blueprint":{{"entities":[{",".join(entities)}],"version":{VERSIONS[version]}{kept}}}}}'


def belt(x, y, way, *more):
    return "transport-belt", x, y, way, *more


def piece(x, y, way, kind, tier=""):
    return tier + "underground-belt", x, y, way, {"type": f'"{kind}"'}


def drawn(text):
    """A map's parts, by rows."""
    ways, parts = {"^": 0, ">": 2, "v": 4, "<": 6}, []
    for y, row in enumerate(text.split()):
        for x, sign in enumerate(row):
            parts += [belt(x, y, ways[sign])] if sign in ways else []
            parts += [piece(x, y, 0, "input" if sign == "U" else "output")] * (sign in "Uu")
            parts += [("splitter", x, y, 0)] * (sign == "[")
    return blueprint(*parts)


TWO_BY_TWO = [("splitter", 0, 0, 0), belt(0, 1, 0), belt(1, 1, 0), belt(0, -1, 0), belt(1, -1, 0)]


class Numbers(unittest.TestCase):
    def test_one_spelling(self):
        most = 2 ** 127 - 1
        for word in ("0", "-3", "5/6", "-1/2", str(most), f"1/{most}"):
            self.assertEqual(opinion.fraction_of(word), Fraction(word), word)
        for word in ("2/4", "3/1", "-0", "+1", "1/-2", "01", "1/0", "1/02", "0/2", "", "1/", str(most + 1), "1\n"):
            self.assertIsNone(opinion.fraction_of(word), word)

    def test_sums_within_128_bits(self):
        self.assertEqual(opinion.plus(Fraction(1, 2), Fraction(1, 3)), Fraction(5, 6))
        self.assertEqual(opinion.plus(Fraction(1, 2 ** 126), Fraction(1, 2 ** 126)), Fraction(1, 2 ** 125))
        for x, y in (Fraction(1, 2 ** 126), Fraction(1, 3)), (Fraction(2 ** 127 - 1), Fraction(1)):
            self.assertRaises(OverflowError, opinion.plus, x, y)
        self.assertRaises(OverflowError, opinion.plus, Fraction(0), Fraction(2 ** 126), 2)


class States(unittest.TestCase):
    def test_answers(self):
        loop = "1", "0 0 1", "1/2 0 1 0 0 1/2 1/2", "b b f b b f f"
        wings = "1 1 0 0", "1 1 0 0", "1/2 1/2 0 0 1 0 0 0 1/2 1/2 0 0", "b b f f f b f b f f b b"
        free = *wings[:3], "f f f f f b f b f f b b"
        split = "1 1", "1 1", "1 1 1 1", "f f f f"
        wide = "1 1", "1 1", f"{WIDE} 1/3 0 0", "f f f f"
        express, even = ("4", "1 4", "4 1 3", "f f f"), ("4", "1 4", "3 1/2 5/2", "f f f")
        preferred, halved = ("1", "1 1", "1 1 0", "f f f"), ("1", "1 1", "1 1/2 1/2", "f f f")
        waits, asks = ("1 1", "1", "1/2 1/2 1", "b b b"), ("1 1", "1", "1 0 1", "b b b")
        breaks, refused = "breaks {}", "refused 54 NotBreaking "
        unlike = FIRST.replace("give s0 1\n", "")
        table = [
            (LOOP, "unlimited", loop, 0, breaks), (BUTTERFLY, "unlimited", wings, 0, breaks),
            (BUTTERFLY, "unlimited", free, 9, refused + "input 0"),
            (SPLITTER, "unlimited", split, 9, refused + "kept 0"),
            (SPLITTER, "unlimited", wide, 5, "wide state conserve 0"), (EXPRESS, "balanced", express, 0, breaks),
            (EXPRESS, "balanced", even, 9, refused + "even-out 1"), (FIRST, "balanced", preferred, 0, breaks),
            (unlike, "balanced", preferred, 9, refused + "even-out 2"),
            (FIRST, "balanced", halved, 9, refused + "prior-out 1"), (TAKEN, "drawn-evenly", asks, 0, breaks),
            (TAKEN, "drawn-evenly", waits, 9, refused + "prior-in 0"),
            (BUTTERFLY, "full", wings, 9, refused + "load 2"), (BUTTERFLY, "balanced", wings, 9, refused + "room 2"),
            (BELT, "full", ("1", "1", "2", "f"), 9, refused + "range 0"),
            (BELT, "unlimited", ("1", "1/2", "1/2", "b"), 9, refused + "kept 0"),
            (BELT, "unlimited", ("1", "1/2", "1", "b"), 9, refused + "output 0"),
            (UNEVEN, "fair", ("1", "1/8 1 1", "1 1/8 7/8 7/16 7/16", "f b f f f"), 9, refused + "kept 0"),
            (UNEVEN, "fair", ("1", "1 0 1", "1 1/2 1/2 0 1/2", "f f f b f"), 9, refused + "kept 0"),
            (UNEVEN, "fair", ("1", "1/2 1 1", "1 1/2 1/2 1/4 1/4", "f f f f f"), 0, breaks),
            (UNEVEN, "balanced", ("1", "1/2 1 1", "1 1/2 1/2 1/4 1/4", "f f f f f"), 9, refused + "room 0"),
            (LOOP, "unlimited", (*loop[:3], "b f f b b f f"), 9, refused + "even-out 1"),
            (LOOP, "unlimited", (*loop[:3], "b b f f b f f"), 9, refused + "backing 1"),
        ]
        for net, prop, lists, status, text in table:
            written = net + state(prop, *lists)
            self.assertEqual(run(f"flow-check {prop}", written), (status, text.format(prop) + "\n"), written)
            expected = (1, f"no {prop}\n") if status == 0 else (status, text + "\n")
            self.assertEqual(run(f"check {prop}", written), expected)

    def test_lines(self):
        right = state("full", "1", "1", "1", "f")
        table = [("no full", "no balanced", 1), ("no full", "yes full", 1), ("load 1", "load", 2),
        ("load 1", "load 1 1", 2),
                 ("load 1", "load 2/2", 2), ("room", "rooms", 3), ("flow 1", "flow  1", 4), ("mark f", "mark x", 5),
                 ("mark f", "mark f ", 5), ("end\n", "", 6), ("end", "end\r", 6), ("end\n", "end\n\n \nx", 9)]
        for old, new, line in table:
            answer = run("flow-check full", BELT + "\n \n" + right.replace(old, new))
            self.assertEqual(answer, (9, f"refused 50 CertLine {line}\n"), (old, new))
        self.assertEqual(run("flow-check full", BELT + right.rstrip())[1], "refused 54 NotBreaking kept 0\n")


class Networks(unittest.TestCase):
    def test_printed(self):
        for net in BELT, SPLITTER, LOOP, BUTTERFLY, FIRST, TAKEN, EXPRESS:
            self.assertEqual(run("recover", net), (0, net))
            self.assertEqual(run("recover", net.rstrip() + "\n \t\r\n"), (0, net))
        self.assertEqual(run("recover", EXPRESS.replace("o0", "o0 1")), (0, EXPRESS))
        both = "net 2 2 1\nedge i0 s0\nedge i1 s0\nedge s0 o0\nedge s0 o1\ntake s0 1\ngive s0 3\nend"
        self.assertEqual(run("recover", both)[1].split("\n")[5:7], ["give s0 3", "take s0 1"])

    def test_any(self):
        merge = TAKEN.replace("take s0 0", "take s0 any")
        self.assertEqual(run("recover", merge), (0, merge))
        for line in "take s0 any", "take s0 0":
            refused = run("recover", merge.replace("end", line + "\nend"))
            self.assertEqual(refused, (3, "refused 40 NetLine 6\n"))
        state = "no drawn-evenly\nload 1 1\nroom 1\nflow 1/4 3/4 1\nmark b b f\nend\n"
        self.assertEqual(run("flow-check drawn-evenly", merge + state), (0, "breaks drawn-evenly\n"))
        of_law = run("flow-check drawn-evenly", TAKEN.replace("take s0 0", "take s0 1") + state)
        self.assertEqual(of_law, (9, "refused 54 NotBreaking prior-in 1\n"))

    def test_refused(self):
        table = [
            ("", "40 NetLine 1"), (" " + BELT, "40 NetLine 1"), ("0eNq", "40 NetLine 1"),
            ("net 0 0 0\nend", "42 NoEnds"),
            ("net 1 1 0", "40 NetLine 2"), ("net 01 1 0\n", "40 NetLine 1"),
            ("net 9999999999999999999999 1 0\nx", "41 TooLarge"),
            ("net 1 1 2049", "41 TooLarge"), (BELT + "\n\nx", "40 NetLine 6"),
            (BELT.replace("i0", "i1"), "40 NetLine 2"),
            (BELT.replace("o0", "o0 5"), "40 NetLine 2"), (BELT.replace("edge i0 o0\n", ""), "40 NetLine 2"),
            (BELT.replace("end", "edge i0 o0"), "40 NetLine 3"), (BELT.replace("end", "end\r"), "40 NetLine 3"),
            (SPLITTER.replace("end", "edge s0 s0\nend"), "40 NetLine 6"), (PINNED, "40 NetLine 3"),
            (FIRST.replace("give s0 1", "give s0 0"), "40 NetLine 5"),
            (FIRST.replace("give s0 1", "take s0 1"), "40 NetLine 5"),
            (FIRST.replace("give", "give s0 2\ngive"), "40 NetLine 6"),
            (FIRST.replace("end", "edge s0 o1\nend"), "40 NetLine 6"),
            ("net 1 1 2000\nedge i0 o0\n" + "".join(f"edge s{n} s{n}\n" for n in range(2000)) * 2, "41 TooLarge"),
        ]
        for text, refusal in table:
            self.assertEqual(run("recover", text), (3, f"refused {refusal}\n"), text[:60])


class Formulas(unittest.TestCase):
    def test_one_belt(self):
        net = opinion.read_net(BELT)[0]
        formula = opinion.FlowFormula(net, "unlimited")
        self.assertEqual(formula.variables, 17)
        self.assertEqual(formula.clauses, [[2], [3], [4], [5], [6], [7], [8, 9], [10, 11], [12, 13], [14], [1, 10],
                                           [15], [-1, 12], [16], [17]])
        rows = {8: ([(0, 1)], ">=", 1), 9: ([(0, -1)], ">", -1), 10: ([(0, 1), (1, -1)], ">=", 0),
                11: ([(0, -1), (1, 1)], ">", 0), 12: ([(0, 1), (2, -1)], ">=", 0), 14: ([(0, -1), (1, 1)], ">=", 0),
                16: ([(0, -1), (1, 1)], ">", 0), 17: ([(0, -1), (2, 1)], ">", 0)}
        self.assertEqual({variable: formula.rows[variable] for variable in rows}, rows)
        balanced = opinion.FlowFormula(net, "balanced")
        self.assertEqual((balanced.variables, len(balanced.clauses), balanced.clauses[-1]), (16, 15, []))

    def test_caps_and_priorities(self):
        express = opinion.FlowFormula(opinion.read_net(EXPRESS)[0], "full")
        even = [clause for clause in express.clauses if clause[0] in (2, 3)]
        self.assertEqual([len(clause) for clause in even], [3, 2])
        first = opinion.FlowFormula(opinion.read_net(FIRST)[0], "full")
        enough = next(v for v, row in first.rows.items() if row == ([(2, -1)], ">=", 0))
        full = next(v for v, row in first.rows.items() if row == ([(1, 1)], ">=", 1))
        self.assertIn([2, full, enough], first.clauses)
        self.assertIn([enough, enough + 1], first.clauses)
        taken = opinion.FlowFormula(opinion.read_net(TAKEN)[0], "full")
        self.assertEqual(sum(clause[0] == -1 and len(clause) == 3 for clause in taken.clauses), 2)


    def test_met_by_what_breaks(self):
        """The formula is met by exactly those states that break the property, those near a breaking one among them."""
        def holds(row, columns):
            terms, relation, bound = row
            value = sum(number * columns[column] for column, number in terms)
            return {">=": value >= bound, ">": value > bound, "=": value == bound}[relation]
        chance, met = random.Random(1), Counter()
        for text, prop, loads, rooms, flows, marks in BREAKING:
            net = opinion.read_net(text)[0]
            formula = opinion.FlowFormula(net, prop)
            for turn in range(150):
                lists = [[Fraction(word) for word in words.split()] for words in (loads, rooms, flows)]
                backed = [mark == "b" for mark in marks.split()]
                for _ in range(turn and chance.randrange(1, 4)):
                    near = chance.choice(lists)
                    near[chance.randrange(len(near))] = chance.choice((*near, *lists[2], Fraction(0), Fraction(1)))
                    backed[chance.randrange(len(backed))] ^= chance.randrange(3) == 0
                columns = lists[2] + lists[0] + lists[1] + simplest.level(net, prop, lists[2])
                true = {n + 1 for n, mark in enumerate(backed) if mark}
                true |= {variable for variable, row in formula.rows.items() if holds(row, columns)}
                true -= {-c[0] for c in formula.clauses if len(c) == 2 and -c[0] in formula.rows and c[1] not in true}
                meets = all(any((literal > 0) == (abs(literal) in true) for literal in c) for c in formula.clauses)
                breaks = all(passed for _, _, passed in opinion.tests(net, prop, *lists, backed))
                self.assertEqual(meets, breaks, (text, prop, lists, backed))
                met[meets] += 1
        self.assertGreater(met[True], 3 * len(BREAKING))


class Certificates(unittest.TestCase):
    def test_flow(self):
        table = [
            ((), 0, "yes unlimited"), ([(2, "f -10 -16 0 2 1")], 9, "51 BadStep 2 sum"),
            ([(4, "r 0 18 14 15 16 17 11 13 0")], 9, "51 BadStep 4 hint"), ([(4, None)], 9, "52 NoVerdict"),
            ([(2, f"f -10 -16 0 {WIDE} 1/3")], 9, "53 CertWide 2 1 0"),
            ([(2, "f -99 -16 0 1 1")], 9, "51 BadStep 2 literal"),
            ([(2, "f 10 -16 0 1 1")], 9, "51 BadStep 2 literal"),
            ([(2, "f -10 -16 0 -1 1")], 9, "51 BadStep 2 weight"),
            ([(2, "f -10 -16 0 1")], 9, "51 BadStep 2 weight"), ([(2, "r 0 11 0")], 9, "51 BadStep 2 unit"),
            ([(2, "r 0 0")], 9, "51 BadStep 2 unit"), ([(2, "r 1 -1 0 11 0")], 9, "51 BadStep 2 literal"),
            ([(2, "r 0 11")], 9, "50 CertLine 2"), ([(2, "r 1234567890123456789 0 11 0")], 9, "50 CertLine 2"),
            ([(2, "r 0 -11 0")], 9, "50 CertLine 2"), ([(2, "f -10 -16 0 1 2/2")], 9, "50 CertLine 2"),
            ([(2, "f 0")], 9, "51 BadStep 2 sum"), ([(6, "x")], 9, "50 CertLine 6"),
            ([(5, None)], 9, "50 CertLine 5"),
            ([(2, "f -10 -16 0 1/2 1/2")], 0, "yes unlimited"), ([(5, "r 1 0 18 0\nend\nx\n")], 9, "52 NoVerdict"),
            ([(5, "r 1 0 17 18 0\nend\n \n")], 9, "51 BadStep 5 unit"), ([(1, "yes full")], 9, "50 CertLine 1"),
        ]
        for changed, status, text in table:
            answer = run("check unlimited", BELT + lines(*changed))
            self.assertEqual(answer, (status, ("refused " if status else "") + text + "\n"), changed)
        self.assertEqual(run("check balanced", BELT + "yes balanced\nr 0 15 0\nend\n"), (0, "yes balanced\n"))
        self.assertEqual(run("check balanced", BELT + "yes balanced"), (9, "refused 50 CertLine 2\n"))
        self.assertEqual(run("flow-check unlimited", BELT + lines()), (9, "refused 50 CertLine 1\n"))

    def test_definitions(self):
        unlimited = "yes unlimited\n{}f -10 -16 0 1 1\nf -12 -17 0 1 1\nr 0 14 15 {} {} 11 13 0\nend\n"
        less = "p 0 1 1 -1 2 0\n"
        table = [
            ("unlimited", unlimited.format(less, 17, 18), 0, "yes unlimited"),
            ("unlimited", unlimited.format("p 0 1 1 -1 4 0\n", 17, 18), 9, "refused 50 CertLine 2"),
            ("unlimited", unlimited.format("", 17, 18).replace("f -12", less + "f -12"), 9, "refused 50 CertLine 3"),
            ("balanced", "yes balanced\nc 1 0 1 1 0 0 0\nr 0 15 0\nend\n", 0, "yes balanced"),
            ("balanced", "yes balanced\nv 1 -1 0\nr 0 15 0\nend\n", 9, "refused 50 CertLine 2"),
            ("unlimited", unlimited.format("c 1 1 -1 1 0 0 0\nf -3 -18 -23 0 1 1 1\nr 22 0 18 22 20 2 24 0\n", 26, 27),
             0, "yes unlimited"),
            ("unlimited", unlimited.format("v -1 8 0\nr 18 -8 0 18 0\n", 20, 21), 0, "yes unlimited"),
            ("unlimited", unlimited.format("v -1 8 0\nr 18 -8 0 17 0\n", 20, 21), 9, "refused 51 BadStep 3 unit"),
            ("unlimited", "yes unlimited\np 0 0\nend\n", 9, "refused 52 NoVerdict"),
            ("unlimited", "yes unlimited\np 0 0", 9, "refused 50 CertLine 3"),
        ]
        for prop, text, status, answer in table:
            self.assertEqual(run(f"check {prop}", BELT + text), (status, answer + "\n"), text)
        wrong = [
            "v 0", "v 2 1 0", "v 1 18 0", "c 18 0 0 0 0", "c -1 0 0 0 0", "c 1 0 0 0", "c 1 0 0 0 1 4 0",
            "p 0 1 2 1 1 0", "p 0 0 0", "p -0 1 1 0", "p 2/4 1 1 0", "p", "p 0", "p 0 1 0", "p 0 1 1/2 0", "c 1",
            "c 0 0 0 0 0", "c 1/2 0 0 0 0", "v", "v 1", "v 1/2 0", "v 1 1 0", "p  0 0", "p 0 0 ", " p 0 0",
            "v " + "9" * 50 + " 0", "p 0 1 " + "9" * 50 + " 0",
        ]
        for line in wrong:
            answer = run("check unlimited", BELT + unlimited.format(line + "\n", 17, 18))
            self.assertEqual(answer, (9, "refused 50 CertLine 2\n"), line)
        for line in ["p 1/2 -1/2 1 0", "p 0 0", less.strip()]:
            answer = run("check unlimited", BELT + unlimited.format(line + "\n", 17, 18))
            self.assertEqual(answer, (0, "yes unlimited\n"), line)
        formula, steps = "p cnf 2 3\n1 2 0\n-1 0\n-2 0\n", "none\n{}\nr 0 2 3 1 0\nend\n"
        self.assertEqual(run("none formula", steps.format("v 1 -2 0"), formula=formula), (1, "none\n"))
        for line in ["p 0 0", "c 1 0 0 0 0", "v 1 3 0"]:
            self.assertEqual(
                run("none formula", steps.format(line), formula=formula), (9, "refused 50 CertLine 2\n"), line
            )

    def test_dimacs(self):
        formula = "c two variables\np cnf 2 3\n1 2 0\n-1 0\n-2 0\n"
        table = [("r 0 2 3 1 0\nend", 1, "none"), ("r 0 1 2 3 0\nend", 9, "refused 51 BadStep 2 unit"),
                 ("f -1 0 1\nend", 9, "refused 51 BadStep 2 literal"), ("end", 9, "refused 52 NoVerdict"),
                 ("", 9, "refused 50 CertLine 2"), ("r 2 0 2 1 0\nr 0 4 3 0\nend\n\n", 1, "none"),
                 ("r 2 0 2 1 0\nr 0 5 3 0\nend\n\n", 9, "refused 51 BadStep 3 hint")]
        for steps, status, text in table:
            self.assertEqual(run("none formula", "none\n" + steps, formula=formula), (status, text + "\n"), steps)
        self.assertEqual(run("none formula", "nine\nend", formula=formula), (9, "refused 50 CertLine 1\n"))
        wrong = [("p cnf", "p dnf", 2), ("2 3", "2 4", 6), ("-2 0", "-3 0", 5), ("-1 0", "-1", 4), ("c ", "d ", 1)]
        for old, new, line in wrong:
            answer = run("none formula", "none\nend", formula=formula.replace(old, new, 1))
            self.assertEqual(answer, (3, f"refused formula {line}\n"), new)

    def test_renamed(self):
        loader = SourceFileLoader("lrat", str(HERE.parent / "tools" / "lrat"))
        lrat = module_from_spec(spec_from_loader("lrat", loader))
        loader.exec_module(lrat)
        formula, certificate = "p cnf 2 3\n1 2 0\n-1 0\n-2 0\n", "none\nr 2 0 2 1 0\nr 0 4 3 0\nr 1 0 5 0\nend\n"
        proof = lrat.renamed(formula, certificate)
        self.assertEqual(proof, "4 2 0 2 1 0\n5 0 4 3 0\n")
        again = "none\n" + "".join("r " + line.split(" ", 1)[1] + "\n" for line in proof.splitlines()) + "end\n"
        self.assertEqual(run("none formula", again, formula=formula), (1, "none\n"))
        proof = lrat.renamed(formula, "none\nv 1 -2 0\nr 0 2 3 1 0\nend\n")
        self.assertEqual(proof, "4 -3 1 -2 0 0\n5 3 -1 0 -4 0\n6 3 2 0 -4 0\n7 0 2 3 1 0\n")
        self.assertRaises(ValueError, lrat.renamed, formula, "none\nf 0\nend\n")
        self.assertRaises(ValueError, lrat.renamed, formula, "none\nr 2 0 2 1 0\nend\n")


class Json(unittest.TestCase):
    def test_faults(self):
        table = [
            ('{"blueprint":{"item":"blu', "10 Json 25"), ('{"a":1,"a":2}', "12 DuplicateKey 7"),
            ('{"a":' + "[" * 64, "11 Deep 68"),
            ('{"a":' + "[" * 63, "10 Json 68"), ("{,", "10 Json 1"), ('{"a":01}', "10 Json 6"),
            ('{"a":1.}', "10 Json 7"),
            ('{"a":1e}', "10 Json 7"), ('{"a":-}', "10 Json 6"), ('{"a":1-}', "10 Json 6"),
            ('{"a":1.e1}', "10 Json 7"),
            ('{"a":nul}', "10 Json 8"), ('{"a":trux}', "10 Json 8"), ('{"a":1,}', "10 Json 7"),
            ('{"a":[1,]}', "10 Json 8"),
            ('{"a" 1}', "10 Json 5"), ('{"\\u12x4":1}', "10 Json 6"), ('{"\\x":1}', "10 Json 3"),
            ('{"a\n":1}', "10 Json 3"),
            ('{"\\ud800":1,"\\udc00":2}', "12 DuplicateKey 12"),
            ('{"\\ud83d\\ude00":1,"\U0001f600":2}', "12 DuplicateKey 18"),
            ('{"a":1,"\\u0061":2}', "12 DuplicateKey 7"), (b'{"\xe2\x82":1}', "10 Json 4"),
            (b'{"\xc0\x80":1}', "10 Json 2"),
            (b'{"\xed\xa0\x80":1}', "10 Json 3"), (b'{"\xf4\x90', "10 Json 3"), (b'{"\xe2', "10 Json 3"),
            (b"{\xff", "10 Json 1"),
            (' \n{"blueprint":{}} x', "42 NoEnds"), ('{"blueprint":{}', "10 Json 15"), ("{}", "20 NotBlueprint"),
        ]
        for text, refusal in table:
            self.assertEqual(run("recover", text), (3, f"refused {refusal}\n"), text)

    def test_every_front(self):
        whole = blueprint(*TWO_BY_TWO)
        self.assertEqual(run("recover", ""), (3, "refused 40 NetLine 1\n"))
        for length in range(1, len(whole)):
            self.assertEqual(run("recover", whole[:length]), (3, f"refused 10 Json {length}\n"))
        self.assertEqual(run("recover", whole + " \n}"), (3, f"refused 10 Json {len(whole) + 2}\n"))


class Blueprints(unittest.TestCase):
    def test_recovered(self):
        moved = blueprint(*[(name, x + 0.5, y + 0.5, way) for name, x, y, way in TWO_BY_TWO])
        south = [
            ("splitter", 0, 0, 4, {"output_priority": '"left"'}), *(belt(x, y, 4) for y in (-1, 1) for x in (0, 1))
        ]
        left = [(*TWO_BY_TWO[0], {"output_priority": '"left"', "input_priority": '"right"'}), *TWO_BY_TWO[1:]]
        alone = [("splitter", 0, 0, 0, {"output_priority": '"left"'}), belt(0, 1, 0), belt(1, 1, 0), belt(1, -1, 0)]
        two, tiers = "net 2 2 0\nedge i0 o0\nedge i1 o1\nend\n", [
            piece(0, 0, 2, "input"), piece(1, 0, 2, "input", "fast-"),
            piece(3, 0, 2, "output"), piece(6, 0, 2, "output", "fast-")]
        table = [
            (blueprint(*TWO_BY_TWO), SPLITTER), (moved, SPLITTER), (blueprint(belt(0, 0, 4), belt(1, 0, 4)), two),
            (blueprint(belt(0, 0, 4), belt(1, 0, 4), version=2), BELT),
            (blueprint(piece(0, 0, 2, "input"), piece(5, 0, 2, "output")), BELT),
            (blueprint(*tiers), two.replace("o1", "o1 2")), (blueprint(belt(1, 0, 2), belt(1, 1, 0)), BELT),
            (blueprint(*south), SPLITTER.replace("end", "give s0 3\nend")),
            (blueprint(*left), SPLITTER.replace("end", "give s0 2\ntake s0 1\nend")),
            (blueprint(*alone), "net 2 1 1\nedge i0 s0\nedge i1 s0\nedge s0 o0\nend\n"),
            (blueprint(belt(0, 0, 0)).replace("0.5", "15e-1", 1).replace("0.5", "1.50"), BELT),
            (drawn(MAP), BUTTERFLY.replace("s2 o0", "s0 s2").split("edge")[0] + "".join(
                f"edge {a} {b}\n" for a, b in zip("i0 i1 i2 i3 s0 s0 s1 s1 s2 s2 s3 s3".split(),
                                                  "s2 s2 s3 s3 o0 o1 o2 o3 s0 s1 s0 s1".split())) + "end\n"),
        ]
        for design, net in table:
            self.assertEqual(run("recover", design), (0, net), design)

    def test_refused(self):
        one, none = blueprint(belt(0, 0, 0)), ""
        table = [
            (blueprint(piece(0, 0, 2, "input"), piece(6, 0, 2, "output")), "31 Unpaired 0"),
            (blueprint(piece(0, 0, 2, "input"), piece(1, 0, 2, "input"), piece(3, 0, 2, "output")), "31 Unpaired 0"),
            (blueprint(belt(0, 0, 2), belt(1, 0, 2), belt(1, 1, 0)), "32 SideLoad 1"),
            (blueprint(belt(0, 0, 2), belt(1, 0, 6)), "33 Blocked 0"), (blueprint(), "42 NoEnds"),
            (blueprint(belt(0, 0, 2), belt(1, 0, 4), belt(1, 1, 6), belt(0, 1, 0)), "34 Ring 0"),
            (blueprint(belt(0, 0, 0), belt(0, 0, 0)), "30 Overlap 0 1"),
            (one.replace("0.5", "0.25", 1), "25 OffGrid 0"),
            (one.replace("0.5", "1e99999999999999999999", 1), "25 OffGrid 0"),
            (one.replace("transport", "belt"), "23 Unsupported 0"),
            (one.replace('"name"', '"nam"'), "24 BadMember 0 name"),
            (one.replace('"x"', '"z"'), "24 BadMember 0 position"),
            (one.replace('n":0', 'n":1'), "24 BadMember 0 direction"),
            (one.replace('n":0', 'n":null'), "24 BadMember 0 direction"),
            (one.replace('"direction":0', '"filter":null'), "27 Special 0 filter"),
            (one.replace("[{", "[1,{"), "24 BadMember 0 entity"),
            (one.replace("transport", "underground"), "24 BadMember 0 type"),
            (one.replace("blueprint", "blueprint_book"), "21 Book"),
            (blueprint(("splitter", 0, 0, 0, {"input_priority": '"up"'})), "24 BadMember 0 input_priority"),
            (one.replace("281479271677952", "1.5"), "20 NotBlueprint"),
            (one.replace('"entities":[', '"entities":1,"z":['), "20 NotBlueprint"),
            ('{"blueprint":{"entities":[' + ",".join("1" * 16385) + "]}}", "22 TooMany"),
            (blueprint(belt(0, 0, 0), belt(0.5, 1, 0)), "25 OffGrid 1"), (one + none + "{", f"10 Json {len(one)}"),
        ]
        for design, refusal in table:
            self.assertEqual(run("recover", design), (3, f"refused {refusal}\n"), design[:200])


class Layouts(unittest.TestCase):
    def laid(self, grid, request, design, expected):
        self.assertEqual(run(f"laid --grid {grid} request", design, request=request), expected)

    def test_laid(self):
        yes, no = (0, "laid\n"), (1, "not laid\n")

        def prefers(member, hand):
            return below.replace('"splitter"', f'"splitter", "{member}": "{hand}"', 1)

        below = blueprint(("splitter", 0, 1, 0), *(belt(x, y, 0) for y in (0, 2) for x in (0, 1)))
        beside, apart = blueprint(belt(0, 0, 0), belt(1, 0, 0)), blueprint(belt(0, 0, 0), belt(2, 0, 0))
        one, tunnel = blueprint(belt(0, 0, 2)), blueprint(piece(0, 0, 2, "input"), piece(2, 0, 2, "output"))
        table = [
            ("1x1", BELT, one, yes), ("3x1", PINNED, tunnel, yes), ("4x1", PINNED, tunnel, no),
            ("3x1", PINNED, blueprint(belt(0, 0, 2), belt(1, 0, 2), belt(2, 0, 2)), no), ("1x1", SPLITTER, one, no),
            ("3x1", PINNED.replace("2 0", "2 0 east"), tunnel, yes),
            ("3x1", PINNED.replace("2 0", "2 0 north"), tunnel, no),
            ("3x1", PINNED.replace("i0 0 0", "i0 1 0").replace("block 1", "block 0"), tunnel, no),
            ("1x1", BELT, one.replace("transport-belt", "fast-transport-belt"), no),
            ("2x3", SPLITTER, below, yes),
            ("2x3", SPLITTER.replace("end", "side inputs south\nside o1 north\nend"), below, yes),
            ("2x3", SPLITTER.replace("end", "side i0 south\nside outputs east\nend"), below, no),
            ("2x3", SPLITTER.replace("end", "side i1 south\nside i0 north\nend"), below, no),
            ("2x3", SPLITTER.replace("end", "pin i0 1 2\nside i1 south\nend"), below, yes),
            ("1x1", BELT.replace("end", "side inputs west\nside outputs east\nend"), one, yes),
            ("1x1", BELT.replace("end", "side i0 west\nside o0 north\nend"), one, no),
            ("2x3", SPLITTER.replace("end", "row inputs\nrow outputs\nend"), below, yes),
            ("3x1", TWO.replace("end", "side inputs south\nrow inputs\nend"), apart, no),
            ("3x1", TWO.replace("end", "side inputs south\nrow outputs\nend"), beside, yes),
            ("2x3", SPLITTER.replace("end", "give s0 2\nend"), below, no),
            ("2x3", SPLITTER, prefers("output_priority", "left"), no),
            ("2x3", SPLITTER.replace("end", "give s0 2\nend"), prefers("output_priority", "left"), yes),
            ("2x3", SPLITTER.replace("end", "give s0 3\npin o0 0 0\nend"), prefers("output_priority", "left"), no),
            ("2x3", SPLITTER.replace("end", "give s0 3\npin o0 0 0\nend"), prefers("output_priority", "right"), yes),
            ("2x3", SPLITTER.replace("end", "take s0 0\npin i1 0 2\nend"), prefers("input_priority", "right"), yes),
            ("2x3", SPLITTER.replace("end", "take s0 0\npin i1 0 2\nend"), prefers("input_priority", "left"), no),
            ("2x2", SPLITTER, below, no),
            ("5x8", BUTTERFLY, drawn(MAP), yes),
            ("5x8", BUTTERFLY.replace("s0 s3", "s0 s2").replace("s1 s2", "s1 s3"), drawn(MAP), no),
        ]
        for grid, request, design, expected in table:
            self.laid(grid, request, design, expected)
        fast = one.replace("transport-belt", "fast-transport-belt")
        self.assertEqual(run("laid --grid=1x1 --tier fast request", fast, request=BELT), yes)

    def test_refused(self):
        one = blueprint(belt(0, 0, 0))
        table = [
            (BELT.replace("end", "pin i0 1 0\nend"), 3, "44 Pin 3"), (BELT.replace("o0", "o0 2"), 3, "45 Cap 0"),
            (BELT.replace("end", "block 1 0\nend"), 3, "46 Block 3"),
            (BELT.replace("end", "pin i0 0 0\npin i0 0 0\nend"), 3, "44 Pin 4"),
            (BELT.replace("end", "pin o0 0 0\nblock 0 0\nend"), 3, "46 Block 4"),
            (BELT.replace("end", "block 0 0\npin o0 0 0\nend"), 3, "40 NetLine 4"), (BELT + "x", 3, "40 NetLine 4"),
            (BELT.replace("end", "pin i1 0 0\nend"), 3, "40 NetLine 3"),
            (BELT.replace("end", "side i0 south\nside o0 north\nside o0 north\nend"), 3, "44 Pin 5"),
            (BELT.replace("end", "pin i0 0 0\nside inputs south\nend"), 3, "44 Pin 4"),
            (BELT.replace("end", "side i1 south\nend"), 3, "40 NetLine 3"),
            (BELT.replace("end", "block 0 0\nside i0 south\nend"), 3, "40 NetLine 4"),
            (BELT.replace("end", "row inputs\nrow outputs\nrow inputs\nend"), 3, "44 Pin 5"),
            (BELT.replace("end", "row i0\nend"), 3, "40 NetLine 3"),
            (BELT.replace("end", "block 0 0\nrow inputs\nend"), 3, "40 NetLine 4"),
            (SPLITTER.replace("end", "row inputs\ngive s0 1\nend"), 3, "40 NetLine 7"),
        ]
        for request, status, refusal in table:
            self.laid("1x1", request, one, (status, f"refused {refusal}\n"))
        self.laid("1x1", BELT, blueprint(belt(0, 0, 2), belt(1, 0, 6)), (9, "refused 33 Blocked 0\n"))
        self.laid("1x1", BELT, one + "x", (9, f"refused 10 Json {len(one)}\n"))

    def test_same_but_for_names(self):
        def net(text):
            return opinion.read_net(text)[0]
        def same(one, other):
            colours = [{end: end[0] for k in "ios" for end in n.ends(k)} for n in (one, other)]
            return opinion.are_alike((one, other), colours)
        renamed = BUTTERFLY.translate(str.maketrans("0123", "3120"))
        renamed = "net 4 4 4" + renamed[9:]
        self.assertTrue(same(net(BUTTERFLY), net(renamed)))
        self.assertFalse(same(net(BUTTERFLY), net(BUTTERFLY.replace("s0 s3", "s0 s2").replace("s1 s2", "s1 s3"))))
        rings = [[(n + 1) % 6 for n in range(6)], [1, 2, 0, 4, 5, 3]]
        one, two = ("".join(f"edge s{n} s{to}\n" for n, to in enumerate(ring)) for ring in rings)
        one, two = (f"net 1 1 6\nedge i0 o0\n{edges}end" for edges in (one, two))
        self.assertFalse(same(net(one), net(two)))
        self.assertTrue(same(net(one), net(one)))


class Words(unittest.TestCase):
    def test_usage(self):
        for words in ("", "decide", "check", "check Full", "check balanced full", "recover x", "none", "--help",
                      "laid request", "laid --grid 0x1 request", "laid --grid 161x1 request", "laid --grid 1x1",
                      "laid --grid 1x1 --tier slow request"):
            self.assertEqual(run(words, BELT), (2, "usage\n"), words)

    def test_too_long(self):
        self.assertEqual(opinion.run(["recover"], lambda most: b" " * most, None), (11, "too long\n"))

    def test_no_file(self):
        def gone(path):
            raise FileNotFoundError(path)
        self.assertEqual(opinion.run(["none", "formula"], lambda most: b"", gone), (6, ""))

    def test_as_a_command(self):
        command, before = [sys.executable, str(HERE / "check.py")], set(HERE.rglob("*.pyc"))
        ran = subprocess.run([*command, "recover"], input=BELT.encode(), capture_output=True, check=False)
        self.assertEqual((ran.returncode, ran.stdout), (0, BELT.encode()))
        ran = subprocess.run([*command, "none", "."], input=b"none\n", capture_output=True, check=False)
        self.assertEqual((ran.returncode, ran.stdout, ran.stderr), (6, b"", b""))
        self.assertEqual(set(HERE.rglob("*.pyc")), before)

    def test_options(self):
        one, written = blueprint(belt(0, 0, 2)), []
        def asked(path):
            written.append(path)
            return BELT.encode()
        for words in ("--grid 1x1 request", "--grid=1x1 request", "--grid=1x1 --tier=basic request",
                      "--grid 1x1 --tier basic request", "--grid 1x1 --tier", "--grid 1x1 --tier=basic"):
            answer = opinion.run(["laid", *words.split()], lambda most: one.encode(), asked)
            self.assertEqual(answer, (0, "laid\n"), words)
        self.assertEqual(written, ["request"] * 4 + ["--tier", "--tier=basic"])
        for words in ("--grid", "--grid=", "1x1", "--grid 1x1 --tier basic", "--grid 1x1 a b",
                      "--tier basic --grid 1x1 a"):
            self.assertEqual(run(f"laid {words}", BELT), (2, "usage\n"), words)


class Form(unittest.TestCase):
    def test_readable(self):
        """Of the modules that are read by those who trust nothing: short lines, and words for each function."""
        for path in (HERE / "check.py", *sorted((HERE / "opinion").glob("*.py"))):
            text = path.read_text(encoding="utf-8")
            self.assertLessEqual(max(map(len, text.splitlines())), 100, path.name)
            for node in ast.walk(ast.parse(text)):
                if isinstance(node, ast.FunctionDef) and node.name not in ("__init__", "main"):
                    self.assertTrue(ast.get_docstring(node), f"{path.name}: {node.name}")


if __name__ == "__main__":
    unittest.main()
