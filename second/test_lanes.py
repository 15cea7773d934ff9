#!/usr/bin/env python3
"""Tests of recovery by lanes, by worked designs and by designs without side-loads."""

import sys

sys.dont_write_bytecode = True

import random
import unittest
from pathlib import Path

sys.path.insert(0, str(Path(__file__).resolve().parent))

from opinion import BELT, ENTRANCE, EXIT, SPLITTER, Answer, Part, recover, recover_lanes, run

KINDS = {"^": (BELT, 0), ">": (BELT, 1), "v": (BELT, 2), "<": (BELT, 3), "[": (SPLITTER, 0),
         "U": (ENTRANCE, 0), "u": (EXIT, 0)}
BALANCER = ".^./>^</^>^/[]./^.."
UNIVERSAL = "..^./.>^</.^>^/.[]./.^^./>u^./^.u./^>U./[]../^..."
WORKED = {  # of each design the options and the text of its network
    "^": [({}, "net 2 2 0/edge i0 o0/edge i1 o1")],
    ">v/.v": [({}, "net 2 2 0/edge i0 o0/edge i1 o1")],
    ".^/>^/.^": [
        ({}, "net 4 2 2/edge i0 s0/edge i1 s0/edge i2 s1/edge i3 o1/edge s0 s1/edge s1 o0/take s0 any/take s1 any"),
        ({"merges": "straight"},
         "net 4 2 2/edge i0 s0/edge i1 s0/edge i2 s1/edge i3 o1/edge s0 s1/edge s1 o0/take s0 any/take s1 2"),
        ({"merges": "rear"},
         "net 4 2 2/edge i0 s0/edge i1 s0/edge i2 s1/edge i3 o1/edge s0 s1/edge s1 o0/take s0 1/take s1 2")],
    ".^/.u/>U/.^": [
        ({}, "net 4 2 2/edge i0 s1/edge i1 s0/edge i2 s0/edge i3 o1/edge s0 o0/take s0 any")],
    ".u/>U": [({}, "net 2 2 2/edge i0 s1/edge i1 o0/edge s0 o1")],
    ".^/>^/.u": [({}, "net 2 2 4/edge i0 s0/edge i1 s0/edge s0 s1/edge s1 o0/edge s2 s1/edge s3 o1"
                      "/take s0 any/take s1 any")],
    BALANCER: [
        ({}, "net 2 2 4/edge i0 s0/edge i1 s1/edge s0 s2/edge s0 s3/edge s1 s2/edge s1 s3/edge s2 o0/edge s3 o1"
             "/take s2 any/take s3 any"),
        ({"merges": "rear"},
         "net 2 2 4/edge i0 s0/edge i1 s1/edge s0 s2/edge s0 s3/edge s1 s2/edge s1 s3/edge s2 o0/edge s3 o1"
         "/take s2 4/take s3 3")],
    "^./^</[]/^.": [
        ({}, "net 2 2 4/edge i0 s0/edge i1 s1/edge s0 o0/edge s0 s2/edge s1 s3/edge s1 s2/edge s2 s3/edge s3 o1"
             "/take s2 any/take s3 any")],
    ".^./.u./>U</^>^/[]./^..": [
        ({}, "net 2 2 4/edge i0 s0/edge i1 s1/edge s0 s2/edge s0 o1/edge s1 o0/edge s1 s3")],
}
COUNTS = [  # of each design the options and the first line of its network
    (UNIVERSAL, {}, "net 2 2 10"), (UNIVERSAL.replace("^.u.", "^Uu."), {}, "net 4 2 10"),
    (UNIVERSAL.replace("^.u.", "^Uu."), {"stubs": [14]}, "net 2 2 12"),
    ("u..u/U<>U/.[]./.^..", {}, "net 2 4 6"), ("^>>v../^^.v<</[]>v../.^<<..", {}, "net 4 2 6"),
    (".^..^./>^<>^</^>^^>^/[].[]./^<<^../..[].../..^^..", {}, "net 4 4 10"),
]
REFUSED = [
    ("u", {}, "31 Unpaired 0"), ("U", {}, "31 Unpaired 0"), ("..v./.>>v/.^<<", {}, "34 Ring 1"),
    ("^", {"stubs": [1]}, "35 Stub 1"), ("^", {"stubs": [0]}, "42 NoEnds"), ("v/^", {}, "33 Blocked 0"),
    ("^/^", {"stubs": [0]}, "35 Stub 0"), ("^^/[]", {"stubs": [2]}, "35 Stub 2"),
]


def drawn(text):
    """The parts of a drawing, by rows and in each from west to east; all are basic."""
    return [
        Part(kind, 0, way, (x, y), None, None)
        for y, row in enumerate(text.split("/")) for x, mark in enumerate(row) if mark in KINDS
        for kind, way in [KINDS[mark]]
    ]


def scattered(rng, across, count):
    """Parts at random in a square; those that share cells with earlier ones are left out."""
    parts, taken = [], set()
    for _ in range(count):
        kind = rng.choice([BELT, BELT, BELT, SPLITTER])
        cell = rng.randrange(across), rng.randrange(across)
        part = Part(kind, rng.randrange(2), rng.randrange(4), cell, None, None)
        if kind == SPLITTER:
            part = part._replace(take=rng.choice([None, 0, 1]), give=rng.choice([None, 0, 1]))
        cells = {part.cell, (part.cell[0] + 1 - part.dir % 2, part.cell[1] + part.dir % 2)}
        cells = cells if kind == SPLITTER else {part.cell}
        if not cells & taken:
            parts.append(part)
            taken |= cells
    return parts


def in_two(net):
    """The edges of a network with all of it doubled, the left lanes first in each splitter."""
    return sorted(
        ((start[0], 2 * start[1] + lane), (target[0], 2 * target[1] + lane), cap, lane)
        for start, target, cap in net.edges for lane in (0, 1)
    )


class Tests(unittest.TestCase):
    def test_worked_designs(self):
        for design, cases in WORKED.items():
            for options, wanted in cases:
                text = recover_lanes(drawn(design), **options)[0].text()
                self.assertEqual(text, wanted.replace("/", "\n") + "\nend", (design, options))

    def test_counts(self):
        for design, options, wanted in COUNTS:
            text = recover_lanes(drawn(design), **options)[0].text()
            self.assertEqual(text.split("\n")[0], wanted, design)

    def test_refused(self):
        for design, options, wanted in REFUSED:
            with self.assertRaises(Answer) as refused:
                recover_lanes(drawn(design), **options)
            self.assertEqual(refused.exception.text, f"refused {wanted}\n", design)

    def test_words(self):
        words = {
            "--stubs 0": 2, "--merges any": 2, "--lanes --stubs 0,0": 2, "--lanes --stubs": 2,
            "--lanes --merges even": 2, "--lanes --stubs 1234567890": 2, "--lanes": 0,
            "--lanes --merges rear --stubs 0": 0, "": 0,
        }
        for options, status in words.items():
            design = b"net 1 1 0\nedge i0 o0\nend\n"
            self.assertEqual(run(["recover", *options.split()], lambda most: design, None)[0], status, options)

    def test_without_side_loads_there_are_two_copies(self):
        rng, compared = random.Random(73), 0
        while compared < 200:
            parts = scattered(rng, 4, rng.randrange(2, 9))
            try:
                whole = recover(parts)
            except Answer:
                continue
            lanes = recover_lanes(parts)
            edges = [(*edge, edge.start[1] % 2) for edge in lanes[0].edges]
            self.assertEqual(sorted(edges), in_two(whole[0]))
            self.assertEqual(lanes[1:], whole[1:])
            for word, first in whole[0].first.items():
                self.assertEqual(len(lanes[0].first[word]), 2 * len(first))
            compared += 1


if __name__ == "__main__":
    unittest.main()
