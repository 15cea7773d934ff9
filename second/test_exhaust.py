"""Tests of exhaust.py: what it lists of the smallest grids, and which requests have layouts there."""

import sys
import unittest
from pathlib import Path

sys.dont_write_bytecode = True
sys.path.insert(0, str(Path(__file__).resolve().parent))

import opinion
import exhaust


def request(*lines):
    return opinion.read_request("\n".join([*lines, "end", ""]), 16, 16)


class Listings(unittest.TestCase):
    def test_counts(self):
        for width, height, layouts, networks in ((1, 1, 4, 1), (1, 2, 16, 2), (2, 1, 16, 2), (3, 1, 66, 3)):
            listing = exhaust.Listing(width, height)
            self.assertEqual((listing.count, len(listing.groups)), (layouts, networks))

    def test_has(self):
        listing = exhaust.Listing(2, 3)
        belt = ("net 1 1 0", "edge i0 o0")
        splitter = ("net 1 2 1", "edge i0 s0", "edge s0 o0", "edge s0 o1")
        for lines, wanted in (
                (belt, True),
                ((*belt, "pin i0 0 0 west", "pin o0 1 0"), False),
                ((*belt, "pin i0 1 0 west", "pin o0 0 0"), True),
                ((*belt, "pin i0 1 0 west", "pin o0 0 0", "block 0 1", "block 1 1"), True),
                (splitter, True),
                ((*splitter, "pin o0 0 0", "pin o1 1 0"), True),
                ((*splitter, "pin o0 0 0", "pin o1 0 0"), False),
                ((*splitter, "side i0 south", "side outputs north"), True),
                ((*splitter, "side i0 south", "side o0 north", "side o1 south"), False),
                ((*belt, "side i0 south", "pin o0 1 0 south"), False),
                ((*belt, "side inputs north", "pin o0 1 2 south"), True),
                ((*splitter, "side outputs north", "row outputs"), True),
                ((*splitter, "give s0 1", "row inputs", "row outputs"), True),
                ((*splitter, "pin o0 0 0", "pin o1 1 2", "row outputs"), False),
                ((*splitter, "block 0 0", "block 0 1", "block 0 2"), False),
                (("net 3 3 0", "edge i0 o0", "edge i1 o1", "edge i2 o2"), True)):
            net, pins, rows, blocks = request(*lines)
            self.assertEqual(listing.has(net, pins, rows, [cell for cell, *_ in blocks]), wanted, lines)


if __name__ == "__main__":
    unittest.main()
