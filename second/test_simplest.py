"""Tests of simplest.py: the written states of the examples are simple, and where one is not it says so."""

import sys
import unittest
from pathlib import Path

sys.dont_write_bytecode = True
sys.path.insert(0, str(Path(__file__).resolve().parent))

import opinion
import simplest

FORK = "net 1 2 1\nedge i0 s0\nedge s0 o0\nedge s0 o1\ngive s0 1\nend\n"
SLOW = "net 1 2 1\nedge i0 s0 2\nedge s0 o0\nedge s0 o1 2\nend\n"


def fault(text, prop, *lines):
    net = opinion.read_design(text, alone=True)[0]
    return simplest.fault(net, prop, opinion.lines_of("\n".join([f"no {prop}", *lines, "end", ""])))


class States(unittest.TestCase):
    def test_examples(self):
        count = 0
        for name, net, prop, lines in simplest.states(None):
            found, said = simplest.fault(net, prop, lines)
            self.assertIsNone(found, (name, prop, said))
            count += 1
        self.assertEqual(
            count, len([*simplest.EXAMPLES.glob("*.not-*")]) - len([*simplest.EXAMPLES.glob("*.not-same")])
        )

    def test_simpler_ones(self):
        half = fault(FORK, "balanced", "load 1/2", "room 1 1", "flow 1/2 1/2 0", "mark f f f")
        self.assertEqual(half, ("has a simpler one, 1 lost", "1 neither 0 nor full, 1/2 lost"))
        whole = fault(FORK, "balanced", "load 1", "room 1 1", "flow 1 1 0", "mark f f f")
        self.assertEqual(whole, (None, "0 neither 0 nor full, 1 lost"))
        kept = fault(FORK, "unlimited", "load 1", "room 1 1", "flow 1 1 0", "mark f f f")
        self.assertEqual(kept[0], "doesn't break the property")

    def test_losses(self):
        for text, prop, wanted in (
                (FORK, "balanced", [1]), (FORK, "unlimited", []), (FORK, "full", []),
                (SLOW, "balanced", []), (SLOW, "drawn-evenly", [])):
            net = opinion.read_design(text, alone=True)[0]
            self.assertEqual([*simplest.whole_losses(net, prop)], wanted, (text, prop))


if __name__ == "__main__":
    unittest.main()
