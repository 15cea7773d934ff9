"""Tests of leading.py: outputs are led to inputs, and all else stays."""

import random
import sys
import unittest
from collections import Counter
from pathlib import Path

sys.dont_write_bytecode = True
sys.path.insert(0, str(Path(__file__).resolve().parent))

import leading
import opinion

ONE = "net 2 2 1\nedge i0 s0\nedge i1 s0\nedge s0 o0\nedge s0 o1\nend\n"
FOUR = (
    "net 4 4 4\nedge i0 s0\nedge i1 s0\nedge i2 s1\nedge i3 s1\nedge s0 s2\nedge s0 s3\nedge s1 s2\nedge s1 s3\n"
    "edge s2 o0\nedge s2 o1\nedge s3 o2\nedge s3 o3\nend\n"
)


def led(text, seed):
    """A network of which outputs are led back, and how many these are."""
    told, count = leading.led(opinion.read_net(text)[0], random.Random(seed))
    return opinion.read_net(told)[0], count


class Led(unittest.TestCase):
    def test_one_output_of_a_splitter_is_led_back_to_it(self):
        for seed in range(8):
            net, count = led(ONE, seed)
            self.assertEqual(count, 1)
            ways = sorted((edge.start[0] + edge.target[0]) for edge in net.edges)
            self.assertEqual(ways, ["is", "so", "ss"])

    def test_as_many_inputs_go_as_outputs_and_splitters_keep_their_edges(self):
        seen = set()
        for seed in range(60):
            net, count = led(FOUR, seed)
            seen.add(count)
            self.assertEqual((net.counts["i"], net.counts["o"], net.counts["s"]), (4 - count, 4 - count, 4))
            for letter in "io":
                ends = [end for edge in net.edges for end in (edge.start, edge.target) if end[0] == letter]
                self.assertEqual(sorted(ends), [(letter, number) for number in range(4 - count)])
            for side in ("start", "target"):
                there = Counter(getattr(edge, side) for edge in net.edges if getattr(edge, side)[0] == "s")
                self.assertEqual(there, {("s", number): 2 for number in range(4)})
        self.assertEqual(seen, {1, 2, 3})


if __name__ == "__main__":
    unittest.main()
