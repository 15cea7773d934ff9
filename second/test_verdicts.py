"""Tests of verdicts.py, with answers in place of programs: what is counted, and which differences are told."""

import random
import sys
import unittest
from pathlib import Path

sys.dont_write_bytecode = True
sys.path.insert(0, str(Path(__file__).resolve().parent))

import opinion
import verdicts

BELT = "net 1 1 0\nedge i0 o0\nend\n"
FIRST = "net 1 2 1\nedge i0 s0\nedge s0 o0\nedge s0 o1\ngive s0 1\nend\n"
YES = "yes unlimited\nf -10 -16 0 1 1\nf -12 -17 0 1 1\nr 0 14 15 16 17 11 13 0\nend\n"
NO = "no balanced\nload 1\nroom 1 1\nflow 1 1 0\nmark f f f\nend\n"


class Told(verdicts.Verdicts):
    """Verdicts with answers by programs' names, and the differences that are told."""

    def __init__(self, *answers):
        super().__init__(range(len(answers)))
        self.answers, self.failures = answers, []

    def decide(self, program, prop, text):
        status, written = self.answers[program]
        return status, written.encode()

    def fail(self, what, prop, text):
        self.failures.append(what)


def failures(text, prop, *answers):
    told = Told(*answers)
    told.compare(random.Random(1), "kind", text, prop)
    return told.failures


class Comparing(unittest.TestCase):
    def test_what_is_told(self):
        yes, no, spent = (0, YES), (1, NO), (4, "spent 0\nend\n")
        for text, prop, answers, count in (
                (BELT, "unlimited", (yes, yes), 0), (BELT, "unlimited", (yes, spent), 0), (
                    BELT, "unlimited", (spent, spent), 0
                ),
                (BELT, "unlimited", (yes, (1, NO)), 2), (BELT, "unlimited", (yes, (0, YES.replace("11 13", "13"))), 1),
                (FIRST, "balanced", (no, no), 0), (FIRST, "balanced", (no, (None, "")), 0),
                (FIRST, "balanced", (no, (0, "yes balanced\nend\n")), 3)):
            self.assertEqual(len(failures(text, prop, *answers)), count, (prop, answers))


class Networks(unittest.TestCase):
    def test_thrown(self):
        chance, kinds, refused = random.Random(2), set(), 0
        for _ in range(200):
            kind, text = verdicts.thrown(chance)
            kinds.add(kind)
            try:
                net = opinion.read_net(text)[0]
            except opinion.Answer:
                refused += 1
                continue
            self.assertLessEqual(net.counts["s"], verdicts.SPLITTERS)
        self.assertEqual(len(kinds), 4)
        self.assertLess(refused, 40)


if __name__ == "__main__":
    unittest.main()
