"""Tests of sharing.py and turned.py, with answers in place of programs."""

import random
import sys
import unittest
from pathlib import Path

sys.dont_write_bytecode = True
sys.path.insert(0, str(Path(__file__).resolve().parent))

import differ
import opinion
import sharing
import turned
import verdicts

FIRST = "net 1 2 1\nedge i0 s0\nedge s0 o0\nedge s0 o1\ngive s0 1\nend\n"
NO = "no fair\nload 1\nroom 1 1\nflow 1 1 0\nmark f f f\nend\n"
YES = "yes fair\nend\n"


class Told(verdicts.Verdicts):
    """Verdicts with one answer, and the differences that are told."""

    def __init__(self, answer):
        super().__init__(("program",))
        self.answer, self.failures = answer, []

    def decide(self, program, prop, text):
        status, written = self.answer
        return status, written.replace("fair", prop).encode()

    def fail(self, what, prop, text):
        self.failures.append(what)


class Same(differ.Differ):
    """A program that answers as the checker does, and all that it was asked."""

    def __init__(self):
        super().__init__("program", None)
        self.asked = []

    def run(self, words, data):
        self.asked.append((words, data))
        return opinion.run(words, lambda most: data[:most], {}.__getitem__)


class Sharing(unittest.TestCase):
    def sources(self, answer, text, seed=1):
        told = Told(answer)
        thrown, designs = verdicts.thrown, sharing.designs
        verdicts.thrown, sharing.designs = (lambda chance: ("one", text)), (lambda short: [])
        try:
            found = sharing.sources(told, "program", random.Random(seed), 1, True)
        finally:
            verdicts.thrown, sharing.designs = thrown, designs
        return found, told.failures

    def test_what_is_told(self):
        found, failures = self.sources((1, NO), FIRST)
        self.assertEqual([prop for _, prop, _ in found], ["fair", "drawn-fairly"])
        self.assertEqual(len(failures), 1, "the state breaks the one of both alone")
        failures = [it for seed in range(12) for it in self.sources((0, YES), FIRST, seed)[1]]
        self.assertIn("a state breaks what has a yes", failures)
        found, failures = self.sources((4, "spent 0\nend\n"), FIRST)
        self.assertEqual((found, failures), ([], []))

    def test_mutants(self):
        both = Same()
        sharing.mutants(both, random.Random(3), [(FIRST.encode(), "fair", NO.encode())], 40)
        self.assertEqual((both.kinds["state"], both.wrong), (40, 0))
        self.assertTrue(all(words == ["check", "fair"] for words, _ in both.asked))
        self.assertGreater(len({data for _, data in both.asked}), 30)

    def test_examples(self):
        names = [name for name, _ in sharing.designs(False)]
        self.assertIn("universal-4-to-4.net", names)
        self.assertIn("universal-4-to-4-in-15x18.json", names)
        self.assertLess(len(sharing.designs(True)), len(names) / 4)


class Turned(unittest.TestCase):
    def test_turned(self):
        self.assertEqual(turned.turned(FIRST), "net 2 1 1\nedge s0 o0\nedge i0 s0\nedge i1 s0\ntake s0 1\nend\n")
        chance = random.Random(5)
        for _ in range(50):
            _, text = verdicts.thrown(chance)
            again = turned.turned(turned.turned(text))
            self.assertEqual(sorted(again.splitlines()), sorted(text.splitlines()))
            try:
                net = opinion.read_net(text)[0]
            except opinion.Answer:
                continue
            # What may prefer any in edge has no mirror: no line says that of out edges.
            if any(line.endswith(" any") for line in text.splitlines()):
                continue
            self.assertEqual(opinion.read_net(turned.turned(text))[0].counts["i"], net.counts["o"])


if __name__ == "__main__":
    unittest.main()
