"""Tests of alike.py: a dozen requests under other names have one answer. BELTPROOF_PROGRAM may name another program
than that of these sources."""

import os
import random
import subprocess
import sys
import unittest
from pathlib import Path

sys.dont_write_bytecode = True
sys.path.insert(0, str(Path(__file__).resolve().parent))

import alike
import exhaust
import opinion

TOP = Path(__file__).resolve().parent.parent
REQUESTS, NAMINGS, GREAT = 12, 1, 4


def program():
    """The program that is told, or that of these sources."""
    if told := os.environ.get("BELTPROOF_PROGRAM"):
        return told
    found = subprocess.run([TOP / "tools" / "program"], stdout=subprocess.PIPE, text=True, check=True)
    return found.stdout.strip()


class Names(unittest.TestCase):
    def test_the_same_request(self):
        chance = random.Random(7)
        for number in range(60):
            net, pins = alike.thrown_request(chance, number % 2 == 1)
            named, others = alike.named_anew(chance, net, pins)
            self.assertEqual(exhaust.shape(named), exhaust.shape(net))
            self.assertEqual(
                sorted((pin.end[0], pin.dir) for pin in others), sorted((pin.end[0], pin.dir) for pin in pins)
            )
            self.assertEqual(bool(pins), number % 2 == 1)

    def test_pins_go_with_their_ends(self):
        net = exhaust.network(1, 2, 1, [(("i", 0), ("s", 0)), (("s", 0), ("o", 0)), (("s", 0), ("o", 1))])
        pins = [opinion.Pin(("o", 0), None, 1, 0), opinion.Pin(("o", 1), None, 2, 0)]
        seen = {alike.named_anew(random.Random(seed), net, pins)[1][0] for seed in range(20)}
        self.assertEqual(len(seen), 4)


class Answers(unittest.TestCase):
    def test_one_for_each_request(self):
        held = alike.held(program(), REQUESTS, NAMINGS)
        self.assertEqual(held.wrong, 0)
        found = [count for name, count in held.told.items() if name.endswith(", found")]
        self.assertTrue(0 < sum(found) < REQUESTS, held.told)

    def test_great_requests(self):
        held = alike.held(program(), 0, NAMINGS, GREAT)
        self.assertEqual((held.wrong, sum(held.told.values())), (0, GREAT))

    def test_a_layout_by_names_is_told(self):
        class Fickle(alike.Alike):
            def run(self, words, text):
                self.told["asked"] += 1
                return alike.FOUND, str(self.told["asked"])

        fickle = Fickle("none")
        fickle.fail = lambda what, text: setattr(fickle, "wrong", fickle.wrong + 1)
        chain = exhaust.network(1, 2, 1, [(("i", 0), ("s", 0)), (("s", 0), ("o", 0)), (("s", 0), ("o", 1))])
        sides = [opinion.Pin(("o", 0), None, 1, 0), opinion.Pin(("o", 1), None, 2, 0)]
        for pins, wrong in ([], 0), (sides, 1):
            fickle.great(random.Random(1), chain, pins, (4, 4), 1)
            self.assertEqual(fickle.wrong, wrong)

    def test_different_answers_are_told(self):
        class Fickle(alike.Alike):
            def least(self, text):
                self.told["asked"] += 1
                return f"1x{self.told['asked']}"

        fickle = Fickle("none")
        net, pins = alike.thrown_request(random.Random(1), True)
        fickle.fail = lambda what, text: setattr(fickle, "wrong", fickle.wrong + 1)
        fickle.compare(random.Random(1), net, pins, 1)
        self.assertEqual(fickle.wrong, 1)


if __name__ == "__main__":
    unittest.main()
