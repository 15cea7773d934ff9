"""Tests of mutants.py: the program and the second opinion read mutants of large layouts alike. BELTPROOF_PROGRAM may
name another program than that of these sources."""

import json
import os
import subprocess
import sys
import unittest
from pathlib import Path

sys.dont_write_bytecode = True
sys.path.insert(0, str(Path(__file__).resolve().parent))

import mutants

TOP = Path(__file__).resolve().parent.parent
DESIGNS = {"butterfly-16-to-16-in-16x22": 61, "benes-16-to-16-in-16x41": 199}  # and every which part is changed


def program():
    """The program that is told, or that of these sources."""
    if told := os.environ.get("BELTPROOF_PROGRAM"):
        return told
    found = subprocess.run([TOP / "tools" / "program"], stdout=subprocess.PIPE, text=True, check=True)
    return found.stdout.strip()


class Mutants(unittest.TestCase):
    def test_are_read_alike(self):
        for name, every in DESIGNS.items():
            told, different = mutants.held(program(), TOP / "examples" / f"{name}.json", every)
            self.assertEqual(different, [])
            self.assertTrue(told["refused"] and told["another network"], told)

    def test_a_difference_is_told(self):
        told, different = mutants.held("true", TOP / "examples" / "balancer-4-to-4.json", 16)
        self.assertEqual(len(different), sum(told.values()))

    def test_a_splitter_turns_about_its_first_half(self):
        splitter = {"name": "splitter", "position": {"x": 3, "y": 2.5}}
        for quarters, position in ((1, {"x": 2.5, "y": 3}), (2, {"x": 3, "y": 2.5}), (3, {"x": 2.5, "y": 3})):
            for turn in (2, 4):
                turned = mutants.turned(splitter, quarters, turn)
                self.assertEqual((turned["position"], turned["direction"]), (position, turn * quarters))
                self.assertEqual(mutants.turned(turned, 4 - quarters, turn)["position"], splitter["position"])

    def test_each_part_is_changed_in_eight_ways(self):
        belt = {"name": "transport-belt", "position": {"x": 0, "y": 0}}
        for version, turn in ((1 << 48, 2), (2 << 48, 4)):
            design = {"blueprint": {"version": version, "entities": [belt, belt, belt]}}
            made = [json.loads(text)["blueprint"]["entities"] for _, text in mutants.mutants(design, 2)]
            self.assertEqual([len(entities) for entities in made], [2, *[3] * 7] * 2)
            self.assertEqual([made[turns][0]["direction"] for turns in (1, 2, 3)], [turn, 2 * turn, 3 * turn])


if __name__ == "__main__":
    unittest.main()
