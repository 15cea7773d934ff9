"""Tests of fresh.py: steps that propagation comes to are told."""

import sys
import unittest
from pathlib import Path

sys.dont_write_bytecode = True
sys.path.insert(0, str(Path(__file__).resolve().parent))

import fresh

FORMULA = b"c a comment\np cnf 3 4\n1 2 0\n-1 2 0\n1 -2 3 0\n-1 -2 0\n"


class Fresh(unittest.TestCase):
    def test_fresh_steps(self):
        self.assertEqual(fresh.judge(FORMULA, b"spent 1\nr 2 0 1 2 0\nend\n"), (1, []))
        self.assertEqual(fresh.judge(FORMULA, b"spent 2\nr 2 0 1 2 0\nr -1 0 5 4 0\nend\n"), (2, [1]))

    def test_steps_that_stand_there(self):
        self.assertEqual(fresh.judge(FORMULA, b"spent 1\nr 1 2 0 1 0\nend\n"), (1, [0]))

    def test_steps_that_do_not_follow(self):
        self.assertEqual(fresh.judge(FORMULA, b"spent 1\nr 3 0 1 0\nend\n"), (1, [0]))


if __name__ == "__main__":
    unittest.main()
