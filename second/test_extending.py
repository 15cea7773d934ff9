"""Tests of extending.py: definitions leave models, and a model that is none is told."""

import sys
import unittest
from fractions import Fraction
from pathlib import Path

sys.dont_write_bytecode = True
sys.path.insert(0, str(Path(__file__).resolve().parent))

import extending
import opinion

FORK = "net 1 2 1\nedge i0 s0\nedge s0 o0\nedge s0 o1\nend\n"
FLOWS, LOADS, ROOMS = [Fraction(1), Fraction(1, 2), Fraction(1, 2)], [Fraction(1)], [Fraction(1), Fraction(1)]


def fork():
    """The formula of the laws of a splitter with one input, and a model of it."""
    formula = opinion.FlowFormula(opinion.read_net(FORK)[0], None)
    return formula, extending.Model(formula, [*FLOWS, *LOADS, *ROOMS], [False] * 3)


class Models(unittest.TestCase):
    def test_none_is_lost(self):
        held = extending.held(180)
        self.assertEqual(held.wrong, 0)
        self.assertTrue(all(held.told[f"definitions {letter}"] > 100 for letter in "pcv"), held.told)
        self.assertTrue(
            all(held.told[f"models, {prop}"] for prop in ("balanced", "drawn-evenly", "unlimited")), held.told
        )

    def test_values(self):
        formula, model = fork()
        self.assertTrue(model.meets(formula))
        for line, value in (("c 1 3 0 1/2 -2 1 4 3 0", Fraction(1, 2)), ("c 1 3 0 0 0", 0)):
            self.assertEqual(opinion.define(formula, [line]), 1, line)
            model.extend(formula, line)
            self.assertEqual(model.columns[-1], value, line)
        for line, truth in (("v 1 -2 0", True), ("v 1 2 0", False)):
            self.assertEqual(opinion.define(formula, [line]), 1, line)
            model.extend(formula, line)
            self.assertEqual(model.truths[formula.variables], truth, line)
        line = "p 1 -1 2 0"
        self.assertEqual(opinion.define(formula, [line]), 1)
        model.extend(formula, line)
        self.assertEqual([model.truths[formula.variables - n] for n in (1, 0)], [False, True])
        self.assertTrue(model.meets(formula))

    def test_what_is_no_model(self):
        formula, model = fork()
        model.truths[1] = True
        self.assertFalse(model.meets(formula))
        formula, model = fork()
        model.columns[1] = Fraction(1)
        self.assertFalse(model.meets(formula))
        formula, model = fork()
        self.assertEqual(opinion.define(formula, ["v 1 2 0"]), 1)
        self.assertFalse(model.meets(formula))
        model.truths[formula.variables] = True
        self.assertFalse(model.meets(formula))


if __name__ == "__main__":
    unittest.main()
