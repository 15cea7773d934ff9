"""Tests of tools/half-turn."""

import importlib.machinery
import importlib.util
import json
import subprocess
import unittest
from pathlib import Path

TOOLS = Path(__file__).resolve().parent.parent
LOADER = importlib.machinery.SourceFileLoader("half_turn", str(TOOLS / "half-turn"))
half_turn = importlib.util.module_from_spec(importlib.util.spec_from_loader("half_turn", LOADER))
LOADER.exec_module(half_turn)

# The head of a formula of 1x2: 21 contents of each of two cells, from the variable 3 on.
FORMULA = b"c block 1 2 half cell\nc block 3 44 kind cell content\np cnf 44 1\n1 2 0\n"


class HalfTurnTest(unittest.TestCase):
    def test_variables_come_as_the_formula_has_them(self):
        variables = half_turn.variables_of(FORMULA, 1, 2)
        self.assertEqual(len(variables), 42)
        self.assertEqual(variables[(0, 1), ("greater", "w")], 3)
        self.assertEqual(variables[(0, 1), None], 23)
        self.assertEqual(variables[(0, 0), ("belt", "n")], 43)
        self.assertEqual(half_turn.cells_of(2, 1), [(1, 0), (0, 0)])

    def test_each_content_is_turned_back(self):
        for (_, content), _ in half_turn.variables_of(FORMULA, 1, 2).items():
            self.assertEqual(half_turn.turned(half_turn.turned(content)), content)
        self.assertEqual(half_turn.turned(("lesser", "n")), ("greater", "s"))
        self.assertEqual(half_turn.turned(("entrance", "e")), ("entrance", "w"))

    def test_one_clause_for_each_content_is_added(self):
        lines = half_turn.with_half_turns(FORMULA, 1, 2).splitlines()
        self.assertIn(b"p cnf 44 43", lines)
        self.assertEqual(len(lines), 4 + 42)
        self.assertIn(b"-23 44 0", lines)

    def test_writes_a_blueprint(self):
        variables = half_turn.variables_of(FORMULA, 1, 2)
        true = {variables[(0, 0), ("belt", "n")], variables[(0, 1), None]}
        belt = {"entity_number": 1, "name": "fast-transport-belt", "position": {"x": 0.5, "y": 0.5}, "direction": 0}
        written = json.loads(half_turn.blueprint_of(variables, true, "fast"))["blueprint"]
        self.assertEqual((written["entities"], written["version"]), ([belt], half_turn.VERSION))
        splitter = half_turn.entity_of(1, (2, 3), "lesser", "e", "turbo")
        self.assertEqual((splitter["name"], splitter["direction"]), ("turbo-splitter", 4))
        self.assertEqual(splitter["position"], {"x": 2.5, "y": 4.0})

    def test_says_how_it_is_used(self):
        ended = subprocess.run([TOOLS / "half-turn", "x", "7by11"], stderr=subprocess.PIPE, text=True)
        self.assertEqual(ended.returncode, 2)


if __name__ == "__main__":
    unittest.main()
