"""Tests of wishes: how they are read, the size of their formulas, and what thresholds tell of small grids."""

import shutil
import sys
import tempfile
import unittest
from pathlib import Path

sys.dont_write_bytecode = True
sys.path.insert(0, str(Path(__file__).resolve().parent))

import opinion
import wishing
from opinion import Answer
from opinion.wishes import WishFormula, border_of, read_wish


class Readings(unittest.TestCase):
    def test_read(self):
        lines = "any 4 2", "full", "side inputs south", "row outputs", "block 1 2", "end"
        wish, behind = read_wish("\n".join(lines) + "\nnone\n", 3, 3)
        self.assertEqual(wish, (4, 2, True, {"i": 2}, {"o"}, {(1, 2)}))
        self.assertEqual(behind, len("\n".join(lines)) + 1)

    def test_refused(self):
        for text, answer in (
                ("any 0 4\nend\n", "40 NetLine 1"), ("any 65 1\nend\n", "40 NetLine 1"),
                ("any 4 4 x\nend\n", "40 NetLine 1"), ("any 4 4\nfull\nfull\nend\n", "40 NetLine 3"),
                ("any 4 4\npin i0 0 0\nend\n", "40 NetLine 2"), ("any 4 4\ngive s0 1\nend\n", "40 NetLine 2"),
                ("any 4 4\nside i0 south\nend\n", "40 NetLine 2"),
                ("any 4 4\nblock 0 0\nrow inputs\nend\n", "40 NetLine 3"),
                ("any 4 4\nrow inputs\nrow inputs\nend\n", "44 Pin 3"), ("any 4 4\nblock 3 0\nend\n", "46 Block 2"),
                ("any 4 4\n", "40 NetLine 2")):
            with self.assertRaises(Answer) as raised:
                read_wish(text, 3, 3)
            self.assertEqual(raised.exception.text, f"refused {answer}\n", text)


class Formulas(unittest.TestCase):
    def test_border(self):
        self.assertEqual(border_of(3, 2), [(0, 0), (1, 0), (2, 0), (2, 1), (1, 1), (0, 1)])
        self.assertEqual([len(border_of(*grid)) for grid in ((1, 1), (1, 4), (4, 1), (4, 5))], [1, 4, 4, 14])

    def test_size(self):
        formula = WishFormula(read_wish("any 4 4\nfull\nend\n", 4, 5)[0], 4, 5)
        self.assertEqual((formula.variables, len(formula.clauses), formula.columns), (2319, 11264, 200))
        self.assertTrue(all(abs(x) <= formula.variables for clause in formula.clauses for x in clause))

    @unittest.skipUnless(shutil.which("cadical"), "cadical isn't installed")
    def test_least_splitter(self):
        with tempfile.TemporaryDirectory() as folder:
            asking = wishing.Asking("", folder)
            asking.has = lambda net, prop: True
            for width, found in (2, False), (3, True):
                self.assertEqual(asking.is_found("any 2 2\nend\n", 2, width)[0], found)


class Networks(unittest.TestCase):
    def test_gets_through(self):
        dead = "net 1 1 2\nedge i0 s0\nedge s0 o0\nedge s0 s1\nend\n"
        loop = "net 1 1 1\nedge i0 s0\nedge s0 o0\nedge s0 s0\nend\n"
        for text, through in (dead, False), (loop, True):
            self.assertEqual(wishing.gets_through(opinion.read_net(text).net), through)


if __name__ == "__main__":
    unittest.main()
