"""Tests of certified.py: certificates of a few proofs pass both checkers, and cut ones neither. The proofs are the logs
of `layout`, without their hints, and where cadical is installed, cadical's. BELTPROOF_PROGRAM and CERTIFY_PROGRAM may
name other programs than those of these sources."""

import contextlib
import io
import os
import shutil
import subprocess
import sys
import tempfile
import unittest
from pathlib import Path

sys.dont_write_bytecode = True
sys.path.insert(0, str(Path(__file__).resolve().parent))

import certified

TOP = Path(__file__).resolve().parent.parent
# A splitter in a square that has no room for its ends, and two, the one on the other, in less than the least rectangle.
REQUESTS = {
    "2x2": (TOP / "examples" / "splitter-2-to-2.net").read_bytes(),
    "2x4": (TOP / "examples" / "chain-1-to-3.net").read_bytes(),
    "3x3": (TOP / "examples" / "chain-1-to-3.net").read_bytes(),
}


def program():
    """The program that is told, or that of these sources."""
    if told := os.environ.get("BELTPROOF_PROGRAM"):
        return told
    found = subprocess.run([TOP / "tools" / "program"], stdout=subprocess.PIPE, text=True, check=True)
    return found.stdout.strip()


class Logs(certified.Certifying):
    """Takes the program's own logs for proofs."""

    def refuted(self, grid, text):
        made = subprocess.run([self.program, "formula", "--grid", grid], input=text, stdout=subprocess.PIPE)
        self.formula.write_bytes(made.stdout)
        ended = subprocess.run([self.program, "layout", "--grid", grid], input=text, stdout=subprocess.PIPE)
        steps = [line.split() for line in ended.stdout.splitlines() if line.startswith(b"r ")]
        self.proof.write_bytes(b"".join(b" ".join(step[1 : step.index(b"0") + 1]) + b"\n" for step in steps))
        return ended.returncode == 1


class Certified(unittest.TestCase):
    def certify_all(self, made):
        """What is counted of the requests, each of which has no layout."""
        for grid, text in REQUESTS.items():
            self.assertTrue(made.refuted(grid, text), grid)
            made.certify(grid, text)
        return made.told["certificates"], made.wrong

    def test_of_logs(self):
        with tempfile.TemporaryDirectory() as room:
            self.assertEqual(self.certify_all(Logs(program(), None, room)), (len(REQUESTS), 0))

    @unittest.skipUnless(shutil.which("cadical"), "cadical isn't installed")
    def test_of_proofs(self):
        with tempfile.TemporaryDirectory() as room:
            made = certified.Certifying(program(), shutil.which("cadical"), room)
            self.assertEqual(self.certify_all(made), (len(REQUESTS), 0))

    def test_what_is_wrong_is_told(self):
        class Lenient(Logs):
            def judge(self, grid, text, certificate):
                return True, True

        with tempfile.TemporaryDirectory() as room, contextlib.redirect_stdout(io.StringIO()):
            made = Lenient(program(), None, room)
            made.refuted("2x2", REQUESTS["2x2"])
            made.certify("2x2", REQUESTS["2x2"])
            self.assertEqual(made.wrong, 1)


if __name__ == "__main__":
    unittest.main()
