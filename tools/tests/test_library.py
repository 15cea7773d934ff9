"""Tests of docs/LIBRARY.md: what it quotes of a file stands in that file."""

import re
import unittest
from pathlib import Path

TOP = Path(__file__).resolve().parent.parent.parent
QUOTED = re.compile(r"^```\w+ (?P<path>\S+)\n(?P<text>.*?)^```$", re.M | re.S)


class Quoted(unittest.TestCase):
    def test_stands_in_its_file(self):
        quoted = list(QUOTED.finditer((TOP / "docs" / "LIBRARY.md").read_text(encoding="utf-8")))
        self.assertTrue(quoted)
        for it in quoted:
            with self.subTest(path=it["path"]):
                self.assertIn(it["text"], (TOP / it["path"]).read_text(encoding="utf-8"))


if __name__ == "__main__":
    unittest.main()
