"""Tests of tools/edits: which edits fit, what is copied, and how refusals are counted, with a kit that is a script."""

import contextlib
import importlib.machinery
import importlib.util
import io
import os
import stat
import sys
import tempfile
import unittest
from pathlib import Path

sys.dont_write_bytecode = True
PATH = Path(__file__).resolve().parent.parent / "edits"


def load():
    loader = importlib.machinery.SourceFileLoader("edits", str(PATH))
    module = importlib.util.module_from_spec(importlib.util.spec_from_loader("edits", loader))
    loader.exec_module(module)
    return module


edits = load()

KIT = """#!/usr/bin/env python3
import pathlib, sys
assert sys.argv[1] == "must-fail"
for crate in sys.argv[2:]:
    for edit in sorted(pathlib.Path("crates", crate, "must-fail").glob("*.edit")):
        word = "refused, as it must be" if "good" in edit.name else "NOT REFUSED"
        print(f"rt: must-fail {crate}/{edit.name}: {word}")
"""


class Edits(unittest.TestCase):
    def setUp(self):
        room = tempfile.TemporaryDirectory()
        self.addCleanup(room.cleanup)
        self.top = Path(room.name, "repository")
        for name, text in {
            "crates.txt": "low:\nhigh: low\n",
            "HANDLES": "Handles allowed: none.\n",
            "crates/low/src/lib.rt": "fn one() -> u8 {\n    1\n}\n",
            "crates/low/out/kept": "",
            "crates/high/src/lib.rt": "fn two() -> u8 {\n    2\n}\n",
            "crates/low/must-fail/good_one.edit": "file: src/lib.rt\nold:     1\nnew:     3\n",
        }.items():
            path = self.top / name
            path.parent.mkdir(parents=True, exist_ok=True)
            path.write_text(text, encoding="utf-8")
        kit = Path(room.name, "kit", "rt")
        kit.parent.mkdir()
        kit.write_text(KIT, encoding="utf-8")
        kit.chmod(kit.stat().st_mode | stat.S_IXUSR)
        before = os.environ["PATH"]
        os.environ["PATH"] = f"{kit.parent}:{before}"
        self.addCleanup(os.environ.__setitem__, "PATH", before)

    def add(self, name, text):
        path = self.top / "edits" / name
        path.parent.mkdir(parents=True, exist_ok=True)
        path.write_text(text, encoding="utf-8")
        return path

    def told(self, call, *given):
        """What a call returns and writes."""
        with contextlib.redirect_stdout(io.StringIO()) as out, contextlib.redirect_stderr(io.StringIO()) as err:
            result = call(*given)
        return result, out.getvalue() + err.getvalue()

    def test_misfits(self):
        self.assertEqual(self.told(edits.fit, self.top), (True, ""))
        for text, why in {
            "file: src/lib.rt\nold: 2\nnew: 3\n": "its old text stands 0 times in src/lib.rt",
            "file: src/lib.rt\nold: n\nnew: m\n": "its old text stands 2 times in src/lib.rt",
            "file: src/none.rt\nold: 1\nnew: 2\n": "there is no file src/none.rt",
            "file: specs/Lib.antt\nold: 1\nnew: 2\n": "there is no file specs/Lib.antt",
            "old: 1\nnew: 2\n": "a new text stands before its file or its old text",
            "file: src/lib.rt\n": "it has no pair of an old and a new text",
            "file: src/lib.rt\nold: 1\n": "it has no pair of an old and a new text",
            "nothing\n": "it has no pair of an old and a new text",
        }.items():
            with self.subTest(text):
                path = self.add("low/wrong.edit", text)
                fits, said = self.told(edits.fit, self.top)
                self.assertEqual((fits, said), (False, f"edits/low/wrong.edit: {why}\n"))
                path.unlink()

    def test_changes_of_definitions_show_nothing(self):
        (self.top / "crates/low/specs").mkdir()
        (self.top / "crates/low/specs/Lib.antt").write_text("1\n", encoding="utf-8")
        self.add("low/wrong.edit", "file: specs/Lib.antt\nold: 1\nnew: 2\n")
        self.assertEqual(
            self.told(edits.fit, self.top), (False, "edits/low/wrong.edit: it changes no code, so it shows nothing\n")
        )

    def test_pairs_apply_in_order(self):
        self.add("low/two.edit", "file: src/lib.rt\nold:     1\nnew:     1 + 1\nold: 1 + 1\nnew: 4\n")
        self.assertEqual(self.told(edits.fit, self.top), (True, ""))

    def test_refusals_are_counted(self):
        self.add("high/good.edit", "file: src/lib.rt\nold:     2\nnew:     3\n")
        self.add("high/bad.edit", "file: src/lib.rt\nold:     2\nnew:     4\n")
        self.assertEqual(edits.crates_of(self.top), ["high", "low"])
        self.assertEqual(self.told(edits.tried, self.top, ["low"])[0], 1)
        refused, said = self.told(edits.tried, self.top, ["high", "low"])
        self.assertEqual((refused, said.count("\n")), (2, 3))

    def test_copies_sources_alone(self):
        with tempfile.TemporaryDirectory() as folder:
            edits.copy_sources(self.top, Path(folder), [])
            found = sorted(str(path.relative_to(folder)) for path in Path(folder).rglob("*") if path.is_file())
        self.assertEqual(found, ["HANDLES", "crates.txt", "crates/high/src/lib.rt", "crates/low/src/lib.rt"])

    def test_two_of_one_name(self):
        self.add("low/good_one.edit", "file: src/lib.rt\nold:     1\nnew:     4\n")
        with self.assertRaisesRegex(SystemExit, "low has two edits called good_one.edit"):
            self.told(edits.tried, self.top, ["low"])


if __name__ == "__main__":
    unittest.main()
