"""Tests of tools/crates: which modules stand on each other, and what of the pages it writes."""

import unittest
from importlib.machinery import SourceFileLoader
from importlib.util import module_from_spec, spec_from_loader
from pathlib import Path

PATH = Path(__file__).resolve().parent.parent / "crates"
spec = spec_from_loader("crates", SourceFileLoader("crates", str(PATH)))
crates = module_from_spec(spec)
spec.loader.exec_module(crates)

LISTED = """# The crates.

# Ground: what all stand on
low:
# Hints: what is claimed by none
hint_high: low
"""


class Cycles(unittest.TestCase):
    def test_way_back(self):
        modules = {"a": {"b"}, "b": {"c"}, "c": {"a", "d"}, "d": {"e"}, "e": set()}
        self.assertEqual(crates.cycles(modules), [["a", "b", "c"]])

    def test_two(self):
        self.assertEqual(crates.cycles({"a": {"b"}, "b": {"a"}, "c": {"d"}, "d": {"c", "a"}}), [["a", "b"], ["c", "d"]])

    def test_none(self):
        self.assertEqual(crates.cycles({"a": {"b", "c"}, "b": {"c"}, "c": set()}), [])

    def test_of_a_crate(self):
        ring = {"base": {"binding"}, "binding": {"base"}}
        self.assertEqual(crates.rings_in({"bt_net": []}, lambda _: ring), [("bt_net", ["base", "binding"])])
        self.assertEqual(crates.rings_in({"bt_net": []}, lambda _: {"base": {"binding"}, "binding": set()}), [])


class Pages(unittest.TestCase):
    def test_moved_item(self):
        ground, hints = crates.PAGES / "ground.md", crates.PAGES / "hints.md"
        before = {
            crates.PAGE: "# House\n\n## The storeys\n\nold\n\n## Rest\n",
            ground: "# Old\n\n## Crates\n\n- `hint_high`, on `none`: what it\n  tells\n\n## How they work\n\nSo.\n",
            hints: "- `low`: its own\n",
        }
        after, wrong = crates.pages_of(LISTED, before)
        self.assertEqual(wrong, [])
        self.assertEqual(
            after[ground],
            "# Ground\n\nWhat all stand on.\n\n## Crates\n\n- `low`: its own\n\n## How they work\n\nSo.\n",
        )
        self.assertEqual(
            after[hints], "# Hints\n\nWhat is claimed by none.\n\n## Crates\n\n- `hint_high`, on `low`: what it tells\n"
        )
        self.assertEqual(crates.pages_of(LISTED, after), (after, []))

    def test_lacks(self):
        before = {crates.PAGE: "## The storeys\n\n## Rest\n", crates.PAGES / "ground.md": "- `other`: tells\n"}
        _, wrong = crates.pages_of(LISTED, before)
        lacks = ["docs/storeys lacks hint_high", "docs/storeys lacks low"]
        self.assertEqual(wrong, [*lacks, "docs/storeys names other, which is no crate"])


if __name__ == "__main__":
    unittest.main()
