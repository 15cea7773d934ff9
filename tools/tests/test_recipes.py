"""Tests of the recipes of docs/WORKING.md: that each names what the sources touch where such a thing is added."""

import re
import unittest
from pathlib import Path

TOP = Path(__file__).resolve().parent.parent.parent
# What one property, one refusal and one command are called in sources, by the beginning of the recipe.
SAMPLES = {
    "A property of steady states": r"DrawnFairly|drawn_fairly|drawn-fairly",
    "A refusal of a design": r"SideLoad",
    "A command": r"CheckSame|check-same|check_same",
}
BESIDE = ("second", "collection", "page", "tools")


def recipe(name):
    """The text of a recipe."""
    text = (TOP / "docs" / "WORKING.md").read_text(encoding="utf-8")
    return re.search(rf"^\*\*{name}\.\*\*(.*?)\n\n", text, re.M | re.S)[1]


def names(path, sample):
    try:
        return re.search(sample, path.read_text(encoding="utf-8")) is not None
    except UnicodeDecodeError:
        return False


def crates_that_name(sample):
    """The crates whose sources or definitions name a sample."""
    for crate in sorted((TOP / "crates").iterdir()):
        files = [*crate.glob("src/**/*.rt"), *crate.glob("specs/**/*.antt")]
        if any(names(path, sample) for path in files):
            yield crate.name


def files_that_name(sample):
    """The files beside the crates that name a sample, but those of tests."""
    for folder in BESIDE:
        for path in sorted((TOP / folder).rglob("*")):
            place = path.relative_to(TOP)
            if path.is_file() and "test" not in str(place) and "__pycache__" not in place.parts and names(path, sample):
                yield str(place)


class Recipes(unittest.TestCase):
    def test_name_what_is_touched(self):
        for name, sample in SAMPLES.items():
            told = recipe(name)
            for place in [*crates_that_name(sample), *files_that_name(sample)]:
                with self.subTest(recipe=name, place=place):
                    self.assertIn(place, told)


if __name__ == "__main__":
    unittest.main()
