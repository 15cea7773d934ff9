"""What the page asks for where a balancer is to be built is what the tools ask for."""

import json
import unittest

from collection import built

from . import needs_node, run_scripts

NAMES = "strings words books design trace picture states runs sentences wishes".split()
DRIVER = """
const told = Object.keys(BALANCERS).flatMap((kind) =>
  [
    [1, 1],
    [3, 5],
    [64, 64],
  ].map((ends) => [kind, ...ends, nameOfBuilt(kind, ...ends), wordsToBuild(kind, ...ends)])
);
require("fs").writeSync(1, JSON.stringify(told));
"""


class Asked(built.Maker):
    """What would be asked of the program."""

    def __init__(self):
        self.words = None

    def ask(self, words, text="", seconds=None):
        self.words = words
        return 12, "", 0


@needs_node
class Wishes(unittest.TestCase):
    def test_words_and_names_are_those_of_the_tools(self):
        told = json.loads(run_scripts(NAMES, DRIVER))
        self.assertEqual(len(told), 3 * len(built.KINDS))
        for kind, inputs, outputs, name, words in told:
            maker = Asked()
            self.assertIsNone(maker.built(built.KINDS[kind]["properties"], inputs, outputs))
            self.assertEqual(words, maker.words)
            self.assertEqual(name, built.Balancer(kind, inputs, outputs).name)

    def test_no_kind_is_named_twice(self):
        for name, kind in built.KINDS.items():
            self.assertNotIn(f"{kind['label']}:", kind["says"], name)


if __name__ == "__main__":
    unittest.main()
