"""Which bare halves are ends, and what labels tell: on the cases that the report's tools are tested on too, and beyond
them as these tools tell it."""

import json
import random
import time
import unittest

from collection import design, ends, labels
from collection.tests import test_ends, trimming

from . import needs_node, run_scripts

NAMES = "strings words books design trace states entities labels ends".split()
DRIVER = """
const { asked, read } = JSON.parse(require("fs").readFileSync(0, "utf8"));
const partOfWords = (told, entity) => {
  const [kind, tier, direction, x, y, give = "-", take = "-"] = told.split(" ");
  const [way, at] = [Number(direction), [Number(x), Number(y)]];
  const other = way % 2 ? [at[0], at[1] + 1] : [at[0] + 1, at[1]];
  const side = (it) => (it === "-" ? null : it);
  const cells = kind === "splitter" ? [at, other] : [at];
  return { entity, kind, tier, direction: way, cells, give: side(give), take: side(take) };
};
const ended = asked.map(({ parts, pairs, taken }) => endsOf(parts.split("; ").map(partOfWords), taken, pairs));
const told = read.map((it) => ({ pairs: pairsWithSizes(it), claims: claimsIn(it), words: inWords(it) }));
require("fs").writeSync(1, JSON.stringify({ ended, told }));
"""
SIGNS = [
    "4",
    "16",
    " ",
    "to",
    "-",
    "->",
    "→",
    ":",
    "x",
    "TU",
    "balanced",
    "input",
    "output",
    "not",
    "lane",
    "[item=belt]",
    "(",
    ".",
    "⇒",
    "unlimited",
    "\u00a0",
    "ſ",
    "😀",
]


def spelled(parts):
    """Parts as the cases tell them."""
    return "; ".join(
        f"{it.kind} {it.tier} {it.direction} {it.cells[0][0]} {it.cells[0][1]} {it.give or '-'} {it.take or '-'}"
        for it in parts
    )


def asked_here():
    """Each trimmed example with other numbers of ends than it has, and with tiles that are taken."""
    chance = random.Random(7)
    for _, text in trimming.designs():
        parts = design.read(trimming.trimmed(text)).parts
        box = design.box_of([cell for it in parts for cell in it.cells])
        for _ in range(3):
            pairs = [(chance.randint(1, 9), chance.randint(1, 9)) for _ in range(chance.randint(0, 2))]
            free = [
                (chance.randint(box[0] - 1, box[2] + 1), chance.randint(box[1] - 1, box[3] + 1))
                for _ in range(chance.randint(0, 4))
            ]
            there = {cell for it in parts for cell in it.cells}
            yield parts, pairs, [it for it in free if it not in there]


@needs_node
class Ends(unittest.TestCase):
    @classmethod
    def setUpClass(cls):
        chance = random.Random(3)
        cls.labels = [it["label"] for it in test_ends.LABELS]
        cls.labels += ["".join(chance.choices(SIGNS, k=chance.randint(1, 9))) for _ in range(3000)]
        cls.labels += ["4" + "-" * 60000 + "4", "4 " * 500_000, "[" * 100_000, "x" * 999 + "😀 4 to 4"]
        cls.own = list(asked_here())
        cls.own += [
            (test_ends.parts_of(f"splitter basic 0 0 0; splitter basic 0 {far} {far}"), [(2, 3)], [])
            for far in (20, 500, 2000)
        ]
        asked = [{"parts": it["parts"], "pairs": labels.told(it["label"]), "taken": []} for it in test_ends.CASES]
        asked += [{"parts": spelled(parts), "pairs": pairs, "taken": taken} for parts, pairs, taken in cls.own]
        begin = time.monotonic()
        cls.told = json.loads(run_scripts(NAMES, DRIVER, json.dumps({"asked": asked, "read": cls.labels}).encode()))
        cls.seconds = time.monotonic() - begin

    def test_each_case(self):
        for it, found in zip(test_ends.CASES, self.told["ended"]):
            with self.subTest(name=it["name"], label=it["label"]):
                self.assertEqual(found, it["expected"])

    def test_others_as_the_tools_tell_them(self):
        statuses = set()
        for (parts, pairs, taken), found in zip(self.own, self.told["ended"][len(test_ends.CASES) :], strict=True):
            expected = ends.ends_of(parts, taken, pairs)
            listed = {
                "choices": expected.choices,
                "rooms": expected.rooms,
                "gaps": expected.gaps,
                "stand": expected.stand,
                "could": expected.could,
            }
            self.assertEqual(found, json.loads(json.dumps({"status": expected.status, **listed})))
            statuses.add(expected.status)
        self.assertGreater(len(statuses), 4)

    def test_each_label(self):
        for it, found in zip(test_ends.LABELS, self.told["told"]):
            with self.subTest(label=it["label"]):
                expected = {
                    "pairs": it["pairs"],
                    "claims": {"properties": it["claims"], "lanes": it["lanes"]},
                    "words": it["words"],
                }
                self.assertEqual(found, expected)

    def test_other_labels_as_the_tools_read_them(self):
        for label, found in zip(self.labels, self.told["told"], strict=True):
            told = labels.claims(label)
            expected = {"pairs": [[*pair, size] for pair, size in labels.told_with_sizes(label).items()]}
            expected |= {
                "claims": {"properties": told.properties, "lanes": told.lanes}, "words": labels.in_words(label)
            }
            self.assertEqual(found, expected, label[:100])

    def test_it_ends_soon(self):
        self.assertLess(self.seconds, 60)


if __name__ == "__main__":
    unittest.main()
