"""The rule of ends, and what labels tell, on cases with what is to come out: the page is tested on the same."""

import json
import time
from collections import Counter
from pathlib import Path

from .. import design, ends, labels, trace
from . import Case, measured_ends, trimming

HERE = Path(__file__).resolve().parent
CASES = json.loads((HERE / "ends.json").read_text("utf-8"))
"""Of each a name, a label, and the parts: kind, tier, direction, the lesser cell's x and y and, where a splitter
prefers a side, those of its output and of its input, or a dash."""
LABELS = json.loads((HERE / "labels.json").read_text("utf-8"))
"""Of each label the pairs, each with whether it may be a size; the claims; and the label with the game's marks as
words."""


def parts_of(told):
    """The parts that are told so."""
    found = []
    for number, words in enumerate(it.split(" ") for it in told.split("; ")):
        kind, tier, direction, x, y, *sides = words
        direction, x, y = int(direction), int(x), int(y)
        other = (x + 1, y) if direction in (design.NORTH, design.SOUTH) else (x, y + 1)
        cells = ((x, y), other) if kind == "splitter" else ((x, y),)
        found.append(design.Part(number, kind, tier, direction, cells, *(None if it == "-" else it for it in sides)))
    return found


TOLD_WHERE_CUT = [("right", it) for it in (ends.ONE, ends.ALL, ends.WHOLE)]
TOLD_WHERE_CUT += [("open, with it", ends.SEVERAL), ("open", ends.MANY), ("open", ends.GAP), ("open", ends.NONE)]
"""What may be told of designs whose undergrounds at their ends are cut too: never another network."""


class Ends(Case):
    def test_each_case(self):
        statuses = Counter()
        for it in CASES:
            with self.subTest(name=it["name"], label=it["label"]):
                told = ends.ends_of(parts_of(it["parts"]), (), labels.told(it["label"]))
                expected = it["expected"]
                self.assertEqual(
                    (told.status, list(map(list, told.choices))), (expected["status"], expected["choices"])
                )
                self.assertEqual([it and list(it) for it in told.rooms], expected["rooms"])
                self.assertEqual(list(map(list, told.gaps)), expected["gaps"])
                self.assertEqual([list(told.stand), list(told.could)], [expected["stand"], expected["could"]])
                statuses[told.status] += 1
        self.assertLessEqual({ends.WHOLE, ends.ALL, ends.ONE, ends.SEVERAL, ends.NONE, ends.GAP}, set(statuses))

    def test_no_trimmed_example_is_judged_as_another_network(self):
        words = Counter()
        for name, text in trimming.designs():
            parts, network = trimming.traced(text)
            pair, truth = (len(network.inputs), len(network.outputs)), measured_ends.told_network(parts)
            word, _, seconds = measured_ends.judged(trimming.trimmed(text), pair, truth)
            words[word] += 1
            self.assertLess(seconds, 0.5)
            cut = measured_ends.judged(trimming.trimmed(text, True), pair, truth)
            self.assertIn(cut[:2], TOLD_WHERE_CUT, name)
            for missing in measured_ends.with_one_forgotten(text, 5):
                with self.subTest(name=name):
                    self.assertEqual(measured_ends.judged(missing, pair, truth)[:2], ("open", ends.GAP))
        # Halves that aren't used, of two universal balancers and of a loop, may be ends as well as those that are.
        self.assertEqual(words, {"right": 43, "open, with it": 3})

    def test_many_bare_halves_end_soon(self):
        rows = [f"splitter basic 0 {2 * x} {3 * y}" for x in range(32) for y in range(4)]
        lanes = [f"belt basic 0 {x} {3 * y + 1}" for x in range(64) for y in range(3)]
        lanes += [f"belt basic 0 {x} {3 * y + 2}" for x in range(64) for y in range(3)]
        parts = parts_of("; ".join(rows + lanes))
        for pair in ((64, 64), (32, 32), (1, 64), (33, 40)):
            begin = time.monotonic()
            told = ends.ends_of(parts, (), [pair])
            self.assertIn(told.status, (ends.ALL, ends.NONE, ends.MANY))
            self.assertLess(time.monotonic() - begin, 5)

    def test_large_designs_end_soon(self):
        apart = "; ".join(f"splitter basic 0 {4 * x} {4 * y}" for x in range(22) for y in range(22))
        wide = "splitter basic 0 0 0; splitter basic 0 400 400; belt basic 0 0 1"
        for told in (apart, wide, "; ".join(f"splitter basic 0 {2 * x} 0" for x in range(600))):
            begin = time.monotonic()
            self.assertIn(ends.ends_of(parts_of(told), (), [(3, 2)]).status, (ends.MANY, ends.NONE))
            self.assertLess(time.monotonic() - begin, 5)

    def test_what_stands_in_the_way_of_an_end(self):
        parts = parts_of("splitter basic 0 0 0; belt basic 0 0 1; belt basic 0 0 -1")
        told = ends.ends_of(parts, [(1, -1)], [(1, 2)])
        self.assertEqual((told.status, told.rooms), (ends.ONE, ((1, -1),)))
        self.assertEqual(ends.ends_of(parts, (), [(1, 2)]).rooms, (None,))

    def test_which_networks_are_the_same(self):
        ring = [(at, (at + 1) % 6, 4) for at in range(6)]
        rings = [(at, at - at % 3 + (at + 1) % 3, 4) for at in range(6)]
        marks = [((0, 4), (1, 4))] * 6
        turned = [((source * 5 + 2) % 6, (target * 5 + 2) % 6, kind) for source, target, kind in ring]
        self.assertTrue(ends.is_same(marks, ring, marks, turned))
        self.assertFalse(ends.is_same(marks, ring, marks, rings))
        self.assertFalse(ends.is_same(marks, ring, [((1, 4),), *marks[1:]], ring))

    def test_shares(self):
        self.assertEqual(list(ends.shares([0, 1], [2, 2], 2)), [(0, 2), (1, 1)])
        self.assertEqual(list(ends.shares([], [], 0)), [()])
        self.assertEqual(list(ends.shares([], [], 1)), [])
        self.assertEqual(list(ends.shares([1], [1], 2)), [])

    def test_an_untraced_design_has_no_ends(self):
        with self.assertRaises(trace.Untraced):
            ends.ends_of(parts_of("belt basic 0 0 0; belt basic 2 0 -1"), (), [(1, 1)])


class Labels(Case):
    def test_each_label(self):
        for it in LABELS:
            with self.subTest(label=it["label"]):
                pairs = [[*pair, size] for pair, size in labels.told_with_sizes(it["label"]).items()]
                told = labels.claims(it["label"])
                self.assertEqual((pairs, told.lanes, told.properties), (it["pairs"], it["lanes"], it["claims"]))
                self.assertEqual(labels.in_words(it["label"]), it["words"])

    def test_a_long_label_ends_soon(self):
        for sign in ("-", "4-", "4 ", "[", "[a", "1", "=", "to ", "\u00a0", "4.", "a", "TU "):
            begin = time.monotonic()
            label = "4" + sign * (10_000_000 // len(sign))
            labels.told(label), labels.claims(label)
            self.assertLess(time.monotonic() - begin, 1)
