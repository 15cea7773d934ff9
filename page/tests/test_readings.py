"""What is left out of a design and how its bare halves are opened: the same as the report's tools do it, byte for
byte."""

import json
import random
import subprocess
import unittest

from collection import cleaning, design, labels, openings
from collection.books import entries
from collection.strings import inflate
from collection.tests import belt, blueprint, measured_ends, program_path, trimming

from . import EXAMPLES, needs_node, run_scripts, sheet

NAMES = [
    "strings",
    "words",
    "books",
    "design",
    "trace",
    "states",
    "refusals",
    "entities",
    "links",
    "rigs",
    "cleaning",
    "labels",
    "ends",
    "leading",
    "openings",
]
DRIVER = """
const fs = require("fs");
const { spawnSync } = require("child_process");
const { program, cases, labels } = JSON.parse(fs.readFileSync(0, "utf8"));
const recover = async (bytes) => {
  const told = spawnSync(program, ["recover"], { input: bytes });
  const text = told.stdout.toString();
  return told.status === 0 ? text : text.split("\\n")[0];
};
const written = (bytes) => Buffer.from(bytes).toString();
const place = ({ kind, cell }) => [kind, ...cell];
const toldOf = ({ bytes, answer, belts, opened, unopened, before, after, would, ends, gaps, isMarked, choices }) => {
  const why = unopened.map((it) => [place(it.place), it.why]);
  return {
    text: written(bytes),
    answer,
    belts,
    opened: opened.map(place),
    unopened: why,
    before,
    after,
    would,
    ends,
    gaps,
    marked: isMarked,
    choices: choices.map(toldOf),
  };
};
const answer = async ({ text, mode, label }) => {
  const bytes = new TextEncoder().encode(text);
  const clean = cleaned(bytes);
  try {
    const opening = await Opening.of(clean.bytes, bystandersOf(bytes), recover);
    const found = await openedBy(opening, mode, label);
    return { notes: clean.notes, ...toldOf(found) };
  } catch (fault) {
    if (!(fault instanceof Refused)) throw fault;
    return { notes: clean.notes, text: written(clean.bytes), refused: fault.message };
  }
};
const main = async () => {
  const answers = [];
  for (const it of cases) answers.push(await answer(it));
  const spelled = labels.map((it) => spelledPairs(pairsIn(it)));
  fs.writeSync(1, JSON.stringify({ answers, pairs: labels.map(pairsIn), spelled }));
};
main();
"""
SPELLER = """
const texts = JSON.parse(require("fs").readFileSync(0, "utf8"));
require("fs").writeSync(1, JSON.stringify(texts.map((it) => [...fromBase85(it)])));
"""
UNPACKER = """
const texts = JSON.parse(require("fs").readFileSync(0, "utf8"));
const whole = (text) => {
  const packed = fromBase85(text);
  try {
    return [...fromLzma(packed.subarray(4), new DataView(packed.buffer).getUint32(0, true))];
  } catch (fault) {
    if (fault instanceof Damaged) return fault.message;
    throw fault;
  }
};
require("fs").writeSync(1, JSON.stringify(texts.map(whole)));
"""
SPELLINGS = [
    "4 to 4",
    "4-4",
    "4:4",
    "4x4",
    "4→4",
    "4 -> 2",
    "3 => 5 balancer",
    "8 × 8 (9x11)",
    "v2.0",
    "4-to-4 and 2-to-2",
    "1:2:3",
    "[color=red]6[/color] to 6",
    "10x10cm",
    "",
    "a 4–4",
    "0 to 4",
    "4 to 4.5",
]


def trimmed(text):
    """A design without its belts."""
    told = json.loads(text)
    told["blueprint"]["entities"] = [it for it in told["blueprint"]["entities"] if "splitter" in it["name"]]
    return json.dumps(told)


def with_more(text, *entities):
    told = json.loads(text)
    told["blueprint"]["entities"] += entities
    return json.dumps(told)


def without_one(text, at):
    """A design without one of its entities."""
    told = json.loads(text)
    del told["blueprint"]["entities"][at]
    return json.dumps(told)


POLE = {"entity_number": 900, "name": "small-electric-pole", "position": {"x": 0.5, "y": 40.5}}


def cases():
    texts = [it.read_text() for it in sorted(EXAMPLES.glob("*.json")) if "16-to-16" not in it.name]
    texts += [it.text for it in entries(inflate((EXAMPLES / "collection" / "book.txt").read_text()).decode())[0]][:6]
    texts = [it for it in texts if "blueprint_book" not in it]
    for text in texts:
        yield text, "label", "4 to 4"
        yield trimmed(text), "label", ""
        yield with_more(trimmed(text), POLE, {"name": "radar", "position": {"x": 3.5, "y": -2.5}}), "always", ""
        yield without_one(text, 0), "always", ""
        yield without_one(text, -1), "label", "4-4"
    for _, text in trimming.designs():
        network = trimming.traced(text)[1]
        pair = f"{len(network.inputs)} to {len(network.outputs)}"
        yield trimming.trimmed(text), "label", pair
        yield trimming.trimmed(text), "label", "1 to 1 or 2 to 3"
        yield from ((missing, "label", pair) for missing in measured_ends.with_one_forgotten(text, 1))
    reading = belt(
        9, 9, control_behavior={"circuit_read_hand_contents": True, "circuit_enabled": False, "circuit_condition": {}}
    )
    stopping = belt(9, 9, control_behavior={"circuit_enabled": True})
    two = blueprint(
        {"name": "splitter", "position": {"x": 3, "y": 5.5}},
        {"name": "fast-splitter", "position": {"x": 3, "y": 2.5}, "direction": 2},
        version=2 << 48,
    )
    turned = blueprint(
        {"name": "splitter", "position": {"x": 3.5, "y": 5}, "direction": 4},
        {"name": "splitter", "position": {"x": 6, "y": 5.5}, "direction": 0},
        version=2 << 48,
    )
    pole = {"name": "small-electric-pole", "position": {"x": 4.5, "y": 0.5}}
    wired = belt(
        0,
        1,
        connections={
            "1": {"red": [{"entity_id": 3}, {"entity_id": 1, "circuit_id": 1}]}, "2": {"green": [{"entity_id": 3}]}
        },
    )
    only = belt(0, 2, connections={"1": {"red": [{"entity_id": 3}]}})
    linked = {
        "wires": [[1, 1, 3, 1], [1, 1, 2, 1], "é"],
        "schedules": [{"locomotives": [3, 1], "name": "é"}, {"locomotives": [3]}, 5],
    }
    linked |= {
        "stock_connections": [{"stock": 3, "front": 1}, {"stock": 1}],
        "description": "é",
        "snap-to-grid": {"x": 2, "y": 1},
    }
    yield blueprint(belt(0, 0), wired, pole, only, **linked), "label", ""
    yield blueprint(belt(0, 0), wired, only, **linked), "label", ""
    for y, kind, turn in ((2, "output", 0), (2, "input", 0), (-1, "input", 0), (2, "output", 4), (2, "output", 2)):
        loader = {"name": "loader", "position": {"x": 0.5, "y": y}, "direction": turn, "type": kind}
        chest = {"name": "steel-chest", "position": {"x": 0.5, "y": y + 1.5}}
        yield blueprint(belt(0, 0), loader), "label", ""
        yield blueprint(
            belt(0, 0),
            loader,
            chest,
            {"name": "loader", "position": {"x": 0.5, "y": y + 3}, "direction": turn, "type": "input"},
        ), "label", ""
    # Ends that are led out along paths, and one that can't be.
    for x, y in ((1.5, -1.5), (1.5, -0.5), (0.5, 9.5)):
        post = {"name": "small-electric-pole", "position": {"x": x, "y": y}}
        led = blueprint(
            {"name": "splitter", "position": {"x": 1, "y": 0.5}}, belt(0, 1), belt(0, -1), belt(2, -3), post
        )
        yield led, "label", "3 to 3"
        yield led, "label", "2 to 3"
    for text in (
        blueprint(reading),
        blueprint(stopping),
        two,
        turned,
        with_more(two, POLE),
        "{",
        "{}",
        blueprint(),
        '{"blueprint":{"entities":[1]}}',
        blueprint(POLE),
    ):
        yield text, "always", ""
        yield text, "never", "2 to 2"


def read_by_report(text, mode, label, recover):
    """The same as the script's driver, by the report's modules."""
    clean = cleaning.cleaned(text)
    told = {"notes": clean.notes}
    try:
        opening = openings.Opening(clean.text, design.bystanders(text), recover)
        found = openings.opened(opening, mode, label)
    except openings.Refused as refusal:
        return told | {"text": clean.text, "refused": str(refusal)}
    return told | told_of(found)


def told_of(found):
    """What is told of how bare halves were opened, of each choice too."""
    told = {
        name: getattr(found, name) for name in "text answer belts opened unopened before after would ends gaps".split()
    }
    return told | {"marked": found.is_marked, "choices": [told_of(it) for it in found.choices]}


def recover(text):
    told = subprocess.run([program_path(), "recover"], input=text.encode(), stdout=subprocess.PIPE, check=False)
    written = told.stdout.decode()
    return written if told.returncode == 0 else written.partition("\n")[0]


@needs_node
class Readings(unittest.TestCase):
    maxDiff = 3000

    def test_designs_are_read_and_opened_as_by_the_report(self):
        asked = [dict(zip(("text", "mode", "label"), it)) for it in cases()]
        data = {"program": str(program_path()), "cases": asked, "labels": SPELLINGS}
        told = json.loads(run_scripts(NAMES, DRIVER, json.dumps(data).encode()))
        opened = 0
        for it, ours in zip(asked, told["answers"], strict=True):
            theirs = json.loads(json.dumps(read_by_report(**it, recover=recover)))
            opened += bool(theirs.get("opened"))
            with self.subTest(text=it["text"][:80], mode=it["mode"]):
                self.assertEqual(ours, theirs)
        self.assertGreater(opened, 10)
        self.assertLessEqual({"whole", "all", "one", "none", "gap"}, {it.get("ends") for it in told["answers"]})
        self.assertEqual(told["pairs"], [[list(pair) for pair in labels.told(it)] for it in SPELLINGS])
        self.assertEqual(told["spelled"], [labels.spelled(labels.told(it)) for it in SPELLINGS])

    def test_bytes_in_base_85_are_read_as_they_were(self):
        asked = [bytes(range(251, 251 - length, -1)) for length in range(12)] + [
            bytes(9), b"\xff" * 8, bytes(range(256)) * 3
        ]
        told = json.loads(run_scripts(["strings"], SPELLER, json.dumps([sheet.spelled(it) for it in asked]).encode()))
        self.assertEqual([bytes(it) for it in told], asked)
        self.assertEqual([sheet.despelled(sheet.spelled(it).encode()) for it in asked], asked)

    def test_what_is_packed_is_unpacked(self):
        chance = random.Random(4)
        asked = [b"", b"a", bytes(4000), bytes(range(256)) * 3, b"ab" * 300 + b"abc" * 200, chance.randbytes(3000)]
        asked += [
            bytes(chance.choices(b"abcd", k=5000)),
            b"".join(chance.randbytes(40) * chance.randint(1, 9) for _ in range(60)),
        ]
        asked += [chance.randbytes(2**17) + bytes(99), (EXAMPLES / "balancer-4-to-4.json").read_bytes() * 2]
        texts = [sheet.squeezed(it) for it in asked]
        self.assertEqual([sheet.unsqueezed(it.encode()) for it in texts], asked)
        cut = [sheet.spelled(sheet.despelled(it.encode())[:-20]) for it in texts[-2:]]
        whole = self.unpacked([*texts, *cut])
        self.assertEqual([bytes(it) for it in whole[:-2]], asked)
        self.assertEqual(whole[-2:], ["what is packed in the page ends too early"] * 2)

    def unpacked(self, texts):
        return json.loads(run_scripts(["strings", "unpacking"], UNPACKER, json.dumps(texts).encode()))


if __name__ == "__main__":
    unittest.main()
