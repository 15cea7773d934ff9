"""The page's pictures are those of the report, element by element; and so are bare ends, networks, states and words."""

import json
import subprocess
import unittest
from pathlib import Path

from collection import design, flows, picture, refusals, states, trace
from collection.books import entries
from collection.strings import inflate
from collection.tests import belt, blueprint, program_path

from . import EXAMPLES, needs_node, run_scripts

NAMES = ["strings", "words", "books", "design", "trace", "picture", "states", "refusals"]
DRIVER = """
const fs = require("fs");
const asked = JSON.parse(fs.readFileSync(0, "utf8"));
const bytesOf = (text) => new TextEncoder().encode(text);
const answers = asked.map(({ text, states, line }) => {
  if (line) return toldRefusal(line, bytesOf(text));
  let found = null;
  try {
    found = readDesign(bytesOf(text));
  } catch (fault) {
    if (!(fault instanceof Unreadable)) throw fault;
    return { unreadable: fault.message };
  }
  const bare = bareEnds(found.parts);
  const added = new Set(found.parts.flatMap((it, at) => (it.kind === "belt" && at % 3 === 0 ? [at] : [])));
  const last = found.parts.length ? found.parts[found.parts.length - 1].cells : [[0, 0]];
  const marks = { bare, added, refused: [{ cells: last, words: "<no> & \\"why\\"" }] };
  const whole = { bare, drawn: drawn(found, { ...NO_MARKS, bare }, "ways"), marked: drawn(found, marks) };
  try {
    const network = new Layout(found.parts).network();
    const cells = badgeCells(found.parts, network);
    const net = { inputs: network.inputs.length, outputs: network.outputs.length, edges: network.edges };
    const told = states.map(({ property, text }) => {
      const state = readState(text);
      const flows = flowing(found.parts, network, cells, state, "ways");
      const [tiered, plainly] = [shown(property, net, state, tiersOf(found)), shown(property, net, state)];
      return { flows, badges: badges(cells, toldAtEnds(state)), shown: tiered, plainly };
    });
    const box = boxOf(found, cells);
    const views = { view: viewOf(box), ruled: viewOf(box, true), rules: rulesOf(box) };
    return { ...whole, lines: linesOf(network), badges: badges(cells), ...views, told };
  } catch (fault) {
    if (!(fault instanceof Untraced)) throw fault;
    return { ...whole, untraced: fault.message, view: viewOf(boxOf(found, [])) };
  }
});
fs.writeSync(1, JSON.stringify(answers));
"""


def texts():
    """Designs of all kinds: the examples, those of the book, and some that can't be traced or drawn."""
    found = [it.read_text() for it in sorted(EXAMPLES.glob("*.json"))]
    found += [it.text for it in entries(inflate((EXAMPLES / "collection" / "book.txt").read_text()).decode())[0]]
    found += [
        "[",
        blueprint(),
        blueprint(belt(0.25, 0)),
        blueprint(belt(0, 0), belt(0.5, 0)),
        blueprint(belt(0, 0), {"name": "<b>inserter</b>\u202e", "position": {"x": 1.5, "y": 0.5}}),
        blueprint(belt(0, 0), belt(0, 0)),
        blueprint(
            belt(0, 0),
            {"name": "pump", "position": {"x": 4.5, "y": 0}, "direction": 2},
            {"name": "radar", "position": {"x": -3.25, "y": -1.5}},
        ),
        blueprint({"name": "radar"}, {"name": 5, "position": {"x": 1, "y": 1}}),
        blueprint(belt(0, 0, 2), belt(2, 0, 6), belt(1, 0)),
        blueprint(belt(-3, -7, 6), belt(-4, -7), belt(-3, -8, 6)),
        blueprint({
            "name": "splitter",
            "position": {"x": 3, "y": 5.5},
            "direction": 4,
            "output_priority": "right",
            "input_priority": "left",
        }),
        blueprint(
            {"name": "turbo-underground-belt", "position": {"x": 3.5, "y": 5.5}, "direction": 2, "type": "input"}
        ),
    ]
    return [it for it in found if "blueprint_book" not in it]


def states_of(text):
    """The breaking states that the program decides of a design, by property."""
    for prop in states.PROPERTIES:
        told = subprocess.run([program_path(), "decide", prop], input=text, capture_output=True, text=True, check=False)
        if told.returncode == 1:
            yield prop, told.stdout


def drawn_by_report(text, told):
    """The same as the script's driver, by the report's modules."""
    try:
        found = design.read(text)
    except design.Unreadable as fault:
        return {"unreadable": str(fault)}
    bare = trace.bare_ends(found.parts)
    added = frozenset(at for at, it in enumerate(found.parts) if it.kind == "belt" and at % 3 == 0)
    refused = ((found.parts[-1].cells if found.parts else ((0, 0),), '<no> & "why"'),)
    marks = picture.Marks(bare=tuple(bare), added=added, refused=refused)
    plainly = picture.Marks(bare=tuple(bare))
    whole = {
        "bare": [{"part": it.part, "half": it.half, "front": it.front} for it in bare],
        "drawn": picture.drawn(found.parts, found.strangers, plainly, "ways"),
        "marked": picture.drawn(found.parts, found.strangers, marks),
    }
    try:
        network = trace.Layout(found.parts).network()
    except trace.Untraced as fault:
        return whole | {"untraced": str(fault), "view": picture.Picture(found).view()}
    seen = picture.Picture(found, network)
    net = states.Net(
        len(network.inputs), len(network.outputs), 0, [(it.source, it.target, it.cap) for it in network.edges]
    )
    answers = []
    for prop, written in told:
        state = states.read_state(written)
        ends = {f"i{k}": it for k, it in enumerate(state.loads)} | {f"o{k}": it for k, it in enumerate(state.rooms)}
        answers.append(
            {
                "flows": flows.flowing(found.parts, network, seen.badges, state, "ways"),
                "badges": picture.badges(seen.badges, ends),
                "shown": states.shown(prop, net, state, tuple(found.tiers())),
                "plainly": states.shown(prop, net, state),
            }
        )
    return whole | {
        "lines": network.lines(),
        "badges": picture.badges(seen.badges),
        "view": seen.view(),
        "ruled": seen.view(True),
        "rules": picture.rules(seen.box),
        "told": answers,
    }


@needs_node
class Pictures(unittest.TestCase):
    maxDiff = 2000

    def test_elements_are_those_of_the_report(self):
        asked = [(text, list(states_of(text))) for text in texts()]
        self.assertGreaterEqual(len(asked), 25)
        data = [{"text": text, "states": [{"property": prop, "text": it} for prop, it in told]} for text, told in asked]
        answers = json.loads(run_scripts(NAMES, DRIVER, json.dumps(data).encode()))
        self.assertGreaterEqual(sum(len(told) for _, told in asked), 10)
        for (text, told), ours in zip(asked, answers, strict=True):
            theirs = json.loads(json.dumps(drawn_by_report(text, told)))
            for name in theirs:
                with self.subTest(text=text[:70], name=name):
                    self.assertEqual(ours.get(name), theirs[name])
            self.assertEqual(sorted(ours), sorted(theirs))

    def test_refusals_are_told_in_the_same_words(self):
        inserter = {"name": "<i>\u202e", "position": {"x": 1.5, "y": 0.5}}
        splitter = {"name": "splitter", "position": {"x": 7, "y": 4.5}}
        facing = blueprint(belt(0, 0), belt(0, 0), inserter, belt(4, 4, 2), belt(5, 4, 6), splitter)
        loaded = blueprint(belt(0, 0), belt(0, 1), belt(1, 0, 6), belt(-1, 0, 2), {"name": "radar"})
        lines = [
            "refused 23 Unsupported 2",
            "refused 30 Overlap 0 1",
            "refused 24 BadMember 1 direction",
            "refused 42 NoEnds",
        ]
        lines += [
            "refused 32 SideLoad 0",
            "refused 33 Blocked 3",
            "refused 25 OffGrid 2",
            "refused 31 Unpaired 4",
            "refused 34 Ring 99",
        ]
        lines += ["refused 10 Json 5", "refused 40 NetLine 3", "usage", "too long", "refused 99 What 1"]
        data = [{"text": text, "line": it} for it in lines for text in (facing, loaded, "{")]
        data += [
            {"text": text, "line": f"refused {number} Name {at} {2 * at} direction"}
            for text in texts()
            for number in refusals.WORDS
            for at in (0, 2)
        ]
        answers = json.loads(run_scripts(NAMES, DRIVER, json.dumps(data).encode()))
        for it, ours in zip(data, answers, strict=True):
            with self.subTest(line=it["line"], text=it["text"][:70]):
                theirs = refusals.refusal(it["line"], it["text"])
                self.assertEqual(ours["words"], theirs.words)
                places = [{"cells": [list(cell) for cell in cells], "words": words} for cells, words in theirs.places]
                self.assertEqual(ours["places"], places)


if __name__ == "__main__":
    unittest.main()
