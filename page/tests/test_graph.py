"""The drawing of a network without parts: each node once and apart from all others, inputs above and outputs below,
each edge a line from its source to its target, and with a state its numbers."""

import json
import re
import unittest
from collections import Counter

from collection import states

from . import EXAMPLES, needs_node, run_scripts

NAMES = "strings words books design trace picture states entities graph".split()
DRIVER = """
const { networks, state } = JSON.parse(require("fs").readFileSync(0, "utf8"));
const all = networks.map((it) => {
  const began = performance.now();
  const net = readNet(it);
  const { middles } = placedNodes(net);
  const drawn = graphOf(net);
  return { middles: [...middles], ranks: [...ranksOf(net)], drawn, seconds: (performance.now() - began) / 1000 };
});
const [ofNet, ofState] = state;
require("fs").writeSync(1, JSON.stringify({ all, state: graphOf(readNet(ofNet), readState(ofState)) }));
"""
LINE = 2047
"""The most splitters that stand one behind the other in a network text."""


def titles(elements):
    return [it[2][0][2] for it in elements if it[0] == "g"]


def texts(elements):
    return [it[2] for it in elements if it[0] == "text"]


@needs_node
class Graph(unittest.TestCase):
    @classmethod
    def setUpClass(cls):
        cls.texts = [it.read_text("utf-8") for it in sorted(EXAMPLES.glob("*.net"))]
        lines = ["edge i0 s0", *(f"edge s{k} s{k + 1}" for k in range(LINE - 1)), f"edge s{LINE - 1} o0"]
        cls.texts += [
            "\n".join([f"net 1 1 {LINE}", *lines, "end\n"]),
            "net 1 1 2\nedge i0 o0\nedge s0 s1\nedge s1 s0\nend\n",
            "net 1 2 1\nedge i0 s0\nedge s0 s0\nedge s0 o0\nend\n",
        ]
        told = "no unlimited\nload 1 1 0 0\nroom 1 1 0 0\nflow 1/2 1/2 0 0 1 0 0 0 1/2 1/2 0 0\n"
        state = (EXAMPLES / "butterfly-4-to-4.net").read_text(), told + "mark b b f f f b f f f f b b\nend\n"
        asked = {"networks": cls.texts, "state": state}
        told = json.loads(run_scripts(NAMES, DRIVER, json.dumps(asked).encode()))
        cls.drawn, cls.state = told["all"], told["state"]

    def test_each_node_and_each_edge_is_drawn_once(self):
        for text, it in zip(self.texts, self.drawn, strict=True):
            net = states.read_net(text)
            elements = it["drawn"]["elements"]
            counts = (("i", net.inputs), ("o", net.outputs), ("s", net.splitters))
            nodes = [f"{sign}{k}" for sign, count in counts for k in range(count)]
            self.assertEqual(sorted(texts(elements)), sorted(nodes))
            words = (
                f"{source} to {target}" + (f", cap {cap}" if cap != 1 else "") for source, target, cap in net.edges
            )
            self.assertEqual(Counter(titles(elements)), Counter(words))
            self.assertEqual(len({tuple(place) for _, place in it["middles"]}), len(nodes))
            for element in elements:
                self.assertNotRegex(json.dumps(element), "NaN|null|undefined")

    def test_inputs_stand_above_and_outputs_below(self):
        for it in self.drawn:
            ranks = dict(it["ranks"])
            self.assertEqual({rank for name, rank in ranks.items() if name[0] == "i"}, {0})
            (bottom,) = {rank for name, rank in ranks.items() if name[0] == "o"}
            self.assertTrue(all(0 < rank < bottom for name, rank in ranks.items() if name[0] == "s"))

    def test_a_state_has_its_numbers(self):
        elements = self.state["elements"]
        self.assertIn("s0 to s2: 1 of 1, free", titles(elements))
        self.assertEqual(
            Counter(
                it[1]["class"].split()[1] for it in elements if it[0] == "rect" and it[1]["class"].startswith("tag")
            ),
            Counter(re.findall(r"free|backed", " ".join(titles(elements)))),
        )
        self.assertEqual(len(titles(elements)), 12)


if __name__ == "__main__":
    unittest.main()
