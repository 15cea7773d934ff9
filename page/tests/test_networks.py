"""Designs with the same network are told by the page as by the report: over all examples, and over networks with other
numbers."""

import json
import random
import unittest

from collection import networks, states
from collection.tests.test_networks import renamed

from . import EXAMPLES, needs_node, run_scripts

NAMES = "strings words books design trace picture states networks".split()
DRIVER = """
const texts = JSON.parse(require("fs").readFileSync(0, "utf8"));
const them = new Networks();
const groups = texts.map((text) => {
  if (!isPlainNetwork(text)) return null;
  const group = them.groupOf(readNet(text));
  group.push(0);
  return [them, group];
});
const firsts = groups.map((it, at) => (it ? groups.findIndex((other) => other && other[1] === it[1]) : null));
const pairs = texts.slice(1).map((text, at) => renamingOf(readNet(texts[at]).edges, readNet(text).edges) !== null);
require("fs").writeSync(1, JSON.stringify({ firsts, pairs }));
"""


def text_of(net):
    """A network's text."""
    edges = (f"edge {source} {target}{f' {cap}' if cap != 1 else ''}\n" for source, target, cap in net.edges)
    return f"net {net.inputs} {net.outputs} {net.splitters}\n{''.join(edges)}end\n"


@needs_node
class Networks(unittest.TestCase):
    def test_groups_are_those_of_the_report(self):
        chance = random.Random(11)
        texts = [it.read_text() for it in sorted(EXAMPLES.glob("*.net")) if it.stat().st_size < 3000]
        plain = [it for it in texts if networks.is_plain(it)]
        self.assertGreater(len(texts), len(plain))
        texts += [text_of(renamed(states.read_net(it), chance)) for it in plain]
        kept = [at for at, it in enumerate(texts) if networks.is_plain(it)]
        firsts = dict(zip(kept, networks.grouped([states.read_net(texts[at]) for at in kept])))
        told = json.loads(run_scripts(NAMES, DRIVER, json.dumps(texts).encode()))
        self.assertEqual(told["firsts"], [kept[firsts[at]] if at in firsts else None for at in range(len(texts))])
        self.assertLess(len(set(firsts.values())), len(kept) - len(plain) + 1)
        pairs = [
            networks.renaming(*(states.read_net(it).edges for it in texts[at : at + 2])) is not None
            for at in range(len(texts) - 1)
        ]
        self.assertEqual(told["pairs"], pairs)


if __name__ == "__main__":
    unittest.main()
