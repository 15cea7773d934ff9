"""Designs with the same network."""

import json
import random

from .. import networks, states
from . import EXAMPLES, Case, run


def renamed(net, chance):
    """A network with other numbers, and with its edges in another order."""
    counts = (("i", net.inputs), ("o", net.outputs), ("s", net.splitters))
    names = {f"{kind}{k}": f"{kind}{at}" for kind, n in counts for k, at in enumerate(chance.sample(range(n), n))}
    edges = [(names[source], names[target], cap) for source, target, cap in net.edges]
    return states.Net(net.inputs, net.outputs, net.splitters, chance.sample(edges, len(edges)))


class Networks(Case):
    def nets(self):
        texts = [it.read_text() for it in sorted(EXAMPLES.glob("*.net"))]
        return [states.read_net(it) for it in texts if networks.is_plain(it)]

    def test_other_numbers_are_the_same_network(self):
        chance = random.Random(4)
        for net in self.nets():
            other = renamed(net, chance)
            names = networks.renaming(net.edges, other.edges)
            self.assertTrue(networks.is_renaming(names, net.edges, other.edges))
            self.assertEqual(networks.shape(net), networks.shape(other))

    def test_another_edge_or_cap_is_another_network(self):
        chance, tap = random.Random(5), states.read_net((EXAMPLES / "express-tap-1-to-3.net").read_text())
        for at, (source, target, cap) in enumerate(tap.edges):
            before, after = tap.edges[:at], tap.edges[at + 1 :]
            for edges in ([*before, *after], [*before, (source, target, cap + 1), *after], [*tap.edges, tap.edges[at]]):
                other = renamed(states.Net(tap.inputs, tap.outputs, tap.splitters, edges), chance)
                self.assertIsNone(networks.renaming(tap.edges, other.edges))

    def test_no_renaming_is_believed_that_is_none(self):
        one = [("i0", "s0", 1), ("s0", "o0", 1), ("s0", "o1", 1)]
        names = {"i0": "i0", "s0": "s0", "o0": "o0", "o1": "o1"}
        self.assertTrue(networks.is_renaming(names, one, one))
        for bad in ({**names, "o1": "o0"}, {**names, "o0": "i0", "i0": "o0"}):
            self.assertFalse(networks.is_renaming(bad, one, one))

    def test_two_rings_are_not_one(self):
        def rings(*sizes):
            edges, begin = [("i0", "o0", 1)], 0
            for size in sizes:
                ring = [(f"s{begin + k}", f"s{begin + (k + 1) % size}", 1) for k in range(size)]
                edges, begin = edges + ring * 2, begin + size
            return states.Net(1, 1, begin, edges)

        self.assertIsNotNone(networks.renaming(rings(6).edges, rings(6).edges))
        self.assertIsNone(networks.renaming(rings(6).edges, rings(3, 3).edges))
        self.assertEqual(networks.grouped([rings(6), rings(3, 3), rings(6), rings(3, 3)]), [0, 1, 0, 1])

    def test_small_layouts_show_the_networks_of_the_large_ones(self):
        for small, large in (("loop-5-to-5-in-9x11", 5), ("loop-6-to-6-in-9x10", 6), ("loop-7-to-7-in-9x9", 7)):
            one, other = (
                states.read_net((EXAMPLES / f"{it}.net").read_text()).edges for it in (
                    small, f"loop-{large}-to-{large}"
                )
            )
            self.assertTrue(networks.is_renaming(networks.renaming(one, other), one, other), small)

    def test_they_stand_together_with_their_cells(self):
        large = json.loads((EXAMPLES / "balancer-8-to-8.json").read_text())
        small = (EXAMPLES / "balancer-8-to-8-in-9x11.json").read_text()
        self.write("in/a large.json", json.dumps(large))
        self.write("in/b other.json", (EXAMPLES / "one-belt.net").read_text())
        self.write("in/c small.json", small)
        self.write("in/d again.json", small)
        run(self.folder / "in", "-o", self.report, "--learnt", 1, "--jobs", "2")
        told = list(dict.fromkeys((it["design"], it["same_network_as"]) for it in self.results()))
        self.assertEqual([it[1] for it in told].count(""), 2)
        self.assertEqual(told[0][1], told[0][0])
        self.assertIn("least of 2", self.page())
