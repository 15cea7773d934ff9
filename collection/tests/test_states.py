"""What a breaking state is said to show."""

import unittest

from .. import states

FAN = "net 2 2 1\nedge i0 s0 {0}\nedge i1 s0 {0}\nedge s0 o0 {0}\nedge s0 o1 {0}\nend\n"


def shown(prop, load, room, flow, tiers=(), cap=1):
    """What is said of a state of a splitter with two inputs and two outputs."""
    net, state = states.read_net(
        FAN.format(cap)
    ), f"no {prop}\nload {load}\nroom {room}\nflow {flow}\nmark f f f f\nend\n"
    return states.shown(prop, net, states.read_state(state), tiers)


class Shown(unittest.TestCase):
    def test_how_many_belts_come_through(self):
        told = shown("unlimited", "1 1", "1 1", "1 1/2 1 1/2", ("fast",))
        self.assertEqual(
            told, "1 1/2 of 2 belts come through, 45 of 60 items a second: all inputs full; all outputs open."
        )
        told = shown("unlimited", "1 0", "0 1", "1/3 0 0 1/3", ("turbo",))
        ends = "input i0 full, the others empty; output o0 blocked, the others open"
        self.assertEqual(told, f"1/3 of 1 belt comes through, 20 of 60 items a second: {ends}.")
        told = shown("full", "1 1", "1 1", "0 0 0 0")
        self.assertEqual(told, "0 of 2 belts come through: all inputs full; all outputs open.")

    def test_which_carry_otherwise(self):
        told = shown("balanced", "1 1/2", "1 1", "1 1/2 1 1/2", ("basic",))
        flows = "1, 1/2 belts, or 15, 7.5 items a second"
        ends = "inputs i0 full, i1 with 1/2; all outputs open"
        self.assertEqual(told, f"The outputs carry {flows}, and should all carry the same: {ends}.")
        told = shown("drawn-evenly", "1 1", "1/2 0", "1/2 0 1/2 0")
        ends = "all inputs full; outputs o0 open for 1/2, o1 blocked"
        self.assertEqual(told, f"The inputs give 1/2, 0 belts, and should all give the same: {ends}.")

    def test_who_gets_more_where_outputs_are_blocked(self):
        told = shown("fair", "1 1", "1/2 1", "3/4 0 1/2 1/4", ("fast",))
        ends = "all inputs full; output o0 open for 1/2, the others open"
        self.assertEqual(
            told,
            f"Output o0 carries 1/2 belts and o1, which would take 1, only 1/4 (15 and 7.5 items a second): {ends}.",
        )
        told = shown("drawn-fairly", "1 1/2", "1 0", "1 1/3 1 1/3")
        ends = "inputs i0 full, i1 with 1/2; output o1 blocked, the others open"
        self.assertEqual(told, f"Input i0 gives 1 belt and i1, which has 1/2, only 1/3: {ends}.")

    def test_which_ends_have_less_and_more(self):
        net = states.read_net(FAN.format(1))
        state = states.read_state("no fair\nload 1 1\nroom 1/2 1\nflow 3/4 0 1/2 1/4\nmark f f f f\nend\n")
        self.assertEqual(states.apart("fair", net, state), {"o1": "less", "o0": "more"})
        self.assertEqual(states.apart("drawn-fairly", net, state), {"i1": "less", "i0": "more"})
        self.assertEqual(states.apart("balanced", net, state), {})

    def test_mixed_tiers_are_told_in_basic_belts(self):
        told = shown("unlimited", "2 1", "0 2", "1 1 0 2", ("basic", "fast"), cap=2)
        ends = "inputs i0 full, i1 with 1; output o0 blocked, the others open"
        self.assertEqual(told, f"2 of 2 basic belts come through, 30 of 30 items a second: {ends}.")

    def test_many_ends_and_long_fractions_are_told_short(self):
        numbers = [states.Fraction(k, 97) for k in range(30)]
        self.assertTrue(states.listed(numbers).endswith("23/97 and so on, from 0 to 29/97"))
        self.assertEqual([states.decimal(15 * it) for it in numbers[:4]], ["0", "0.15", "0.31", "0.46"])
