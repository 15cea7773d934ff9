"""Tests of same.py: a certificate that was made by hand, states that differ, and what is refused."""

import random
import sys
import unittest
from pathlib import Path

sys.dont_write_bytecode = True
sys.path.insert(0, str(Path(__file__).resolve().parent))

import same

BELT = ("net 1 1 0", "edge i0 o0", "end")
BELTS = ("net 2 2 0", "edge i0 o0", "edge i1 o1", "end")
SPLITTER = ("net 2 2 1", "edge i0 s0", "edge i1 s0", "edge s0 o0", "edge s0 o1", "end")
PREFERRING = (*SPLITTER[:-1], "give s0 2", "end")

# Of two belts: the first carries no more than the second, which takes all its load or fills its room; and the same of
# the second.
STEPS = ("f -31 -15 -25 0 1 1 1", "f -31 -16 -27 0 1 1 1", "r -31 0 10 12 28 24 26 29 0",
         "f -32 -29 -11 0 1 1 1", "f -32 -30 -13 0 1 1 1", "r -32 0 23 25 31 11 13 32 0", "r 0 30 33 27 0")
DIFFER = ("differ", "load 1 0", "room 1 1", "flow 1 0 1/2 1/2", "mark f f f f", "flow 1 0", "mark f f", "end")


def answer(*lines):
    return same.answer_to("\n".join(lines) + "\n")


class Sameness(unittest.TestCase):
    def test_same(self):
        self.assertEqual(answer(*BELT, *BELT, "same", *STEPS, "end"), (0, "same\n"))
        self.assertEqual(answer(*BELT, "", *BELT, "", "same", *STEPS, "end", ""), (0, "same\n"))
        for steps, refused in ((STEPS[:-1], "52 NoVerdict"), ((*STEPS[1:],), "51 BadStep 3 hint"),
                               ((*STEPS[:2], "r -32 0 10 12 28 24 26 29 0"), "51 BadStep 4 unit"),
                               (("f -31 -15 -26 0 1 1 1",), "51 BadStep 2 sum"), (("same",), "50 CertLine 2")):
            self.assertEqual(answer(*BELT, *BELT, "same", *steps, "end"), (9, f"refused {refused}\n"))
        self.assertEqual(answer(*BELT, *BELT, "same", *STEPS, "end", "end"), (9, "refused 50 CertLine 10\n"))

    def test_differ(self):
        self.assertEqual(answer(*SPLITTER, *BELTS, *DIFFER), (1, "differ\n"))
        self.assertEqual(answer(*BELTS, *SPLITTER, *DIFFER[:3], *DIFFER[5:7], *DIFFER[3:5], "end"), (1, "differ\n"))
        for at, line, refused in ((0, "differs", "50 CertLine 1"), (1, "load 1", "50 CertLine 2"),
                                  (2, "room 1 1 1", "50 CertLine 3"), (3, "flow 1 0 2/4 1/2", "50 CertLine 4"),
                                  (4, "mark f f f", "50 CertLine 5"), (5, "flow 1 0 0", "50 CertLine 6"),
                                  (6, "mark f x", "50 CertLine 7"), (7, "", "50 CertLine 8"),
                                  (1, "load 2 0", "54 NotBreaking first load 0"),
                                  (2, "room 1 -1", "54 NotBreaking first room 1"),
                                  (3, "flow 1 0 1/2 1/4", "54 NotBreaking first conserve 0"),
                                  (4, "mark b f f f", "54 NotBreaking first backing 0"),
                                  (5, "flow 1/2 0", "54 NotBreaking second input 0"),
                                  (6, "mark f b", "54 NotBreaking second output 1")):
            lines = [*DIFFER[:at], line, *DIFFER[at + 1:]]
            self.assertEqual(answer(*SPLITTER, *BELTS, *lines), (9, f"refused {refused}\n"), line)
        self.assertEqual(answer(*BELTS, *BELTS, *DIFFER[:3], *DIFFER[5:7], *DIFFER[5:]),
                         (9, "refused 54 NotBreaking kept 0\n"))
        wide = "flow " + " ".join([f"1/{2 ** 126}", f"1/{2 ** 126 - 1}", "0", "0"])
        self.assertEqual(answer(*SPLITTER, *BELTS, *DIFFER[:3], wide, *DIFFER[4:]), (5, "wide first conserve 0\n"))
        self.assertEqual(answer(*BELTS, *SPLITTER, *DIFFER[:3], *DIFFER[5:7], wide, *DIFFER[4:5], "end"),
                         (5, "wide second conserve 0\n"))

    def test_refused(self):
        fast = (BELT[0], f"{BELT[1]} 2", BELT[2])
        table = (
            ((*BELT, *BELTS), "47 Ends"), ((*BELT, *fast), "47 Ends"), ((*fast, *BELT), "47 Ends"),
            ((*BELT[:-1], "net"), "40 NetLine 3"), ((*BELT, "net"), "40 NetLine 1"),
            ((*BELT, "", *BELTS[:2], "end"), "40 NetLine 3"), ((*PREFERRING, *SPLITTER), "40 NetLine 6"),
            ((*SPLITTER, *PREFERRING), "40 NetLine 6"), ((*BELT[:-1], "pin i0 0 0", "end"), "40 NetLine 3"),
            ((*BELT, "{}"), "20 NotBlueprint"), ((*BELT, " {1}"), "10 Json 1"), ((*BELT,), "40 NetLine 1"),
        )
        for lines, refused in table:
            self.assertEqual(answer(*lines), (3, f"refused {refused}\n"), lines)
        self.assertEqual(answer(*BELT, *BELT, *BELT), (9, "refused 50 CertLine 1\n"))

    def test_tiers(self):
        def belts(*tiers):
            belt = '{{"name":"{}transport-belt","position":{{"x":0.5,"y":{}.5}}}}'
            entities = ",".join(belt.format(tier, y) for y, tier in enumerate(tiers))
            return '{"blueprint":{"entities":[' + entities + "]}}"

        differ = ("differ", "load 2", "room 2", "flow 2", "mark f", "flow 2", "mark f", "end")
        for first, second, told in ((("fast-",), ("fast-", "fast-"), (9, "refused 54 NotBreaking kept 0\n")),
                                    (("",), ("fast-",), (3, "refused 47 Ends\n")),
                                    (("fast-", "fast-"), ("fast-", ""), (3, "refused 47 Ends\n")),
                                    (("", "fast-"), ("", ""), (9, "refused 54 NotBreaking first load 0\n"))):
            self.assertEqual(answer(belts(*first), belts(*second), *differ), told, (first, second))
        self.assertEqual(answer(belts("fast-"), *BELT, *differ), (3, "refused 47 Ends\n"))
        self.assertEqual(answer(belts("fast-"), BELT[0], f"{BELT[1]} 2", BELT[2], *differ),
                         (9, "refused 54 NotBreaking kept 0\n"))

    def test_partners(self):
        chance = random.Random(1)
        for _ in range(50):
            net = same.thrown(chance, 2, 3)
            _, other = same.partner(chance, net)
            for each in net, other:
                again = same.opinion.read_net(each.text() + "\n", same.opinion.Extras.NOTHING)[0]
                self.assertEqual((again.text(), again.counts["i"], again.counts["o"]), (each.text(), 2, 3))


if __name__ == "__main__":
    unittest.main()
