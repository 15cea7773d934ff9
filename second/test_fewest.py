"""Tests of opinion/fewest.py: evidence that 2 to 3 takes four splitters, and what is refused of it."""

import sys
import unittest
from pathlib import Path

sys.dont_write_bytecode = True
sys.path.insert(0, str(Path(__file__).resolve().parent))

from opinion.answers import Answer
from opinion.fewest import check

BOTH, ALL = ["balanced", "full"], ["balanced", "drawn-evenly", "full"]
SMALLER = ["none 0", "end", "none 1", "end", "none 2", "c 1 F 0 0 -1", "c 13 F 0 0 -1", "end"]
THREE = ["none 3", *(f"c {number} F 0 0 -1" for number in (1, 8, 13, 15, 16))]
THREE += ["i 0", "X 0 0 1", "F 0 0 -1 2 -2", "i 0", "X 0 0 2 1 1", "X 0 0 1", "i 0", "X 0 0 2 1 1", "end"]


def answer(lines, wish=tuple(ALL), inputs=2, outputs=3):
    try:
        return check(wish, inputs, outputs, "".join(f"{line}\n" for line in lines))
    except Answer as refused:
        return refused.text.strip()


def changed(number, line):
    return SMALLER + THREE[: number - 1] + [line] + THREE[number:]

# one to three, of three splitters: the network that is balanced lets too little through where outputs are blocked
BLOCKED = """none 0
end
none 1
c 0 F 0 0 -1
c 1 F 0 0 -1
c 6 F 0 0 -1
c 8 F 0 0 -1
c 12 F 0 0 -1
c 13 F 0 0 -1
c 15 F 0 0 -1
c 16 F 0 0 -1
end
none 2
c 0 F 0 0 -1
c 1 F 0 0 -1
c 6 F 0 0 -1
c 8 F 0 0 -1
c 12 F 0 0 -1
c 13 F 0 0 -1
c 15 F 0 0 -1
c 16 F 0 0 -1
end
none 3
c 0 F 0 0 -1
c 1 F 0 0 -1
c 6 F 0 0 -1
c 8 F 0 0 -1
c 12 F 0 0 -1
c 13 F 0 0 -1
c 15 F 0 0 -1
c 16 F 0 0 -1
i 1
X 0 0 1 1 2
X 0 1 1
i 1
X 0 0 1 1 2
i 0
X 0 0 1
i 1
i 2
N
no unlimited
load 1
room 0 0 1
flow 1/2 0 0 1/2 1/2 0 1
mark b b b f f b f
end
""".splitlines()


class Evidence(unittest.TestCase):
    def test_accepted(self):
        for wish in (ALL, BOTH):
            self.assertEqual(answer(SMALLER + THREE, wish), "none below 4")
        self.assertEqual(answer(SMALLER + THREE + ["", " "]), "none below 4")
        self.assertEqual(answer(SMALLER + ["net 2 3", "x" * 5000]), "none below 3")
        self.assertEqual(answer([], ALL, 1, 1), "none below 0")

    def test_refused(self):
        line = "refused 50 CertLine"
        self.assertEqual(answer(changed(8, "X 0 0 -1")), "refused 55 NotRefuted 16")
        self.assertEqual(answer(THREE), f"{line} 1")
        self.assertEqual(answer((SMALLER + THREE)[:-2] + ["end"]), f"{line} 22")
        self.assertEqual(answer(changed(7, "o 0")), f"{line} 15")
        for weight in ("0", "1/2", "1000001"):
            self.assertEqual(answer(changed(8, f"X 0 0 {weight}")), f"{line} 16")
        self.assertEqual(answer(changed(8, "B 0 0 1"), BOTH), f"{line} 16")
        self.assertEqual(answer(["none 0", "end"], ALL, 1, 1), f"{line} 1")

    def test_states(self):
        wish = ["balanced", "drawn-evenly", "unlimited"]
        self.assertEqual(answer(BLOCKED, wish, 1, 3), "none below 4")
        unlike = [line.replace("room 0 0 1", "room 0 0 0") for line in BLOCKED]
        self.assertEqual(answer(unlike, wish, 1, 3).split()[:3], ["refused", "54", "NotBreaking"])


if __name__ == "__main__":
    unittest.main()
