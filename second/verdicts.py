#!/usr/bin/env python3
"""Holds what two programs decide of networks against each other, and against states that are found here.

    verdicts.py PROGRAM OTHER [NETWORKS]

It throws so many networks together (2000 where none is told), of up to eight splitters, with priorities and edges of
all tiers in some: of ends joined by chance, and of butterflies, alone, in a row, with loops, and with targets
exchanged. Of each both programs decide a property: one says yes and the other no of none. What either writes is checked
by `check.py`, and where some loads and rooms of 0 and full give a state that breaks the property, neither says yes.
What is given up is counted alone. It prints counts and every difference, and ends with 1 where there is one. The
generator is fixed."""

import argparse
import random
import subprocess
import sys
from collections import Counter
from fractions import Fraction
from pathlib import Path

sys.dont_write_bytecode = True
sys.path.append(str(Path(__file__).resolve().parent.parent / "bench"))

import differ
import networks
import opinion
import same
import simplest

NETWORKS, SECONDS, STATES = 2000, 10, 4  # and the choices of loads and rooms that are tried
CHECKED = 60000  # bytes of a certificate that is checked here
SPLITTERS = 8
YES, NO = 0, 1  # statuses; others give up


def joined(chance):
    """Ends and up to eight splitters, joined by chance."""
    return same.thrown(chance, chance.randint(1, 4), chance.randint(1, 4), SPLITTERS)


def staged(chance):
    """A butterfly of four lines, or two in a row, with so many lines led back, and maybe with targets exchanged."""
    one = chance.choice((networks.butterfly, networks.doubled))(2)
    one = networks.looped(one, chance.choice((4, 4, 3, 2)))
    return networks.exchanged(one, chance.random()) if chance.random() < 0.4 else one


def with_tiers(chance, text):
    """The network's text with tiers of its edges by chance."""
    tiers = chance.choice((("",), ("",), ("", " 2"), ("", " 2", " 3", " 4")))
    return [line + chance.choice(tiers) if line.startswith("edge") else line for line in text.splitlines()]


def thrown(chance):
    """A network text: its kind, and its lines."""
    kind = chance.choice((joined, staged))
    head, *edges, end = with_tiers(chance, networks.renumbered(kind(chance).text(), chance.randrange(1, 1 << 30)))
    first = differ.thrown_priorities(chance, int(head.split()[3]), edges) if chance.random() < 0.4 else []
    kind = f"{kind.__name__}{' with priorities' if first else ''}"
    return kind, "\n".join([head, *edges, *first, end, ""])


def is_broken(chance, net, prop):
    """Whether one of some choices of loads and rooms gives a state that breaks the property."""
    caps = [[net.edges[e].cap for e in edges] for edges in simplest.ends_of(net)]
    full = prop in opinion.FULL_LOADS, prop in opinion.FULL_ROOMS
    for _ in range(1 if all(full) else STATES):
        loads, rooms = (
            [Fraction(cap if whole else cap * chance.randrange(2)) for cap in some] for some, whole in zip(caps, full)
        )
        if simplest.passes(net, prop, loads, rooms, *simplest.state_of(net, loads, rooms)):
            return True
    return False


class Verdicts:
    """Two programs, and what was counted."""

    def __init__(self, programs):
        self.programs, self.told, self.wrong = programs, Counter(), 0

    def fail(self, what, prop, text):
        self.wrong += 1
        print(f"{what}, {prop}:\n{text}", flush=True)

    def decide(self, program, prop, text):
        """What a program answers; None where it takes too long."""
        try:
            ran = subprocess.run(
                [program, "decide", prop], input=text.encode(), stdout=subprocess.PIPE, timeout=SECONDS, check=False
            )
        except subprocess.TimeoutExpired:
            return None, b""
        return ran.returncode, ran.stdout

    def check(self, name, prop, text, status, written):
        """A yes or a no is one by `check.py` too."""
        if status not in (YES, NO) or len(written) > CHECKED:
            self.told[f"{name}: {'not checked here' if status in (YES, NO) else f'given up {status}'}"] += 1
            return
        data = text.encode() + written
        answer = opinion.run(["check", prop], lambda most: data[:most], {}.__getitem__)
        wanted = (status, f"{'yes' if status == YES else 'no'} {prop}\n")
        self.told[f"{name}: {'yes' if status == YES else 'no'}"] += 1
        if any(line[:2] in ("p ", "c ", "v ") for line in written.decode("latin-1").splitlines()):
            self.told[f"{name}: yes with definitions"] += 1
        if answer != wanted:
            self.fail(f"{name} answers {status}, and check.py {answer}", prop, text)

    def compare(self, chance, kind, text, prop):
        """One network and one property."""
        try:
            net = opinion.read_net(text)[0]
        except opinion.Answer:
            self.told["refused"] += 1
            return
        self.told[kind] += 1
        statuses = []
        for name, program in zip(("one", "other"), self.programs):
            status, written = self.decide(program, prop, text)
            self.check(name, prop, text, status, written)
            statuses.append(status)
        if set(statuses) >= {YES, NO}:
            self.fail(f"one answers {statuses[0]} and the other {statuses[1]}", prop, text)
        if YES in statuses and is_broken(chance, net, prop):
            self.fail("a state breaks what has a yes", prop, text)


def main():
    words = argparse.ArgumentParser(description="Holds what two programs decide against each other.")
    words.add_argument("program")
    words.add_argument("other")
    words.add_argument("networks", nargs="?", type=int, default=NETWORKS)
    told = words.parse_args()
    chance, verdicts = random.Random(6), Verdicts((told.program, told.other))
    for _ in range(told.networks):
        verdicts.compare(chance, *thrown(chance), chance.choice(opinion.PROPERTIES))
    print("\n".join(f"{count:7} {name}" for name, count in sorted(verdicts.told.items())))
    print(f"{told.networks} networks, {verdicts.wrong} differences")
    sys.exit(verdicts.wrong > 0)


if __name__ == "__main__":
    main()
