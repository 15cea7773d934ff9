#!/usr/bin/env python3
"""Looks whether networks that are turned around have the verdicts turned around.

    turned.py PROGRAM [NETWORKS]

It throws so many networks together (300 where none is told), with priorities and tiers, and turns each around: its
edges lead the other way, its inputs are outputs and its outputs inputs, and what splitters gave first they take first.
Of each the program decides `fair` and `drawn-fairly`; what it says is checked by `check.py`, and must be what it says
of the other property of the turned network. It prints counts and every difference, and ends with 1 where there is one.
The generator is fixed."""

import argparse
import random
import sys

sys.dont_write_bytecode = True

import opinion
import verdicts

NETWORKS = 300
OTHER = {"fair": "drawn-fairly", "drawn-fairly": "fair"}
ENDS = {"i": "o", "o": "i", "s": "s"}
FIRST = {"give": "take", "take": "give"}


def turned(text):
    """The text of a network, turned around."""
    lines = []
    for line in text.splitlines():
        word, *words = line.split(" ")
        if word == "net":
            words[0], words[1] = words[1], words[0]
        elif word == "edge":
            words[:2] = [ENDS[end[0]] + end[1:] for end in words[1::-1]]
        lines.append(" ".join([FIRST.get(word, word), *words]))
    order = {"give": 1, "take": 2, "end": 3}
    return "\n".join(sorted(lines, key=lambda line: order.get(line.split(" ")[0], 0))) + "\n"


def main():
    words = argparse.ArgumentParser(description="Holds networks that are turned around against each other.")
    words.add_argument("program")
    words.add_argument("networks", nargs="?", type=int, default=NETWORKS)
    told = words.parse_args()
    chance, held = random.Random(7), verdicts.Verdicts((told.program, told.program))
    for _ in range(told.networks):
        _, text = verdicts.thrown(chance)
        try:
            opinion.read_net(text)
        except opinion.Answer:
            continue
        for prop, other in OTHER.items():
            both = [(prop, text), (other, turned(text))]
            statuses = []
            for name, net in both:
                status, written = held.decide(told.program, name, net)
                held.check("one", name, net, status, written)
                statuses.append(status)
            if {*statuses} == {verdicts.YES, verdicts.NO}:
                held.fail(f"{prop} is {statuses[0]}, and {other} turned around {statuses[1]}", prop, text)
    print("\n".join(f"{count:7} {name}" for name, count in sorted(held.told.items())))
    print(f"{told.networks} networks, {held.wrong} differences")
    sys.exit(held.wrong > 0)


if __name__ == "__main__":
    main()
