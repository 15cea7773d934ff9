#!/usr/bin/env python3
"""Holds the program and `check.py` against each other on networks whose splitters prefer edges.

    preferring.py PROGRAM [NETWORKS]

It throws so many networks together (2000 where none is told) in which a splitter prefers an edge at least: every other
one as network text, the others as blueprints, half of them an example in which splitters prefer sides by chance. Of
each both must say the same, word for word: the network that `recover` writes, and two states' `flow-check`. What
`decide` says of it is checked by `check.py`. It prints counts and every difference, and ends with 1 where there is one.
The generator is fixed: with one program the networks are always the same."""

import argparse
import random
import re
import sys
from collections import Counter

sys.dont_write_bytecode = True

import opinion
import differ

NETWORKS = 2000
LARGEST = 12000  # bytes of an example's blueprint to which priorities are given
DIRECTION = re.compile(rb'"name":"[a-z-]*splitter"')


def with_sides(chance, blueprint):
    """The blueprint, in which each splitter prefers sides by chance; a few belts are told to, which says nothing."""
    def told(found):
        sides = b"".join(b',"%s":"%s"' % (member.encode(), side) for member in opinion.SIDES
                         for side in [chance.choice((b"left", b"right", b"none", b""))] if side)
        return found[0] + sides

    blueprint = DIRECTION.sub(told, blueprint)
    return blueprint.replace(b'transport-belt"', b'transport-belt","input_priority":"left"', chance.choice((0, 0, 1)))


def thrown(chance, examples, kind):
    """A design, mostly one in which a splitter prefers an edge."""
    if kind == "text":
        return differ.thrown_net(chance)
    return with_sides(chance, chance.choice(examples) if kind == "example" else differ.thrown_blueprint(chance))


def preferred(design):
    """The network of a design in which a splitter prefers an edge, or None."""
    try:
        net = opinion.read_design(design.decode("latin-1"), alone=True)[0]
    except opinion.Answer:
        return None
    return net if any(net.first.values()) else None


def main():
    words = argparse.ArgumentParser(description="Holds the program and check.py against each other on preferences.")
    words.add_argument("program")
    words.add_argument("networks", nargs="?", type=int, default=NETWORKS)
    told = words.parse_args()
    chance, both, networks = random.Random(2), differ.Differ(told.program, None), Counter()
    paths = sorted(differ.EXAMPLES.glob("*.json"))
    examples = [data for data in (path.read_bytes() for path in paths) if b"splitter" in data and len(data) <= LARGEST]
    while sum(networks.values()) < told.networks:
        kind = ("text", "example", "text", "blueprint")[sum(networks.values()) % 4]
        design = thrown(chance, examples, kind)
        net = preferred(design)
        if net is None:
            continue
        networks[kind] += 1
        both.compare(f"{kind} recovered", ["recover"], design)
        text = (net.text() + "\n").encode()
        for prop in chance.sample(opinion.PROPERTIES, 2):
            state = differ.thrown_state(chance, text, prop)
            both.compare(f"{kind} with a state", ["flow-check", prop], design + b"\n" + state)
            both.decided(design + b"\n" * (kind != "text"), prop)
    for counts in networks, both.kinds, both.answers:
        print("\n".join(f"{count:7} {name}" for name, count in sorted(counts.items())) + "\n")
    print(f"{sum(networks.values())} networks with priorities, {sum(both.kinds.values())} inputs, "
          f"{both.wrong} differences, {both.late} runs too long")
    sys.exit(both.wrong > 0)


if __name__ == "__main__":
    main()
