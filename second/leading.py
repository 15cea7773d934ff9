#!/usr/bin/env python3
"""Leads outputs of unlimited networks back to inputs at random: what comes of it has to be unlimited, too.

    leading.py PROGRAM [--count N] [--seed S]

The networks are those that `build` writes for `unlimited` and up to eight inputs and outputs, where no splitter prefers
an edge. Of each that is drawn some outputs that come from splitters are led to as many inputs, so that one of each is
left; the program decides `unlimited` of what comes of it, and the certificate is checked by `check.py`. Where the
first network was balanced or draws evenly, so has to be what comes of it. A line tells of each that isn't, and the last
one of how many there were; it ends with 1 where there is such a one, or where nothing was decided in time."""

import argparse
import random
import subprocess
import sys

sys.dont_write_bytecode = True

import differ
import opinion

SECONDS = 600  # for one run of the program
WISHES = "balanced,unlimited", "drawn-evenly,unlimited", "balanced,drawn-evenly,unlimited"
MOST = 8


def built(program, wish, inputs, outputs):
    """The network that is built for a wish, or None where a splitter of it prefers an edge."""
    words = [program, "build", wish, str(inputs), str(outputs)]
    text = subprocess.run(words, capture_output=True, check=True).stdout.decode()
    prefers = any(it.startswith(("give ", "take ")) for it in text.splitlines())
    return None if prefers else opinion.read_design(text, alone=True)[0]


def led(net, draw):
    """The text of a network of which some outputs are led to as many inputs, and how many these are."""
    sources = {edge.target[1]: edge.start for edge in net.edges if edge.target[0] == "o"}
    outputs = [it for it, start in sources.items() if start[0] == "s"]
    most = min(len(outputs), net.counts["i"] - 1, net.counts["o"] - 1)
    count = draw.randint(1, most)
    pairs = dict(zip(draw.sample(range(net.counts["i"]), count), draw.sample(outputs, count)))
    places = {
        "i": {it: at for at, it in enumerate(k for k in range(net.counts["i"]) if k not in pairs)},
        "o": {it: at for at, it in enumerate(k for k in range(net.counts["o"]) if k not in pairs.values())},
    }
    lines = [f"net {len(places['i'])} {len(places['o'])} {net.counts['s']}"]
    for edge in net.edges:
        if edge.target[0] == "o" and edge.target[1] not in places["o"]:
            continue
        start = sources[pairs[edge.start[1]]] if edge.start[0] == "i" and edge.start[1] in pairs else edge.start
        lines.append(f"edge {named(start, places)} {named(edge.target, places)}")
    return "\n".join([*lines, "end"]) + "\n", count


def named(end, places):
    """The name of an end in what is left."""
    letter, number = end
    return f"{letter}{places.get(letter, {}).get(number, number)}"


def main():
    words = argparse.ArgumentParser(description="Leads outputs of unlimited networks back to inputs at random.")
    words.add_argument("program")
    words.add_argument("--count", type=int, default=100)
    words.add_argument("--seed", type=int, default=1)
    told = words.parse_args()
    differ.SECONDS = SECONDS
    draw, both = random.Random(told.seed), differ.Differ(told.program, None)
    wrong = done = loops = certificates = 0
    while done < told.count:
        wish = draw.choice(WISHES)
        net = built(told.program, wish, draw.randint(2, MOST), draw.randint(2, MOST))
        if net is None:
            continue
        text, count = led(net, draw)
        done, loops = done + 1, loops + count
        for prop in wish.split(","):
            certificate = both.decided(text.encode(), prop)
            if certificate is None or not certificate.startswith(b"yes"):
                wrong += 1
                print(f"not shown to be {prop}, led back from one for {wish}:\n{text}", flush=True)
            else:
                certificates += 1
    wrong += both.wrong
    print(f"{done} networks, {loops} outputs led back, {certificates} certificates, {wrong} not as they should be")
    sys.exit(wrong > 0)


if __name__ == "__main__":
    main()
