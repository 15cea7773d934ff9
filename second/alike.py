#!/usr/bin/env python3
"""Holds what is said of layouts of one request under other names against each other.

    alike.py PROGRAM [--requests N] [--great N] [--namings K]

It makes so many requests by chance (200 where none is told), every other one with sides, and of each so many more texts
(10): with its ends, splitters and edges named anew by chance. Of all texts of a request the first layout must be found
in the same grid, or none of any, by `layout` through the grids of at most 3x3 cells in the order of `smallest`; what it
finds must lay its own text by `check.py`. Without sides `smallest` is asked, and `layout` of the first text. What is
given up is counted alone, and compared with nothing. Of so many more requests (`--great`, 0) for one grid of 16 to 144
cells, with up to eight splitters, a layout must be found under all names or under none; and where the structure of a
network tells each of its splitters and ends from all others, all layouts must be the same, part by part. It prints
counts and every difference, and ends with 1 where there is one. The generator is fixed: with one program the requests
are always the same."""

import argparse
import random
import subprocess
import sys
from collections import Counter
from itertools import product

sys.dont_write_bytecode = True

import opinion
from exhaust import network, request_text, thrown_net
from opinion.layouts import refined_colours

REQUESTS, NAMINGS = 200, 10
WIDTH, HEIGHT = 3, 3
GRIDS = sorted(product(range(1, WIDTH + 1), range(1, HEIGHT + 1)), key=lambda grid: (grid[0] * grid[1], grid[0]))
LEARNT = "20000"  # steps of one search
GREAT, ENDS, ACROSS = 8, 4, (4, 12)  # the most splitters and ends, and the least and greatest width, of a great request
FOUND, NONE, GIVEN_UP = 0, 1, (4, 5)  # statuses


def thrown_request(chance, has_sides):
    """A network, and where it has sides, sides of some of its ends, mostly the same of all inputs or of all outputs."""
    net = thrown_net(chance)
    ends = [*net.ends("i"), *net.ends("o")]
    if not has_sides:
        return net, []
    usual = {letter: chance.randrange(4) for letter in "io"}
    chosen = [end for end in ends if chance.random() < 0.7] or [chance.choice(ends)]
    ways = [usual[end[0]] if chance.random() < 0.8 else chance.randrange(4) for end in chosen]
    return net, [opinion.Pin(end, None, way, 0) for end, way in zip(chosen, ways)]


def great_request(chance):
    """A network of more splitters, mostly with two edges into each and two out of it, its sides and its grid."""
    while True:
        inputs, outputs, splitters = chance.randint(1, ENDS), chance.randint(1, ENDS), chance.randint(1, GREAT)
        ends = [[("s", number) for number in range(splitters) for _ in range(chance.choice((1, 2, 2)))] for _ in "io"]
        starts, targets = (
            [(letter, number) for number in range(count)] + list(near)
            for letter, count, near in zip("io", (inputs, outputs), ends)
        )
        if len(starts) == len(targets):
            net = network(inputs, outputs, splitters, zip(starts, chance.sample(targets, len(targets))))
            has_sides = chance.random() < 0.4
            sides = [*zip(net.ends("i"), [2] * inputs), *zip(net.ends("o"), [0] * outputs)] * has_sides
            pins = [opinion.Pin(end, None, way, 0) for end, way in sides]
            return net, pins, [chance.randint(*ACROSS) for _ in "xy"]


def are_told_apart(net, pins):
    """Whether the structure tells each splitter and end from all others, and no two edges have both ends in common."""
    colours = {end: end[0] for letter in "ios" for end in net.ends(letter)}
    colours |= {pin.end: f"{pin.end[0]}{pin.dir}" for pin in pins}
    refined, _ = refined_colours((net, net), (colours, colours))
    joined = {(edge.start, edge.target) for edge in net.edges}
    return len(set(refined.values())) == len(refined) and len(joined) == len(net.edges)


def named_anew(chance, net, pins):
    """The same request, with other numbers of its ends, splitters, edges and pins by chance."""
    numbers = {letter: chance.sample(range(count), count) for letter, count in net.counts.items()}
    new = lambda end: (end[0], numbers[end[0]][end[1]])
    edges = [(new(edge.start), new(edge.target)) for edge in net.edges]
    named = network(*(net.counts[letter] for letter in "ios"), chance.sample(edges, len(edges)))
    return named, [pin._replace(end=new(pin.end)) for pin in chance.sample(pins, len(pins))]


class Alike:
    """The program, and what was counted."""

    def __init__(self, program):
        self.program, self.told, self.wrong = program, Counter(), 0

    def run(self, words, text):
        command = [self.program, *words, "--learnt", LEARNT]
        ran = subprocess.run(command, input=text.encode(), stdout=subprocess.PIPE, check=False)
        return ran.returncode, ran.stdout.decode("latin-1")

    def fail(self, what, text):
        self.wrong += 1
        print(f"{what}:\n{text}", flush=True)

    def least(self, text):
        """The first grid in which a layout is found, or none of all; None where a search is given up."""
        for width, height in GRIDS:
            status, written = self.run(["layout", "--grid", f"{width}x{height}"], text)
            self.told[f"layout {status}"] += 1
            if status == FOUND:
                request = opinion.read_request(text, width, height)
                parts = opinion.parts_of(opinion.json_value(written, 0)[0], True)
                if not opinion.lays(*request, width, height, 0, parts):
                    self.fail(f"a layout in {width}x{height} of another request", text)
                return f"{width}x{height}"
            if status != NONE:
                if status not in GIVEN_UP:
                    self.fail(f"status {status} in {width}x{height}", text)
                return None
        return "none"

    def smallest(self, text):
        """The grid of the least layout by `smallest`, or none; None where a search is given up."""
        status, written = self.run(["smallest", "--most", f"{WIDTH}x{HEIGHT}"], text)
        self.told[f"smallest {status}"] += 1
        if status == FOUND:
            return [line.split()[1] for line in written.splitlines() if line.startswith("grid ")][-1]
        if status not in (NONE, *GIVEN_UP):
            self.fail(f"status {status} of smallest", text)
        return "none" if status == NONE else None

    def great(self, chance, net, pins, grid, namings):
        """One request for one grid under so many more names."""
        named = [(net, pins), *(named_anew(chance, net, pins) for _ in range(namings))]
        words, kind = ["layout", "--grid", "{}x{}".format(*grid)], "found"
        answers = []
        for text in (request_text(*names, [], []) for names in named):
            answers.append(self.run(words, text))
            if answers[-1][0] in GIVEN_UP:
                break
        statuses, is_one = {status for status, _ in answers}, len({written for _, written in answers}) == 1
        if statuses.intersection(GIVEN_UP):
            kind = "given up"
        elif len(statuses) > 1 or statuses == {FOUND} and not is_one and are_told_apart(net, pins):
            kind = "different"
            self.fail("{}x{}, under other names not the same".format(*grid), request_text(net, pins, [], []))
        elif statuses == {FOUND}:
            kind = "found, one layout" if is_one else "found"
        else:
            kind = f"status {statuses.pop()}"
        self.told[f"great requests, {kind}"] += 1

    def compare(self, chance, net, pins, namings):
        """One request under so many more names."""
        named = [(net, pins), *(named_anew(chance, net, pins) for _ in range(namings))]
        texts = [request_text(*names, [], []) for names in named]
        answers = [self.least(text) for text in (texts if pins else texts[:1])]
        answers += [] if pins else [self.smallest(text) for text in texts]
        said = {answer for answer in answers if answer}
        self.told["given up"] += answers.count(None)
        self.told["answers"] += len(answers)
        kind = "with sides" if pins else "without sides"
        self.told[f"requests {kind}, {'none' if said == {'none'} else 'found' if said else 'given up'}"] += 1
        if len(said) > 1:
            self.fail(f"{kind}, not one answer: {' '.join(map(str, answers))}", "\n".join(texts))


def held(program, requests, namings, great=0):
    """The counts of so many requests under so many names, and of so many great ones."""
    chance, alike = random.Random(3), Alike(program)
    for number in range(requests):
        alike.compare(chance, *thrown_request(chance, number % 2 == 1), namings)
    chance = random.Random(4)
    for _ in range(great):
        alike.great(chance, *great_request(chance), namings)
    return alike


def main():
    words = argparse.ArgumentParser(description="Holds layouts of one request under other names against each other.")
    words.add_argument("program")
    words.add_argument("--requests", type=int, default=REQUESTS)
    words.add_argument("--great", type=int, default=0)
    words.add_argument("--namings", type=int, default=NAMINGS)
    told = words.parse_args()
    alike = held(told.program, told.requests, told.namings, told.great)
    print("\n".join(f"{count:7} {name}" for name, count in sorted(alike.told.items())))
    print(f"{told.requests + told.great} requests under {told.namings} more names each, {alike.wrong} differences")
    sys.exit(alike.wrong > 0)


if __name__ == "__main__":
    main()
