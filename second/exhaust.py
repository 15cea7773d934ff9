#!/usr/bin/env python3
"""Holds `layout` against a list of all layouts of small grids.

    exhaust.py PROGRAM [REQUESTS] [--cells N] [--seconds N]

It lists every layout of at most three splitters, inputs and outputs in some grids of at most ten cells, and makes so
many requests for these grids (5000 where none is told): networks of listed layouts and networks that are thrown
together, with preferred edges, pins, directions, sides, rows and blocks. Which edges are preferred doesn't tell whether
there is a layout, but what is written must prefer them. The program must find a layout exactly where one is listed.
What it finds must lay the request by `check.py` and be read back by `recover`; a certificate that there is none must be
accepted. How many with one changed number are still accepted, and how many refused, it counts. It prints how many it
compared, and ends with 1 where one is wrong. It writes nothing. With `--cells` it leaves out grids of more cells, whose
lists take most of its time, and with `--seconds` it begins no request after so many."""

import argparse
import random
import re
import subprocess
import sys
import time
from collections import Counter, defaultdict
from itertools import permutations, product

sys.dont_write_bytecode = True

import opinion
from opinion import BELT, ENTRANCE, EXIT, SPLITTER, STEPS, WAYS, Answer, Part

GRIDS = (1, 1), (1, 2), (2, 1), (1, 4), (3, 1), (2, 2), (2, 3), (3, 2), (2, 4), (4, 2), (3, 3), (2, 5), (5, 2)
REQUESTS, MOST = 5000, 3  # and the most splitters, inputs and outputs
HALVES = "lesser", "greater"
NUMBER = re.compile(rb"-?[0-9]+")


# ---- All layouts of a grid. A content is None, or a kind and a direction; cells are taken row by row. ----
CONTENTS = [None] + [(kind, way) for kind in (BELT, ENTRANCE, EXIT, *HALVES) for way in range(4)]


def looks(content, way):
    """Whether a part on a cell hands on in this direction, or would."""
    return content is not None and content[1] == way and content[0] != ENTRANCE


def takes(content, way):
    """Whether a part on a cell takes what comes to it in this direction."""
    if content is None or content[0] == EXIT:
        return False
    return content[1] != (way + 2) % 4 if content[0] == BELT else content[1] == way


def is_heard(giver, taker, way):
    """Whether the cell behind a giver may hold this; the half of a splitter may face nothing."""
    return not looks(giver, way) or takes(taker, way) or taker is None and giver[0] in HALVES


# From west to east, and from north to south, the pieces of one axis come in pairs: what stands first and what closes
# it.
CLOSERS = {(ENTRANCE, 1): (EXIT, 1), (EXIT, 3): (ENTRANCE, 3), (ENTRANCE, 2): (EXIT, 2), (EXIT, 0): (ENTRANCE, 0)}


def side_of(letter, way):
    """The side across which an end at the border comes in or leaves, where it is turned this way."""
    return way if letter == "o" else (way + 2) % 4


def is_at(pin, cell, way):
    """Whether an end on this cell, turned this way, is where the pin or the side has it."""
    return pin.dir == side_of(pin.end[0], way) if pin.cell is None else pin.cell == cell and pin.dir in (None, way)


class Listing:
    """The layouts of a grid, by their networks."""

    def __init__(self, width, height):
        self.width, self.height = width, height
        self.at, self.count = {}, 0
        self.opened = {}  # by axis and by row or column, the piece that waits for its mate
        self.groups = defaultdict(lambda: defaultdict(set))  # network: ends on their cells: masks of taken cells
        self.place(0, 0, 0)

    def content(self, x, y):
        return self.at.get((x, y))

    def is_inside(self, x, y):
        return 0 <= x < self.width and 0 <= y < self.height

    def place(self, number, splitters, outputs):
        """Goes through the contents of the cell with this number and of all behind it."""
        if number == self.width * self.height:
            if self.is_fed(self.width - 1, self.height - 1):
                self.add()
            return
        x, y = number % self.width, number // self.width
        for content in CONTENTS:
            more = content is not None and content[0] == "lesser"
            out = (content is not None and content[0] in (BELT, EXIT)
                   and not self.is_inside(*opinion.moved((x, y), content[1])))
            if splitters + more > MOST or outputs + out > MOST or not self.has_mate(x, y, content):
                continue
            lines = (1, y), (0, x)
            before = [self.opened.get(line) for line in lines]
            self.at[x, y] = content
            if self.fits(x, y, content) and self.is_done(x, y) and self.is_paired(x, y, content):
                self.place(number + 1, splitters + more, outputs + out)
            del self.at[x, y]
            self.opened.update(zip(lines, before))

    def has_mate(self, x, y, content):
        """Whether the halves of splitters before this cell have their mates, and this one may have one."""
        west, north = self.content(x - 1, y), self.content(x, y - 1)
        for near, across in (west, 0), (north, 1):
            wanted = near is not None and near[0] == "lesser" and near[1] % 2 == across
            found = (content is not None and content[0] == "greater" and content[1] % 2 == across)
            if wanted != found or wanted and content[1] != near[1]:
                return False
        if content is not None and content[0] == "lesser":
            return self.is_inside(*((x + 1, y) if content[1] % 2 == 0 else (x, y + 1)))
        return True

    def fits(self, x, y, content):
        """Whether what looks at the cell from the west and north is taken, and what is there is taken there."""
        west, north = (x - 1, y), (x, y - 1)
        return all(not self.is_inside(*near) or is_heard(self.at[near], content, way)
                   and is_heard(content, self.at[near], (way + 2) % 4)
                   for near, way in ((west, 1), (north, 2)))

    def is_done(self, x, y):
        """Whether the cells of which all beside are known by now are fed as they must be."""
        done = [(x, y - 1)] if y else []
        if y == self.height - 1 and x:
            done.append((x - 1, y))
        return all(self.is_fed(*cell) for cell in done)

    def is_paired(self, x, y, content):
        """Whether pieces up to this cell come in pairs, with room behind it for those that wait."""
        if content is not None and content[0] in (ENTRANCE, EXIT):
            line = (1, y) if content[1] % 2 else (0, x)
            waits = self.opened.get(line)
            if content not in CLOSERS if waits is None else CLOSERS[waits] != content:
                return False
            self.opened[line] = content if waits is None else None
        return (not (x == self.width - 1 and self.opened.get((1, y)))
                and not (y == self.height - 1 and self.opened.get((0, x))))

    def feeders(self, x, y):
        content = self.content(x, y)
        return sum(looks(self.content(x - dx, y - dy), way) and takes(content, way)
                   for way, (dx, dy) in enumerate(STEPS))

    def is_fed(self, x, y):
        """Whether at most one part hands to the cell, and none only where an input may begin."""
        content = self.content(x, y)
        if content is None or content[0] == EXIT:
            return True
        fed = self.feeders(x, y)
        if fed or content[0] in HALVES:
            return fed <= 1
        return not self.is_inside(*opinion.moved((x, y), (content[1] + 2) % 4))

    def add(self):
        """Adds the layout, where it has a network of few ends, all of them at the border."""
        kinds = {"lesser": SPLITTER}
        parts = [Part(kinds.get(content[0], content[0]), 0, content[1], cell, None, None)
                 for cell, content in self.at.items() if content is not None and content[0] != "greater"]
        try:
            net, firsts, lasts = opinion.recover(parts)
        except Answer:
            return
        ends = [*((part, -1) for part in firsts), *((part, 1) for part in lasts)]
        if max(len(firsts), len(lasts)) > MOST or any(
                self.is_inside(*opinion.moved(part.cell, part.dir, by)) for part, by in ends):
            return
        self.count += 1
        mask = sum(1 << (x + self.width * y) for (x, y), content in self.at.items() if content is not None)
        spots = tuple((part.cell, part.dir) for part in firsts), tuple((part.cell, part.dir) for part in lasts)
        self.groups[shape(net)][spots, edges_by(net)].add(mask)

    def has(self, net, pins, rows, blocks):
        """Whether a layout is listed that lays the request."""
        blocked = sum(1 << (x + self.width * y) for x, y in blocks)
        wanted = {pin.end: pin for pin in pins}

        def stand(letter, order, spots):
            return all(pin is None or is_at(pin, *spots[spot])
                       for pin, spot in ((wanted.get((letter, number)), spot) for number, spot in enumerate(order)))

        for ((firsts, lasts), edges), masks in self.groups.get(shape(net), {}).items():
            if all(mask & blocked for mask in masks):
                continue
            if not all(
                opinion.stand_in_row([cell for cell, _ in (firsts if row.letter == "i" else lasts)]) for row in rows
            ):
                continue
            for inputs in permutations(range(len(firsts))):
                if stand("i", inputs, firsts) and any(
                        stand("o", outputs, lasts) and edges_by(net, inputs, outputs) == edges
                        for outputs in permutations(range(len(lasts)))):
                    return True
        return False


def edges_by(net, inputs=None, outputs=None):
    """The edges by new numbers of the ends, and by the numbers of splitters that make the list the least."""
    counts = net.counts
    ends = {"i": inputs or range(counts["i"]), "o": outputs or range(counts["o"])}

    def named(splitters):
        new = {**ends, "s": splitters}
        return sorted((e.start[0], new[e.start[0]][e.start[1]], e.target[0], new[e.target[0]][e.target[1]])
                      for e in net.edges)

    return tuple(min(named(splitters) for splitters in permutations(range(counts["s"]))))


def shape(net):
    """What networks that differ in names alone have in common."""
    return (net.counts["i"], net.counts["o"],
            min(edges_by(net, inputs, outputs) for inputs in permutations(range(net.counts["i"]))
                for outputs in permutations(range(net.counts["o"]))))


# ---- Requests. ----
def thrown_net(chance):
    """A network of few splitters and ends, in which every splitter has an edge on either side."""
    while True:
        inputs, outputs, splitters = chance.randint(1, MOST), chance.randint(1, MOST), chance.randint(0, MOST)
        starts = [("i", n) for n in range(inputs)] + [
            ("s", n) for n in range(splitters) for _ in range(chance.randint(1, 2))
        ]
        targets = [("o", n) for n in range(outputs)] + [
            ("s", n) for n in range(splitters) for _ in range(chance.randint(1, 2))
        ]
        if len(starts) == len(targets):
            chance.shuffle(targets)
            return network(inputs, outputs, splitters, zip(starts, targets))


def network(inputs, outputs, splitters, ends):
    net = opinion.Net(inputs, outputs, splitters)
    for start, target in ends:
        net.add(opinion.Edge(start, target, 1))
    return net


def listed_net(chance, listing):
    """The network of some listed layout, and pins of some of its ends where they stand there."""
    groups = listing.groups[chance.choice(list(listing.groups))]
    (firsts, lasts), edges = chance.choice(list(groups))
    splitters = len({number for e in edges for letter, number in (e[:2], e[2:]) if letter == "s"})
    net = network(len(firsts), len(lasts), splitters, [((e[0], e[1]), (e[2], e[3])) for e in edges])
    spots = dict(zip(net.ends("i") + net.ends("o"), firsts + lasts))
    ends = chance.sample(list(spots), chance.randint(0, len(spots)))
    pins = [opinion.Pin(end, spots[end][0], chance.choice((None, spots[end][1])), 0) for end in ends]
    sides = [opinion.Pin(end, None, side_of(end[0], spots[end][1]), 0) for end in ends]
    return net, [chance.choice((pin, pin, side)) for pin, side in zip(pins, sides)]


def thrown_pins(chance, net, cells):
    """Pins of some ends on cells, each turned some way or any, and sides of some."""
    ends = chance.sample(net.ends("i") + net.ends("o"), chance.choice((0, 0, 1, 2)))
    return [opinion.Pin(end, None, chance.randrange(4), 0) if chance.random() < 0.4 else
            opinion.Pin(end, chance.choice(cells), chance.choice((None, *range(4))), 0) for end in ends]


def prefer(chance, net):
    """Lets some splitters prefer an edge out of them, or into them."""
    for word, near in (("give", net.outs), ("take", net.ins)):
        for end in net.ends("s"):
            if near[end] and chance.random() < 0.5:
                net.first[word][end[1]] = chance.choice(near[end])


def thrown_request(chance, listing):
    """A network, maybe with preferred edges, with pins, rows and blocked cells."""
    cells = list(product(range(listing.width), range(listing.height)))
    net, pins = listed_net(chance, listing) if chance.random() < 0.6 else (thrown_net(chance), [])
    if chance.random() < 0.3 or not pins:
        pins = thrown_pins(chance, net, cells)
    if chance.random() < 0.4:
        prefer(chance, net)
    rows = [opinion.Row(letter, 0) for letter in chance.choice(("", "", "", "i", "o", "io"))]
    free = [cell for cell in cells if cell not in {pin.cell for pin in pins}]
    return net, pins, rows, chance.sample(free, min(len(free), chance.choice((0, 0, 0, 1, 1, 2))))


def request_text(net, pins, rows, blocks):
    lines = net.text().split("\n")[:-1]
    lines += ["side {}{} {}".format(*pin.end, WAYS[pin.dir]) if pin.cell is None else
              "pin {}{} {} {}".format(*pin.end, *pin.cell) + (f" {WAYS[pin.dir]}" if pin.dir is not None else "")
              for pin in pins]
    lines += ["row inputs" if row.letter == "i" else "row outputs" for row in rows]
    return "\n".join(lines + ["block {} {}".format(*cell) for cell in blocks] + ["end", ""])


# ---- Comparing. ----
def kind_of(net, pins, rows):
    """Whether a request has pins on cells, sides, both, or none of them; rows; and preferred edges."""
    sides = sum(pin.cell is None for pin in pins)
    kind = "free" if not pins else "pins" if not sides else "sides" if sides == len(pins) else "pins and sides"
    return kind + " rows" * bool(rows) + " preferring" * any(net.first.values())


class Comparing:
    def __init__(self, program):
        self.program, self.told, self.wrong = program, Counter(), 0

    def run(self, words, data):
        ran = subprocess.run([self.program, *words], input=data, capture_output=True, check=False)
        return ran.returncode, ran.stdout

    def fail(self, what, options, text):
        self.wrong += 1
        print(f"{what}: layout {' '.join(options)}\n{text}")

    def compare(self, chance, listing, net, pins, rows, blocks):
        """One request: what the program answers, and what is listed."""
        options = ["--grid", f"{listing.width}x{listing.height}"]
        text = request_text(net, pins, rows, blocks)
        listed, (status, written) = listing.has(net, pins, rows, blocks), self.run(["layout", *options], text.encode())
        self.told[f"{kind_of(net, pins, rows)} {'blocks' if blocks else 'clear'} {status}"] += 1
        if status != (0 if listed else 1):
            self.fail(f"status {status}, {'some' if listed else 'none'} listed", options, text)
        elif listed:
            self.found(options, text, written, listing)
        else:
            self.refuted(chance, options, text, written)

    def found(self, options, text, written, listing):
        """The written blueprint lays the request, and `recover` reads a network of as many parts of it."""
        request = opinion.read_request(text, listing.width, listing.height)
        parts = opinion.parts_of(opinion.json_value(written.decode("latin-1"), 0)[0], True)
        status, shown = self.run(["recover"], written)
        again = opinion.read_net(shown.decode("latin-1"))[0] if status == 0 else None
        if not opinion.lays(*request, listing.width, listing.height, 0, parts) or again is None or shape(
            again
        ) != shape(request[0]):
            self.fail("a layout of another request", options, text)

    def refuted(self, chance, options, text, written):
        """The certificate is accepted; whether it is with one changed number is counted."""
        if self.run(["check-layout", *options], text.encode() + written)[0] != 1:
            self.fail("a certificate that is not accepted", options, text)
        places = list(NUMBER.finditer(written))
        if not places:
            return
        place = chance.choice(places)
        changed = str(int(place[0]) + chance.choice((-2, -1, 1, 2))).encode()
        status, _ = self.run(
            ["check-layout", *options], text.encode() + written[:place.start()] + changed + written[place.end():]
        )
        self.told[f"changed number {status}"] += 1


def main():
    words = argparse.ArgumentParser(description="Holds layout against a list of all layouts of small grids.")
    words.add_argument("program")
    words.add_argument("requests", nargs="?", type=int, default=REQUESTS)
    words.add_argument("--cells", type=int, default=10)
    words.add_argument("--seconds", type=int)
    told = words.parse_args()
    begin, chance, comparing, count = time.monotonic(), random.Random(1), Comparing(told.program), 0
    listings = []
    for width, height in GRIDS:
        if width * height <= told.cells:
            listings.append(Listing(width, height))
            print(f"{width}x{height}: {listings[-1].count} layouts of {len(listings[-1].groups)} networks", flush=True)
    while count < told.requests and (told.seconds is None or time.monotonic() < begin + told.seconds):
        listing = listings[min(chance.randrange(len(listings) + 6), len(listings) - 1)]
        comparing.compare(chance, listing, *thrown_request(chance, listing))
        count += 1
    print("\n".join(f"{number:7} {name}" for name, number in sorted(comparing.told.items())))
    print(f"{count} requests compared, {comparing.wrong} wrong")
    sys.exit(comparing.wrong > 0)


if __name__ == "__main__":
    main()
