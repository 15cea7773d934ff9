"""Measures the rule of ends on designs whose networks are known: the examples, and networks made at random that a
program lays out, each trimmed to its splitters, each with its undergrounds there cut too, and each with one belt
forgotten.

    python3 -B -m collection.tests.measured_ends PROGRAM COUNT

It writes how many are judged as what they are, as another network, and stay open. It stands outside the merge gate."""

import random
import subprocess
import sys
import time
from collections import Counter

from .. import design, ends, strings, trace
from ..books import entries
from . import EXAMPLES, trimming

BALANCERS = EXAMPLES / "balancers" / "book.txt"
STEPS = "4000"
"""How many steps the search for a layout may take."""
MOST_FORGOTTEN = 12
"""How many belts are forgotten of a design, each alone."""


def made(random_, splitters):
    """A network text of so many splitters: each output is reached from each input, and each splitter is passed. None
    where what was drawn isn't so."""
    ports = [at for at in range(splitters) for _ in (0, 1)]
    outs, ins = random_.sample(ports, len(ports)), random_.sample(ports, len(ports))
    between = random_.randint(splitters - 1, 2 * splitters - 1)
    edges = [it for it in zip(outs[:between], ins[:between]) if it[0] != it[1]]
    if len(edges) < between or len(set(edges)) < len(edges) - 1:
        return None
    inputs = [at for at in ins[between:] if random_.random() < 0.7]
    outputs = [at for at in outs[between:] if random_.random() < 0.7]
    if not inputs or not outputs:
        return None
    lines = [f"edge i{k} s{at}" for k, at in enumerate(inputs)]
    lines += [f"edge s{a} s{b}" for a, b in edges]
    lines += [f"edge s{at} o{k}" for k, at in enumerate(outputs)]
    return reached_all(splitters, edges, inputs, outputs) and "\n".join(
        [f"net {len(inputs)} {len(outputs)} {splitters}", *lines, "end\n"]
    )


def reached_all(count, edges, inputs, outputs):
    """Whether each output is reached from each input, and each splitter is passed."""
    reach = [{at} for at in range(count)]
    for _ in range(count):
        for source, target in edges:
            reach[source] |= reach[target]
    entered = set().union(*(reach[at] for at in inputs))
    led = all(set(outputs) & it for it in reach)
    return len(entered) == count and led and all(set(outputs) <= reach[at] for at in inputs)


def laid_out(program, text):
    """A blueprint with this network, or None."""
    words = [program, "smallest", "--found", "--most", "12x12", "--learnt", STEPS]
    told = subprocess.run(words, input=text.encode(), capture_output=True, check=False)
    return told.stdout.decode().partition("\n")[2] if told.returncode == 0 else None


def designs(program, count, seed=1):
    """So many designs with their labels: the examples, and what is laid out."""
    yield from trimming.designs()
    for it in entries(strings.inflate(BALANCERS.read_text("utf-8")).decode())[0]:
        yield "/".join(it.path()), it.text
    random_ = random.Random(seed)
    number = 0
    while number < count:
        text = made(random_, random_.choice((1, 2, 2, 3, 3, 4, 4, 5, 6, 7)))
        blueprint = laid_out(program, text) if text else None
        if blueprint:
            number += 1
            yield f"made {number}, {text.split()[1]} to {text.split()[2]}", blueprint


def told_network(parts, halves=()):
    """What stands at each splitter, and the edges between them, with these bare halves as ends."""
    plan = ends.Plan(parts, (), trace.Layout(parts).network(), trace.bare_ends(parts))
    return plan.told(halves)


def judged(text, pair, truth):
    """What the rule makes of a design: right, wrong or open, each with what it says; and how long it took."""
    parts, begin = design.read(text).parts, time.process_time()
    told = ends.ends_of(parts, (), [pair])
    seconds = time.process_time() - begin
    same = [ends.is_same(*told_network(parts, halves), *truth) for halves in told.choices]
    if told.status in (ends.WHOLE, ends.ALL, ends.ONE):
        return ("right" if same[0] else "wrong"), told.status, seconds
    return ("open, with it" if any(same) else "open"), told.status, seconds


def with_one_forgotten(text, most):
    """A design without one of the belts that lie between two splitters, for so many of them at most."""
    parts, network = trimming.traced(text)
    inner = [it for it in network.edges if it.source[0] == it.target[0] == "s"]
    there = [half.part for edge in inner for _, half in edge.run if parts[half.part].kind == "belt"]
    for at in random.Random(len(text)).sample(there, min(most, len(there))):
        yield trimming.without(text, {parts[at].entity})


def main(program, count):
    trimmed, cut, forgotten, slowest = Counter(), Counter(), Counter(), 0
    for name, text in designs(program, int(count)):
        parts, network = trimming.traced(text)
        pair, truth = (len(network.inputs), len(network.outputs)), told_network(parts)
        if not network.splitters:
            continue
        for counts, undergrounds in ((trimmed, False), (cut, True)):
            word, status, seconds = judged(trimming.trimmed(text, undergrounds), pair, truth)
            counts[word, status] += 1
            slowest = max(slowest, seconds)
            if word == "wrong" or word == "open" and status not in (ends.MANY, ends.GAP):
                print(name, word, status)
        for whole in (text, trimming.trimmed(text)):
            for missing in with_one_forgotten(whole, MOST_FORGOTTEN):
                word, status, _ = judged(missing, pair, truth)
                forgotten[word, status] += 1
                if word in ("right", "wrong"):
                    print(name, "with a belt forgotten:", word, status, missing)
    print(dict(trimmed))
    print("with undergrounds cut:", dict(cut))
    print(dict(forgotten))
    print(f"the slowest took {slowest:.2f} s")


if __name__ == "__main__":
    main(*sys.argv[1:])
