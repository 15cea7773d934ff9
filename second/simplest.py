#!/usr/bin/env python3
"""Holds the states in which properties fail against a count of its own: which loads and rooms of 0 and full break them.

    simplest.py [PROGRAM]

For each example's network and property that fails it takes the state that lies beside it, or where a program is named
the one that `decide` writes now. Each must pass every test of `check.py`. Where some of its loads and rooms are neither
0 nor full, no state may be found here that has none such: all choices of 0 and full are tried where at most ten ends
may be less, else as many as there are windows of neighbouring ends. A choice's state comes of no simulation: each edge
is offered what its start has and its target takes until nothing changes, in whole numbers, and the flows are those of
the equations that this shows, in fractions. It prints a line for each state, with by how much the property fails, and
ends with 1 where one is wrong. It writes nothing."""

import argparse
import subprocess
import sys
from fractions import Fraction
from itertools import product
from pathlib import Path

sys.dont_write_bytecode = True

import opinion

EXAMPLES = Path(__file__).resolve().parent.parent / "examples"
ONE, ROUNDS, NEAR, FEW = 1 << 40, 4000, 1 << 28, 10  # a belt of the slowest tier, and what counts as no difference


def ends_of(net):
    """The edges of the inputs, and those of the outputs."""
    return [net.outs[end][0] for end in net.ends("i")], [net.ins[end][0] for end in net.ends("o")]


def offered(edge, mine, theirs, gets, first):
    """How much of `gets` an edge is offered beside the others of its side, which may take or give so much."""
    others = [e for e in mine if e != edge]
    left = gets - sum(theirs[e] for e in others)
    if first is None or not others:
        return max(left, gets // len(mine))
    return gets if first == edge else left


def settled(net, loads, rooms):
    """What each edge is offered from its start and from its target once nothing changes, or nearly."""
    caps = [edge.cap * ONE for edge in net.edges]
    inputs, outputs = ends_of(net)
    given, taken = [0] * len(caps), list(caps)
    for _ in range(ROUNDS):
        before = given + taken
        for e, load in zip(inputs, loads):
            given[e] = load * ONE
        for e, room in zip(outputs, rooms):
            taken[e] = room * ONE
        for s in net.ends("s"):
            ins, outs = net.ins[s], net.outs[s]
            for e in outs:
                supply = sum(given[a] for a in ins)
                given[e] = min(caps[e], max(0, offered(e, outs, taken, supply, net.first["give"].get(s[1]))))
            for e in ins:
                demand = sum(taken[x] for x in outs)
                taken[e] = min(caps[e], max(0, offered(e, ins, given, demand, net.first["take"].get(s[1]))))
        if max(map(lambda x, y: abs(x - y), before, given + taken)) < 2:
            break
    return given, taken


def solved(rows, count):
    """Numbers that meet the rows, each a dictionary of columns to coefficients, with the constant at None."""
    solutions = {}
    for row in sorted(rows, key=len):
        for column in [c for c in row if c in solutions]:
            factor = row.pop(column)
            for other, number in solutions[column].items():
                row[other] = row.get(other, 0) + factor * number
        row = {c: number for c, number in row.items() if number}
        free = [c for c in row if c is not None]
        if not free:
            continue
        pivot = min(free)
        line = {c: -number / row[pivot] for c, number in row.items() if c != pivot}
        for column, old in solutions.items():
            if pivot in old:
                factor = old.pop(pivot)
                for other, number in line.items():
                    old[other] = old.get(other, 0) + factor * number
        solutions[pivot] = line
    return [
        sum(solutions[c].values()) if c in solutions and set(solutions[c]) <= {None} else Fraction(0)
        for c in range(count)
    ]


def state_of(net, loads, rooms):
    """The flows and marks that these loads and rooms give."""
    given, taken = settled(net, loads, rooms)
    backed = [supply > room + NEAR for supply, room in zip(given, taken)]
    flows = list(map(min, given, taken))
    near = lambda x, y: abs(x - y) <= NEAR
    one, rows = Fraction(1), []
    inputs, outputs = ends_of(net)
    for s in net.ends("s"):
        row = {}
        for sign, edges in (1, net.ins[s]), (-1, net.outs[s]):
            for e in edges:
                row[e] = row.get(e, 0) + sign * one
        rows.append(row)
    for first, side, e, other in net.beside():
        if backed[e] == bool(side):
            if first and near(flows[other], 0):
                rows.append({other: one})
            if not first and near(flows[e], flows[other]):
                rows.append({e: one, other: -one})
    for e, edge in enumerate(net.edges):
        if near(flows[e], edge.cap * ONE):
            rows.append({e: one, None: Fraction(-edge.cap)})
    for edges, amounts, mark in (inputs, loads, False), (outputs, rooms, True):
        rows += [{e: one, None: Fraction(-amount)} for e, amount in zip(edges, amounts) if backed[e] == mark]
    return solved(rows, len(net.edges)), backed


def passes(net, prop, loads, rooms, flows, backed):
    return all(passed for _, _, passed in opinion.tests(net, prop, loads, rooms, flows, backed))


def level(net, prop, flows):
    """The level with which a property compares ends, where it does: the greatest flow among them."""
    if prop not in opinion.FAIR:
        return []
    return [max(flows[e] for e in ends_of(net)[prop == "fair"])]


def loss(net, prop, loads, rooms, flows):
    """By how much the property fails."""
    inputs, outputs = ends_of(net)
    if prop in ("balanced", "drawn-evenly"):
        shown = [flows[e] for e in (outputs if prop == "balanced" else inputs)]
        return max(shown) - min(shown)
    if prop in opinion.FAIR:
        most, = level(net, prop, flows)
        ends = zip(outputs, rooms) if prop == "fair" else zip(inputs, loads)
        return max(min(amount, most) - flows[e] for e, amount in ends)
    return min(sum(loads), sum(rooms)) - sum(flows[e] for e in outputs)


def choices(caps, full):
    """Loads or rooms of 0 and full: all, or where there are many those of windows."""
    if full:
        return [caps]
    if len(caps) <= FEW // 2:
        return [[cap * bit for cap, bit in zip(caps, bits)] for bits in product((1, 0), repeat=len(caps))]
    spans = [range(start, start + size) for size in range(1, len(caps) + 1) for start in range(len(caps) - size + 1)]
    return [[cap * (place in span) for place, cap in enumerate(caps)] for span in spans]


def whole_losses(net, prop):
    """How much is lost in each state found of loads and rooms of 0 and full that breaks the property."""
    inputs, outputs = ends_of(net)
    caps = [[net.edges[e].cap for e in edges] for edges in (inputs, outputs)]
    for loads in choices(caps[0], prop in opinion.FULL_LOADS):
        for rooms in choices(caps[1], prop in opinion.FULL_ROOMS):
            if len(inputs) + len(outputs) > FEW and len([*filter(None, loads)]) != len([*filter(None, rooms)]):
                continue
            flows, backed = state_of(net, loads, rooms)
            state = [Fraction(load) for load in loads], [Fraction(room) for room in rooms], flows, backed
            if passes(net, prop, *state):
                yield loss(net, prop, *state[:3])


def others(net, loads, rooms):
    """How many loads and rooms are neither 0 nor full."""
    inputs, outputs = ends_of(net)
    return sum(amount not in (0, net.edges[e].cap) for e, amount in [*zip(inputs, loads), *zip(outputs, rooms)])


def fault(net, prop, lines):
    """What is wrong with a state, or nothing; and what is said of it."""
    loads, rooms, flows, backed = opinion.read_state(net, prop, lines)
    if not passes(net, prop, loads, rooms, flows, backed):
        return "doesn't break the property", ""
    count, lost = others(net, loads, rooms), loss(net, prop, loads, rooms, flows)
    said = f"{count} neither 0 nor full, {lost} lost"
    if not count:
        return None, said
    simpler = next(whole_losses(net, prop), None)
    return (None if simpler is None else f"has a simpler one, {simpler} lost"), said


def states(program):
    """Each example's name, network, property and the lines of the state in which it fails."""
    for path in sorted(EXAMPLES.glob("*.net")):
        text = path.read_text("latin-1")
        net = opinion.read_design(text, alone=True)[0]
        for prop in opinion.PROPERTIES:
            beside = path.with_name(f"{path.stem}.not-{prop}")
            if not beside.exists():
                continue
            said = beside.read_text("latin-1")
            if program:
                run = subprocess.run(
                    [program, "decide", prop], input=text.encode("latin-1"), stdout=subprocess.PIPE, check=False
                )
                said = run.stdout.decode("latin-1")
            yield path.stem, net, prop, opinion.lines_of(said)


def main():
    words = argparse.ArgumentParser(
        description="Looks whether the states in which examples' properties fail are simple."
    )
    words.add_argument("program", nargs="?")
    wrong = count = 0
    for name, net, prop, lines in states(words.parse_args().program):
        found, said = fault(net, prop, lines)
        count, wrong = count + 1, wrong + bool(found)
        print(f"{name} {prop}: {found or 'as simple as any'}{said and f' ({said})'}")
    print(f"{count} states, {wrong} wrong")
    sys.exit(wrong > 0 or not count)


if __name__ == "__main__":
    main()
