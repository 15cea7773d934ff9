#!/usr/bin/env python3
"""A second opinion on whether two networks do the same, and on the program's.

    same.py check-same < ALL             two designs, and behind them a same certificate or a differ certificate
    same.py compare PROGRAM [PAIRS]      holds the program against this on so many pairs of networks (300 by default)

`check-same` answers as the program does: `same` and 0, `differ` and 1, or a refusal. It stands on `check.py`. `compare`
throws networks together, and takes of each another with its splitters and edges renumbered, with two edges' targets
exchanged, or another network with as many ends. What `same` writes of both is checked here and by the program, and
mutants of it must be answered alike by both. It prints counts and every difference, and ends with 1 where there is one.
The generator is fixed: with one program the pairs are always the same."""

import argparse
import random
import subprocess
import sys
from collections import Counter

sys.dont_write_bytecode = True

import opinion
from opinion import Answer, Formula, need
from exhaust import network

PAIRS, MUTANTS, SECONDS = 300, 12, 20
WORDS = ("0", "1", "-1", "1/2", "2/3", "3/2", "-7", "f", "b", "r", "")  # what a word of a mutant becomes
DIFFER = ("differ", "load", "room", "flow", "mark", "flow", "mark", "end")


def same_formula(first, second):
    """The laws of a state of each network, of equal loads and rooms, and that an output carries another flow. Variables
    are the first network's marks, the second's, and the rows; columns are flows alike, and then loads and rooms."""
    edges, others = len(first.edges), len(second.edges)
    formula = Formula(edges + others)
    for net, before, behind in (first, 0, others), (second, edges, 0):
        laws, shift = opinion.FlowFormula(net, None), formula.variables - len(net.edges)

        def variable(literal):
            number = abs(literal) + (before if abs(literal) <= len(net.edges) else shift)
            return number if literal > 0 else -number

        for atom, (terms, relation, bound) in laws.rows.items():
            terms = [(at + before + (behind if at >= len(net.edges) else 0), factor) for at, factor in terms]
            formula.rows[variable(atom)] = terms, relation, bound
        formula.clauses += [[variable(literal) for literal in clause] for clause in laws.clauses]
        formula.variables += len(laws.rows)
    formula.columns = edges + others + first.counts["i"] + first.counts["o"]
    pairs = [(first.ins[o][0], edges + second.ins[o][0]) for o in first.ends("o")]
    formula.clauses.append([formula.row([x], [y], ">") for a, b in pairs for x, y in ((a, b), (b, a))])
    return formula


def read_pair(nets, lines):
    """The loads, the rooms, and the flows and marks of either network, of eight lines."""
    first, second = nets
    counts = [0, first.counts["i"], first.counts["o"], *(len(net.edges) for net in nets for _ in range(2)), 0]
    lists = []
    for number, (word, count) in enumerate(zip(DIFFER, counts), 1):
        line = lines[number - 1] if number <= len(lines) else ""
        told, *values = line.split(" ")
        reader = {"f": 0, "b": 1}.get if word == "mark" else opinion.fraction_of
        lists.append([reader(value) for value in values])
        need(told == word and len(values) == count and None not in lists[-1], 50, "CertLine", number)
    opinion.nothing_after(lines, 8)
    _, loads, rooms, *states, _ = lists
    return loads, rooms, states[:2], states[2:]


def check_pair(nets, pair):
    """Ends without an answer where both states are steady, and an output carries another flow."""
    loads, rooms, *states = pair
    for name, net, (flows, marks) in zip(("first", "second"), nets, states):
        try:
            for test, at, right in opinion.tests(net, None, loads, rooms, flows, marks):
                need(right, 54, "NotBreaking", name, test, at)
        except Answer as found:
            raise Answer(found.status, found.text.replace("wide state", f"wide {name}").rstrip("\n")) from None
    (flows, _), (others, _) = states
    shown = any(flows[nets[0].ins[o][0]] != others[nets[1].ins[o][0]] for o in nets[0].ends("o"))
    need(shown, 54, "NotBreaking", "kept", 0)


def caps_at_ends(net):
    """The caps of the edges of inputs and of outputs, each in the order of their numbers."""
    return [[net.edges[edge].cap for edge in edges] for edges in (net.input_edges(), net.output_edges())]


def check_same(text):
    """Ends with an Answer to two designs and a certificate."""
    first, *_, behind = opinion.read_design(text, opinion.Extras.NOTHING, in_basic_belts=True)
    text = text[behind:]
    second, *_, behind = opinion.read_design(text, opinion.Extras.NOTHING, in_basic_belts=True)
    need(caps_at_ends(first) == caps_at_ends(second), 47, "Ends")
    lines = opinion.lines_of(text[behind:])
    if lines[0] == "same":
        opinion.check_steps(same_formula(first, second), "same", lines)
        raise Answer(0, "same")
    check_pair((first, second), read_pair((first, second), lines))
    raise Answer(1, "differ")


def answer_to(text):
    """The status and the line that answer `check-same`."""
    try:
        check_same(text)
    except Answer as found:
        return found.status, found.text


def thrown(chance, inputs, outputs, most=4):
    """A network of at most so many splitters in which each end has an edge, and splitters have what is left, thrown
    together."""
    splitters = chance.randint(0 if inputs == outputs else 1, most)
    starts, targets = [("i", i) for i in range(inputs)], [("o", o) for o in range(outputs)]
    for s in range(splitters):
        starts += [("s", s)] * chance.choice((1, 2, 2))
        targets += [("s", s)] * chance.choice((1, 2, 2))
    while len(starts) != len(targets):
        less, sort = (starts, "outs") if len(starts) < len(targets) else (targets, "ins")
        free = [s for s in range(splitters) if less.count(("s", s)) < 2]
        if not free:
            return thrown(chance, inputs, outputs, most)
        less.append(("s", chance.choice(free)))
    chance.shuffle(targets)
    return network(inputs, outputs, splitters, zip(starts, targets))


def partner(chance, net):
    """Another network with as many ends."""
    counts, ends = net.counts, [(edge.start, edge.target) for edge in net.edges]
    kind = chance.choice(("renumbered", "exchanged", "thrown"))
    if kind == "thrown":
        return kind, thrown(chance, counts["i"], counts["o"])
    if kind == "renumbered":
        names = list(range(counts["s"]))
        chance.shuffle(names)
        ends = [tuple(("s", names[n]) if letter == "s" else (letter, n) for letter, n in pair) for pair in ends]
        chance.shuffle(ends)
    else:
        a, b = (chance.randrange(len(ends)) for _ in range(2))
        (start, target), (other, aim) = ends[a], ends[b]
        ends[a], ends[b] = (start, aim), (other, target)
    return kind, network(counts["i"], counts["o"], counts["s"], ends)


def mutant(chance, text):
    """A certificate in which a byte, a line or a word is another."""
    lines = text.splitlines()
    at = chance.randrange(len(lines))
    kind = chance.randrange(4)
    if kind == 0:
        del lines[at]
    elif kind == 1:
        lines.insert(at, chance.choice(lines))
    else:
        words = lines[at].split(" ")
        words[chance.randrange(len(words))] = chance.choice(WORDS)
        lines[at] = " ".join(words)
    return "\n".join(lines) + "\n"


def run(program, word, text):
    try:
        ran = subprocess.run([program, word], input=text.encode(), capture_output=True, timeout=SECONDS, check=False)
    except subprocess.TimeoutExpired:
        return None
    return ran.returncode, ran.stdout.decode("latin-1")


def compare(program, pairs):
    """Prints what was compared; the number of differences."""
    chance, counts, wrong = random.Random(20), Counter(), 0
    for _ in range(pairs):
        net = thrown(chance, *(chance.randint(1, 4) for _ in range(2)))
        kind, other = partner(chance, net)
        designs = f"{net.text()}\n{other.text()}\n"
        told = run(program, "same", designs)
        if told is None or told[0] not in (0, 1):
            counts[f"{kind}: {told and told[0]}"] += 1
            wrong += told is not None and told[0] not in (4, 5, 10)
            continue
        counts[f"{kind}: {told[1].split()[0]}"] += 1
        for certificate in [told[1], *(mutant(chance, told[1]) for _ in range(MUTANTS))]:
            text = designs + certificate
            theirs, ours = run(program, "check-same", text), answer_to(text)
            counts["answers compared"] += 1
            is_read = certificate != told[1] or (theirs and theirs[0] == told[0])
            if theirs is not None and theirs != ours or not is_read:
                wrong += 1
                print(f"{kind}: the program says {theirs}, and this says {ours}, of:\n{text}")
    for words, count in sorted(counts.items()):
        print(f"{count:7} {words}")
    print(f"{pairs} pairs, {wrong} differences")
    return wrong


def main():
    words = argparse.ArgumentParser(description=__doc__, formatter_class=argparse.RawDescriptionHelpFormatter)
    commands = words.add_subparsers(dest="command", required=True)
    commands.add_parser("check-same")
    comparing = commands.add_parser("compare")
    comparing.add_argument("program")
    comparing.add_argument("pairs", nargs="?", type=int, default=PAIRS)
    told = words.parse_args()
    if told.command == "compare":
        return 1 if compare(told.program, told.pairs) else 0
    status, line = answer_to(sys.stdin.buffer.read().decode("latin-1"))
    sys.stdout.write(line)
    return status


if __name__ == "__main__":
    sys.exit(main())
