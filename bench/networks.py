"""Networks to measure with, as network texts: butterflies, two in a row, loops, exchanged targets, and random ones."""

import random


class Network:
    """Edges from `("i", n)` or `("s", n)` to `("s", n)` or `("o", n)`, all of cap 1."""

    def __init__(self, inputs, outputs, splitters, edges):
        self.inputs, self.outputs, self.splitters, self.edges = inputs, outputs, splitters, edges

    def text(self):
        lines = [f"edge {a}{i} {b}{j}" for (a, i), (b, j) in self.edges]
        return "\n".join([f"net {self.inputs} {self.outputs} {self.splitters}", *lines, "end"]) + "\n"


def butterfly(order):
    """As many inputs as outputs, and a stage of splitters for each bit of a line's number."""
    ends, half = 2**order, 2**order // 2

    def splitter(stage, line):
        low = line & ((1 << stage) - 1)
        return "s", stage * half + (low | line >> stage + 1 << stage)

    def lines(stage, j):
        first = (j >> stage << stage + 1) + (j & ((1 << stage) - 1))
        return first, first + (1 << stage)

    edges = [(("i", line), splitter(0, line)) for line in range(ends)]
    for stage in range(order - 1):
        edges += [(("s", stage * half + j), splitter(stage + 1, line)) for j in range(half) for line in lines(stage, j)]
    edges += [(("s", (order - 1) * half + j), ("o", 2 * j + k)) for j in range(half) for k in range(2)]
    return Network(ends, ends, order * half, edges)


def doubled(order):
    """Two butterflies in a row, each output of the first the input of the second with its number."""
    one = butterfly(order)
    first_edges = {start[1]: target for start, target in one.edges if start[0] == "i"}
    moved = lambda end: (end[0], end[1] + one.splitters) if end[0] == "s" else end
    edges = [(start, moved(first_edges[target[1]]) if target[0] == "o" else target) for start, target in one.edges]
    edges += [(moved(start), moved(target)) for start, target in one.edges if start[0] != "i"]
    return Network(one.inputs, one.outputs, 2 * one.splitters, edges)


def benes(order):
    """A stage of splitters for each bit of a line's number, from the highest to the lowest and up again: two
    butterflies, of which the first one is turned round, with one stage in common."""
    ends, edges, splitters = 2**order, [], 0
    starts = [("i", line) for line in range(ends)]
    for bit in [*range(order - 1, 0, -1), *range(order)]:
        for line in (line for line in range(ends) if not line >> bit & 1):
            other, splitter = line | 1 << bit, ("s", splitters)
            edges += [(starts[line], splitter), (starts[other], splitter)]
            starts[line] = starts[other] = splitter
            splitters += 1
    edges += [(start, ("o", line)) for line, start in enumerate(starts)]
    return Network(ends, ends, splitters, edges)


def looped(network, lines):
    """The network with so many inputs and outputs, each output beyond them led back to the input with its number."""
    targets = {start[1]: target for start, target in network.edges if start[0] == "i"}

    def led(target):
        while target[0] == "o" and target[1] >= lines:
            target = targets[target[1]]
        return target

    kept = [edge for edge in network.edges if edge[0][0] != "i" or edge[0][1] < lines]
    return Network(lines, lines, network.splitters, [(start, led(target)) for start, target in kept])


def universal(order):
    """The text of the butterfly of twice as many lines, of which every other one is led back: the splitters at its
    inputs take from these first, and those at its outputs give to these first."""
    network, edges, gives, takes = butterfly(order + 1), [], {}, {}
    firsts = {start[1]: target for start, target in network.edges if start[0] == "i"}
    for start, target in network.edges:
        if start[0] == "i" and start[1] % 2:
            continue
        if start[0] == "i":
            takes[target[1]] = len(edges)
            start = "i", start[1] // 2
        elif target[0] == "o" and target[1] % 2:
            target = firsts[target[1]]
        elif target[0] == "o":
            gives[start[1]] = len(edges)
            target = "o", target[1] // 2
        edges.append((start, target))
    first = [f"give s{s} {e}" for s, e in sorted(gives.items())] + [f"take s{s} {e}" for s, e in sorted(takes.items())]
    head = Network(2**order, 2**order, network.splitters, edges).text().splitlines()[:-1]
    return "\n".join([*head, *first, "end", ""])


def exchanged(network, seed):
    """The network with the targets of two edges between splitters exchanged, which end at different ones."""
    chance = random.Random(seed)
    inner = [e for e, (start, target) in enumerate(network.edges) if start[0] == target[0] == "s"]
    while True:
        a, b = chance.sample(inner, 2)
        (first, one), (second, other) = network.edges[a], network.edges[b]
        if one != other and first != second:
            edges = list(network.edges)
            edges[a], edges[b] = (first, other), (second, one)
            return Network(network.inputs, network.outputs, network.splitters, edges)


def scattered(splitters, ends, seed):
    """A random network with loops: so many splitters and inputs and outputs, each splitter with two in and two out
    edges."""
    chance = random.Random(seed)
    starts = [("i", i) for i in range(ends)] + [("s", s) for s in range(splitters)] * 2
    targets = [("o", o) for o in range(ends)] + [("s", s) for s in range(splitters)] * 2
    while True:
        chance.shuffle(targets)
        edges = list(zip(starts, targets))
        if not any(start[0] == "i" and target[0] == "o" for start, target in edges):
            return Network(ends, ends, splitters, sorted(edges))


def renumbered(text, seed):
    """The text of a network with other numbers of its ends, splitters and edges by chance; by seed 0 as it is."""
    if seed == 0:
        return text
    chance = random.Random(seed)
    head, *lines = text.splitlines()
    numbers = {kind: list(range(int(count))) for kind, count in zip("ios", head.split()[1:])}
    for order in numbers.values():
        chance.shuffle(order)
    named = lambda end: f"{end[0]}{numbers[end[0]][int(end[1:])]}"
    words = [line.split() for line in lines if line.startswith("edge")]
    edges = [" ".join([word, named(start), named(target), *rest]) for word, start, target, *rest in words]
    placed = [line.split() for line in lines if line.startswith(("pin", "side"))]
    demands = [
        " ".join([word, end if end in ("inputs", "outputs") else named(end), *rest]) for word, end, *rest in placed
    ]
    chance.shuffle(edges)
    kept = [line for line in lines if line.startswith(("block", "row"))]
    return "\n".join([head, *edges, *demands, *kept, "end"]) + "\n"


def all_networks():
    """The networks of collections, each under its name."""
    named = {f"butterfly-{2**k}": butterfly(k) for k in (3, 4, 5, 6)}
    named |= {f"doubled-{2**k}": doubled(k) for k in (3, 4)}
    named |= {f"looped-{n}": looped(butterfly(4 if n > 8 else 3), n) for n in (5, 6, 7, 12)}
    named |= {f"doubled-looped-{n}": looped(doubled(3), n) for n in (5, 6, 7)}
    return named
