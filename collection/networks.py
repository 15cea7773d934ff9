"""Which designs have the same network, but for the numbers of its ends and splitters.

Two networks are the same where a renaming is found that takes each edge of one to an edge of the other with the same
cap, inputs to inputs, outputs to outputs and splitters to splitters; each renaming is tested before it is believed.
Vertices are first told apart by what stands around them; where that leaves a choice, each is tried, so many in all at
most, and beyond that two networks are taken for different ones."""

from collections import Counter, defaultdict

MOST_TRIED = 200
"""How many choices are tried for two networks at most."""
ONLY_LINES = {"net", "edge", "end"}
"""What the lines of a network begin with in which no splitter prefers a side."""


def is_plain(text):
    """Whether no splitter of a network prefers a side."""
    return {line.split(" ")[0] for line in text.splitlines()} <= ONLY_LINES


def neighbours(edges):
    """Of each vertex, its edges out and in, with their caps."""
    out, into = defaultdict(list), defaultdict(list)
    for source, target, cap in edges:
        out[source].append((target, cap))
        into[target].append((source, cap))
    return out, into


def refined(colours, out, into):
    """Colours by which vertices are told apart as far as by what stands around them; equal ones stay equal."""
    while True:
        seen = {
            vertex: (colour, *(tuple(sorted((colours[to], cap) for to, cap in way[vertex])) for way in (out, into)))
            for vertex, colour in colours.items()
        }
        order = {it: number for number, it in enumerate(sorted(set(seen.values())))}
        found = {vertex: order[it] for vertex, it in seen.items()}
        if len(order) == len(set(colours.values())):
            return found
        colours = found


def marked(edges, side):
    """A network's edges with vertices that no other network has."""
    return [((side, source), (side, target), cap) for source, target, cap in edges]


def kinds(edges):
    """A colour for each vertex that tells an input, an output and a splitter apart."""
    return {vertex: "ios".index(vertex[1][0]) for source, target, _ in edges for vertex in (source, target)}


def is_renaming(names, one, other):
    """Whether a renaming takes one network's edges to those of the other, each to one."""
    kept = all(vertex[0] == name[0] for vertex, name in names.items()) and len(set(names.values())) == len(names)
    return kept and Counter((names[s], names[t], cap) for s, t, cap in one) == Counter(map(tuple, other))


def renaming(one, other):
    """The names in another network of the vertices of one, where both are the same; None where that isn't found."""
    both = marked(one, 0) + marked(other, 1)
    out, into = neighbours(both)
    waiting, tried = [refined(kinds(both), out, into)], 0
    while waiting and tried < MOST_TRIED:
        colours, tried = waiting.pop(), tried + 1
        classes = defaultdict(lambda: ([], []))
        for (side, name), colour in colours.items():
            classes[colour][side].append(name)
        if any(len(ours) != len(theirs) for ours, theirs in classes.values()):
            continue
        choices = [them for them in classes.values() if len(them[0]) > 1]
        if not choices:
            names = {ours[0]: theirs[0] for ours, theirs in classes.values()}
            if is_renaming(names, one, other):
                return names
            continue
        ours, theirs = min(choices, key=lambda them: len(them[0]))
        for name in theirs:
            waiting.append(refined(colours | dict.fromkeys([(0, ours[0]), (1, name)], len(colours)), out, into))
    return None


def shape(net):
    """What is equal of networks that are the same: their sizes, and how many vertices look alike."""
    edges = marked(net.edges, 0)
    colours = refined(kinds(edges), *neighbours(edges))
    alike = tuple(sorted(Counter(colours.values()).items()))
    told = Counter((colours[source], colours[target], cap) for source, target, cap in edges)
    return net.inputs, net.outputs, net.splitters, alike, tuple(sorted(told.items()))


def grouped(nets):
    """Of each network in a list the number of the first that is the same."""
    alike, firsts = defaultdict(list), []
    for number, net in enumerate(nets):
        them = alike[shape(net)]
        same = (it for it in them if renaming(nets[it].edges, net.edges) is not None)
        first = next(same, number)
        if first == number:
            them.append(number)
        firsts.append(first)
    return firsts
