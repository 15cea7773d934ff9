"""Recovery: the network that parts show.

A place is the number of a part and its half, which is 0 but in a splitter.
"""

from collections import Counter
from itertools import product
from typing import NamedTuple

from opinion.answers import need
from opinion.networks import MOST, Edge, Net
from opinion.parts import BELT, ENTRANCE, EXIT, SPLITTER, cells_of, moved

REACHES = (4, 6, 8, 10)  # by tier, the most cells between an entrance and its exit


class Chain(NamedTuple):
    """Belts and pieces in a row: the place it comes from, its parts, and the splitter's place."""

    start: tuple  # the half of a splitter, or the chain's own first part where it is an input
    pieces: list
    place: tuple  # None where the chain is an output


def recover(parts, in_basic_belts=False):
    """The network that parts show, the first part of each input, and the last of each output.

    Splitters are numbered in the order of their entities; inputs and outputs from west to east,
    and above one another from north to south; and edges by where they begin, at the inputs and
    then at the splitters, with the lesser half of a splitter first.
    """
    onto = handing(parts, places_of(parts))
    splitters = {}
    for i, part in enumerate(parts):
        if part.kind == SPLITTER:
            splitters[i] = "s", len(splitters)
    plain = set(range(len(parts))) - set(splitters)
    fed = {j for j, _ in onto.values()}
    firsts = sorted(plain - fed, key=lambda i: parts[i].cell)
    chains = chains_of(onto, firsts, splitters)
    rings = plain.difference(*(chain.pieces for chain in chains))
    need(not rings, 34, "Ring", min(rings, default=None))
    lasts = [chain.pieces[-1] for chain in chains if not chain.place]
    lasts.sort(key=lambda i: parts[i].cell)
    most = max(len(firsts), len(lasts), len(splitters), len(chains))
    need(most <= MOST, 41, "TooLarge")
    need(firsts and lasts, 42, "NoEnds")
    net = net_of(parts, chains, splitters, firsts, lasts, in_basic_belts)
    return net, [parts[i] for i in firsts], [parts[i] for i in lasts]


def places_of(parts):
    """The place at each cell; no two parts may share one."""
    at = {}
    for j, part in enumerate(parts):
        taken = [at[cell][0] for cell in cells_of(part) if cell in at]
        need(not taken, 30, "Overlap", min(taken, default=None), j)
        for half, cell in enumerate(cells_of(part)):
            at[cell] = j, half
    return at


def handing(parts, at):
    """To which place each place hands on; `at` gives the place of a cell.

    Refused are pieces without a partner, then parts that are fed from the side or by two, then
    parts that hand on to what does not take it.
    """
    unpaired = {i for i, part in enumerate(parts) if part.kind in (ENTRANCE, EXIT)}
    onto, sideways, blocked = {}, set(), set()
    for i, part in enumerate(parts):
        if part.kind == ENTRANCE:
            other = exit_of(parts, at, part)
            if other is not None:
                onto[i, 0] = other, 0
                unpaired -= {i, other}
            continue
        for half, cell in enumerate(cells_of(part)):
            ahead = at.get(moved(cell, part.dir))
            if ahead is None:
                continue
            j = ahead[0]
            if takes(parts[j], part.dir):
                onto[i, half] = ahead
            elif is_sideways(parts[j], part.dir):
                sideways.add(j)
            else:
                blocked.add(i)
    sideways |= {j for (j, _), feeders in Counter(onto.values()).items() if feeders > 1}
    need(not unpaired, 31, "Unpaired", min(unpaired, default=None))
    need(not sideways, 32, "SideLoad", min(sideways, default=None))
    need(not blocked, 33, "Blocked", min(blocked, default=None))
    return onto


def exit_of(parts, at, entrance):
    """The exit that belongs to an entrance, or None.

    The first piece ahead of it within reach, of its tier and along its line, must be an exit
    that looks the same way.
    """
    for steps in range(1, REACHES[entrance.tier] + 2):
        place = at.get(moved(entrance.cell, entrance.dir, steps))
        if place is None:
            continue
        other = parts[place[0]]
        is_piece = other.kind in (ENTRANCE, EXIT) and other.tier == entrance.tier
        if is_piece and (other.dir - entrance.dir) % 2 == 0:
            is_exit = other.kind == EXIT and other.dir == entrance.dir
            return place[0] if is_exit else None
    return None


def takes(part, way):
    """Whether a part takes what comes to it in a direction.

    A belt does but head on. A splitter or an entrance does from behind alone, and an exit never.
    """
    turn = (part.dir - way) % 4
    return turn % 2 == 1 and part.kind == BELT or turn == 0 and part.kind != EXIT


def is_sideways(part, way):
    """Whether what comes in a direction meets the side of an underground piece."""
    return (part.dir - way) % 2 == 1 and part.kind in (ENTRANCE, EXIT)


def chains_of(onto, firsts, splitters):
    """The chains: of the inputs in their order, and then out of each half of each splitter."""
    starts = [((i, 0), (i, 0)) for i in firsts]
    starts += [(start, onto.get(start)) for start in product(splitters, (0, 1))]
    chains = []
    for start, place in starts:
        pieces = []
        while place and place[0] not in splitters:
            pieces.append(place[0])
            place = onto.get(place)
        if pieces or place:
            chains.append(Chain(start, pieces, place))
    return chains


def net_of(parts, chains, splitters, firsts, lasts, in_basic_belts):
    """The network of chains, each of which is an edge.

    Where all parts are of one tier, each cap is 1, else that of the slowest part of the chain
    and of the splitters at its ends, as it always is in basic belts. The edge at a half that a
    splitter prefers comes first.
    """
    net = Net(len(firsts), len(lasts), len(splitters))
    is_one_tier = len({part.tier for part in parts}) == 1 and not in_basic_belts
    starts = {**splitters, **{i: ("i", n) for n, i in enumerate(firsts)}}
    targets = {**splitters, **{i: ("o", n) for n, i in enumerate(lasts)}}
    for edge, ((i, half), pieces, place) in enumerate(chains):
        j = place[0] if place else pieces[-1]
        slowest = min(parts[k].tier for k in (i, j, *pieces))
        net.add(Edge(starts[i], targets[j], 1 if is_one_tier else 1 + slowest))
        if parts[i].give == half:
            net.first["give"][starts[i][1]] = edge
        if place and parts[j].take == place[1]:
            net.first["take"][targets[j][1]] = edge
    return net
