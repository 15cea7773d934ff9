"""Placement: requests for layouts, and whether a blueprint lays one.

A request is a network text with priorities, pins, sides, rows and blocked cells, and a rectangle
of cells.
"""

from collections import Counter

from opinion.answers import need
from opinion.designs import read_design
from opinion.networks import Extras, Row
from opinion.parts import cells_of, moved
from opinion.recovery import recover

MOST_EDGES, MOST_SPLITTERS = 1024, 512  # of a request


def read_request(text, width, height):
    """The network of a request that may be laid out in a rectangle, its pins, rows and blocks.

    All its edges have the cap 1. A pin lies in the rectangle, no end has two pins or sides, and no
    letter two rows. A block lies there too, once, and where no pin is.
    """
    net, pins, rows, blocks, _ = read_design(text, Extras.PINS, True)
    need(len(net.edges) <= MOST_EDGES and net.counts["s"] <= MOST_SPLITTERS, 41, "TooLarge")
    for number, edge in enumerate(net.edges):
        need(edge.cap == 1, 45, "Cap", number)
    named = set()
    for wish in sorted([*pins, *rows], key=lambda wish: wish.line):
        is_row = isinstance(wish, Row)
        name = wish.letter if is_row else wish.end
        can_be = is_row or wish.cell is None or is_inside(wish.cell, width, height)
        need(can_be and name not in named, 44, "Pin", wish.line)
        named.add(name)
    taken = {pin.cell for pin in pins if pin.cell is not None}
    for block in blocks:
        is_free = is_inside(block.cell, width, height) and block.cell not in taken
        need(is_free, 46, "Block", block.line)
        taken.add(block.cell)
    return net, pins, rows, blocks


def is_inside(cell, width, height):
    """Whether a cell lies in the rectangle whose north-western cell is (0, 0)."""
    return 0 <= cell[0] < width and 0 <= cell[1] < height


def lays(net, pins, rows, blocks, width, height, tier, parts):
    """Whether parts lay a request.

    They lie inside the rectangle, off the blocks, and are of the tier. All ends are at the
    border, those with a pin or a side there, those of a row side by side, and the network is the
    request's, with what its splitters prefer.
    """
    shown, firsts, lasts = recover(parts)
    wanted, found = names_of_pinned(net, shown, pins, firsts, lasts)
    free = [end for end, name in wanted.items() if name in ("i", "o")]
    blocked = {block.cell for block in blocks}
    return (
        all(part.tier == tier for part in parts)
        and all(
            is_inside(cell, width, height) and cell not in blocked
            for part in parts
            for cell in cells_of(part)
        )
        and not any(is_inside(moved(p.cell, p.dir, -1), width, height) for p in firsts)
        and not any(is_inside(moved(p.cell, p.dir), width, height) for p in lasts)
        and all(
            stand_in_row([part.cell for part in (firsts if row.letter == "i" else lasts)])
            for row in rows
        )
        and fit((net, shown), wanted, found, free)
    )


def stand_in_row(cells):
    """Whether cells are consecutive ones of one row or one column, in any order."""
    columns, lines = (sorted(cell[axis] for cell in cells) for axis in (0, 1))
    return any(
        same[0] == same[-1] and other == list(range(other[0], other[0] + len(other)))
        for same, other in ((lines, columns), (columns, lines))
    )


def names_of_pinned(net, shown, pins, firsts, lasts):
    """Names of the ends of the network wanted, and of the one found, which must correspond.

    An end is named by its letter, and where it is pinned by its cell too. So is the end that is
    found there, if its part has the direction that the pin tells. Where a request has sides, an
    end that isn't pinned is named by its letter and its side: one at the border comes in against
    its direction, or leaves in it.
    """
    wanted, found = (
        {end: end[0] for letter in "ios" for end in each.ends(letter)} for each in (net, shown)
    )
    if any(pin.cell is None for pin in pins):
        found |= {("i", number): f"i{(part.dir + 2) % 4}" for number, part in enumerate(firsts)}
        found |= {("o", number): f"o{part.dir}" for number, part in enumerate(lasts)}
    for pin in pins:
        letter = pin.end[0]
        wanted[pin.end] = f"{letter}{pin.dir if pin.cell is None else pin.cell}"
        for number, part in enumerate(firsts if letter == "i" else lasts):
            if part.cell == pin.cell and pin.dir in (None, part.dir):
                found[letter, number] = wanted[pin.end]
    return wanted, found


def fit(nets, wanted, found, free):
    """Whether two networks are alike, where a free end may have the name of any of its kind."""
    left = Counter(found.values()) - Counter(wanted.values())
    names = sorted(name for name in left if free and name[:1] == free[0][0])
    if not free or not any(name != free[0][0] for name in left if name[:1] == free[0][0]):
        return are_alike(nets, (wanted, found))
    return any(fit(nets, {**wanted, free[0]: name}, found, free[1:]) for name in names)


def are_alike(nets, colours):
    """Whether two networks are the same but for the names of ends that share a colour.

    `colours` has of either network the colour of each end. Ends of one colour are told apart by
    what is near them. If some still share one, then each of the other network's is tried in the
    place of one of them.
    """
    refined = refined_colours(nets, colours)
    if refined is None:
        return False
    one, two = refined
    counts = Counter(one.values())
    shared = next((end for end, colour in one.items() if counts[colour] > 1), None)
    if shared is None:
        return have_same_edges(nets, refined)
    return any(
        are_alike(nets, ({**one, shared: -1}, {**two, other: -1}))
        for other, colour in two.items()
        if colour == one[shared]
    )


def refined_colours(nets, colours):
    """Colours that also tell those before and after an end, and so on until no more are told.

    None where the two networks have not the same colours as often.
    """
    kinds = 0
    while kinds < len(set(colours[0].values())):
        kinds, names = len(set(colours[0].values())), {}
        colours = [finer_colours(net, each, names) for net, each in zip(nets, colours)]
        if Counter(colours[0].values()) != Counter(colours[1].values()):
            return None
    return colours


def finer_colours(net, colours, names):
    """The colour of each end, by its own and those near it; `names` has those that were met."""
    finer = {}
    for end, colour in colours.items():
        near = (net.outs[end], "target"), (net.ins[end], "start")
        after, before = (
            sorted((colours[getattr(net.edges[n], far)], net.is_first(n)) for n in numbers)
            for numbers, far in near
        )
        finer[end] = names.setdefault((colour, tuple(after), tuple(before)), len(names))
    return finer


def have_same_edges(nets, colours):
    """Whether two networks have the same edges, and the same of them come first.

    Each colour is one end's, and names it.
    """
    one, two = (
        sorted(
            (colour[edge.start], colour[edge.target], net.is_first(number))
            for number, edge in enumerate(net.edges)
        )
        for net, colour in zip(nets, colours)
    )
    return one == two
