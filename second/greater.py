#!/usr/bin/env python3
"""Looks whether each network that has a layout in a small grid has one in every greater grid, turned or not.

    greater.py [--cells N]

It lists every layout of at most three splitters, inputs and outputs in grids of at most ten cells, or so many, as
`exhaust.py` does. Where one grid fits into another, as it is or with width and height exchanged, each network that is
listed of the one must be listed of the other. It prints how many it compared and each that is missing, and ends with 1
where one is. It writes nothing."""

import argparse
import sys

sys.dont_write_bytecode = True

import exhaust

CELLS = 10


def fits_into(small, great):
    """Whether the one grid fits into the other, as it is or turned."""
    (width, height), (across, down) = small, great
    return width <= across and height <= down or width <= down and height <= across


def missing(listings):
    """How many networks were compared, and those that one grid has and a greater one hasn't."""
    count, lacks = 0, []
    for small, listed in listings.items():
        for great, others in listings.items():
            if small != great and fits_into(small, great):
                count += len(listed.groups)
                lacks += [(small, great, net) for net in listed.groups if net not in others.groups]
    return count, lacks


def main():
    words = argparse.ArgumentParser(description="Looks whether layouts extend to greater grids.")
    words.add_argument("--cells", type=int, default=CELLS)
    told = words.parse_args()
    grids = [grid for grid in exhaust.GRIDS if grid[0] * grid[1] <= told.cells]
    count, lacks = missing({grid: exhaust.Listing(*grid) for grid in grids})
    for (width, height), (across, down), net in lacks:
        print(f"{width}x{height} has, {across}x{down} lacks {net}")
    print(f"{count} networks compared, {len(lacks)} missing")
    sys.exit(bool(lacks))


if __name__ == "__main__":
    main()
