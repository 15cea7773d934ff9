#!/usr/bin/env python3
"""Holds what `build` writes against the wish, and against the fewest splitters that are known.

    building.py PROGRAM [--from N] [--most N] [--wishes WISH ..] [--times]

For all numbers of inputs and outputs from N (1) to N (8) and each wish (four of them) it has a network built, looks at
its first line and that every edge has the cap 1, has each property decided and the certificate checked by `check.py`,
and compares the number of splitters with the least that is known: of the table beside it up to eight, and of networks
with as many inputs as outputs up to sixteen. It prints a line for each network that isn't as it should be, with
`--times` one for each, and then counts, and ends with 1 where there is such a one."""

import argparse
import subprocess
import sys
import time

sys.dont_write_bytecode = True

import opinion
import differ

SECONDS = 600  # for one run of the program
WISHES = {
    "balanced,full": (
        (0, 1, 3, 3, 7, 6, 7, 7), (1, 1, 4, 3, 7, 7, 8, 7), (2, 2, 4, 4, 10, 7, 8, 8),
        (3, 3, 5, 4, 11, 10, 11, 8), (4, 4, 6, 5, 11, 11, 11, 11), (5, 5, 7, 6, 12, 11, 12, 11),
        (6, 6, 8, 7, 13, 12, 12, 12), (7, 7, 9, 8, 14, 13, 13, 12)),
    "balanced,drawn-evenly,full": (
        (0, 1, 3, 3, 7, 6, 7, 7), (1, 1, 4, 3, 7, 7, 8, 7), (3, 4, 4, 7, 10, 7, 11, 11),
        (3, 3, 7, 4, 11, 10, 11, 8), (7, 7, 10, 11, 11, 18, 18, 18), (6, 7, 7, 10, 18, 11, 18, 17),
        (7, 8, 11, 11, 18, 18, 12, 19), (7, 7, 11, 8, 18, 17, 19, 12)),
    "balanced,unlimited": (
        (0, 1, 3, 3, 7, 6, 7, 7), (1, 1, 4, 4, 11, 11, 14, 10), (2, 4, 6, 6, 15, 15, 14, 14),
        (3, 4, 9, 6, 18, 15, 19, 14), (4, 7, 13, 13, 18, 16, 19, 19), (5, 7, 14, 13, 23, 18, 20, 19),
        (6, 10, 14, 14, 25, 35, 20, 20), (7, 10, 17, 14, 26, 25, 27, 20)),
    "balanced,drawn-evenly,unlimited,full": (
        (0, 1, 3, 3, 7, 6, 7, 7), (1, 1, 4, 4, 11, 11, 14, 10), (4, 6, 6, 9, 17, 15, 14, 17),
        (3, 4, 9, 6, 18, 17, 19, 14), (8, 11, 17, 18, 18, 25, 25, 26), (7, 11, 15, 17, 25, 18, 35, 25),
        (9, 14, 14, 19, 25, 35, 20, 27), (7, 10, 17, 14, 26, 25, 27, 20)),
}
SQUARES = {  # of nine to sixteen inputs and as many outputs
    "balanced,drawn-evenly,full": (24, 27, 30, 28, 31, 31, 32, 32),
    "balanced,drawn-evenly,unlimited,full": (53, 53, 54, 54, 55, 55, 56, 56),
}


def fewest(wish, inputs, outputs):
    """The fewest splitters that are known, or None."""
    if max(inputs, outputs) <= 8:
        return WISHES[wish][inputs - 1][outputs - 1] if wish in WISHES else None
    squares = SQUARES.get(wish, ())
    return squares[inputs - 9] if inputs == outputs and inputs - 9 < len(squares) else None


def fault_of(both, wish, inputs, outputs, status, text):
    """What is wrong with an answer, or None."""
    if status != 0:
        return f"status {status}"
    net = opinion.read_design(text, alone=True)[0]
    if [net.counts["i"], net.counts["o"]] != [inputs, outputs] or any(edge.cap != 1 for edge in net.edges):
        return "another network"
    for prop in wish.split(","):
        certificate = both.decided(text.encode(), prop)
        if certificate is None or not certificate.startswith(b"yes"):
            return f"not shown to be {prop}"
    known = fewest(wish, inputs, outputs)
    if known is not None and net.counts["s"] > known:
        return f"{net.counts['s']} splitters, where {known} are known to do"
    return None


def main():
    words = argparse.ArgumentParser(description="Holds what build writes against the wish.")
    words.add_argument("program")
    words.add_argument("--from", dest="least", type=int, default=1)
    words.add_argument("--most", type=int, default=8)
    words.add_argument("--wishes", nargs="*", default=list(WISHES))
    words.add_argument("--times", action="store_true")
    told = words.parse_args()
    differ.SECONDS = SECONDS
    both, wrong, longest, built = differ.Differ(told.program, None), 0, (0, ""), 0
    sizes = range(told.least, told.most + 1)
    for wish, inputs, outputs in ((w, i, o) for w in told.wishes for i in sizes for o in sizes):
        began = time.monotonic()
        run = subprocess.run([told.program, "build", wish, str(inputs), str(outputs)], capture_output=True,
                             timeout=SECONDS, check=False)
        took = time.monotonic() - began
        built += 1
        name = f"{wish} {inputs} {outputs}"
        longest = max(longest, (took, name))
        fault = fault_of(both, wish, inputs, outputs, run.returncode, run.stdout.decode())
        if fault:
            wrong += 1
            print(f"{name}: {fault}")
        if told.times:
            print(f"{took:7.2f} {name} {run.stdout.decode().split(chr(10))[0]}")
    wrong += both.wrong
    print(f"{built} networks, {wrong} not as they should be; the longest took {longest[0]:.2f} s, {longest[1]}")
    sys.exit(wrong > 0)


if __name__ == "__main__":
    main()
