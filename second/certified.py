#!/usr/bin/env python3
"""Holds certificates of another solver's proofs against both checkers.

    certified.py PROGRAM [REQUESTS] [--cadical PROGRAM]

It throws requests for small grids together, as `exhaust.py` does, has `PROGRAM formula` write the formula of each, and
cadical look for a model of it. Where there is none, `tools/certify` makes a certificate of cadical's proof, which
`PROGRAM check-layout` and `check.py none` both have to accept; with its last step left out both have to refuse it. It
goes on until so many certificates were made (200 where none is told), prints how many, and ends with 1 where one is
wrong. The program `certify` is that of these sources, or the one that CERTIFY_PROGRAM names. It writes nothing beside
a folder for temporary files."""

import argparse
import random
import shutil
import subprocess
import sys
import tempfile
from collections import Counter
from pathlib import Path

sys.dont_write_bytecode = True

import exhaust

HERE = Path(__file__).resolve().parent
CERTIFY, CHECK = HERE.parent / "tools" / "certify", HERE / "check.py"
REQUESTS, REFUTED = 200, 20  # what cadical ends with where there is no model
GRIDS = [(width, height) for width in range(2, 6) for height in range(2, 6)]


class Certifying:
    """What was made of the requests so far."""

    def __init__(self, program, cadical, room):
        self.program, self.cadical = program, cadical
        self.formula, self.proof = Path(room, "formula"), Path(room, "proof")
        self.told, self.wrong = Counter(), 0

    def refuted(self, grid, text):
        """Whether cadical refutes the formula of a request; None where the request is refused."""
        made = subprocess.run([self.program, "formula", "--grid", grid], input=text, stdout=subprocess.PIPE)
        if made.returncode:
            return None
        self.formula.write_bytes(made.stdout)
        words = [self.cadical, "-q", "--no-binary", self.formula, self.proof]
        return subprocess.run(words, stdout=subprocess.DEVNULL).returncode == REFUTED

    def judge(self, grid, text, certificate):
        """Whether the program accepts a certificate, and whether the second opinion does."""
        words = [self.program, "check-layout", "--grid", grid]
        one = subprocess.run(words, input=text + certificate, stdout=subprocess.PIPE)
        words = [sys.executable, "-B", CHECK, "none", self.formula]
        other = subprocess.run(words, input=certificate, stdout=subprocess.PIPE)
        return one.stdout == b"none\n", other.stdout == b"none\n"

    def certify(self, grid, text):
        """Has a certificate made of the proof, and holds it against both checkers."""
        made = subprocess.run([CERTIFY, self.formula, self.proof], stdout=subprocess.PIPE)
        lines = made.stdout.splitlines(keepends=True)
        whole, cut = b"".join(lines), b"".join([*lines[:-2], *lines[-1:]])
        said = self.judge(grid, text, whole), self.judge(grid, text, cut)
        self.told["certificates"] += 1
        self.told["steps"] += len(lines) - 2
        if made.returncode or said != ((True, True), (False, False)):
            self.wrong += 1
            print(f"{grid}: {said}, of\n{text.decode()}", flush=True)


def main():
    words = argparse.ArgumentParser(description="Holds certificates of cadical's proofs against both checkers.")
    words.add_argument("program")
    words.add_argument("requests", nargs="?", type=int, default=REQUESTS)
    words.add_argument("--cadical", default=shutil.which("cadical"))
    told, chance = words.parse_args(), random.Random(1)
    with tempfile.TemporaryDirectory() as room:
        certifying = Certifying(told.program, told.cadical, room)
        while certifying.told["certificates"] < told.requests:
            width, height = chance.choice(GRIDS)
            cells = [(x, y) for x in range(width) for y in range(height)]
            net = exhaust.thrown_net(chance)
            text = exhaust.request_text(net, exhaust.thrown_pins(chance, net, cells), [], []).encode()
            grid = f"{width}x{height}"
            answer = certifying.refuted(grid, text)
            certifying.told[{None: "refused", True: "refuted", False: "with a layout"}[answer]] += 1
            if answer:
                certifying.certify(grid, text)
    print("\n".join(f"{number:7} {name}" for name, number in sorted(certifying.told.items())))
    print(f"{certifying.wrong} wrong")
    sys.exit(certifying.wrong > 0)


if __name__ == "__main__":
    main()
