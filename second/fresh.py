#!/usr/bin/env python3
"""Looks whether each step of a log is fresh: that propagation over the clauses before doesn't come to it.

    fresh.py PROGRAM [LOGS] [--learnt N]

It throws requests for small grids together, as `exhaust.py` does, and asks `PROGRAM layout` for each by so few steps
(40 where none is told) that some are spent: what is written then is a whole log, with restarts and deletions as the
search had them. A step is fresh where for some literal of it propagation over the formula and all steps before, begun
with the other literals false, meets no false clause and doesn't make that literal true. It goes on until so many logs
were looked at (50 where none is told), prints how many steps they had, and ends with 1 where one isn't fresh or doesn't
follow by propagation. It writes nothing."""

import argparse
import random
import subprocess
import sys
from collections import defaultdict

sys.dont_write_bytecode = True

import exhaust

LOGS, STEPS, SPENT = 50, 40, 4
GRIDS = (3, 4), (4, 4), (4, 5), (5, 5), (5, 6)


class Clauses:
    """Clauses by which literals are propagated, each watched by two of its literals."""

    def __init__(self, clauses):
        self.watching, self.units, self.is_false = defaultdict(list), [], False
        for clause in clauses:
            self.add(clause)

    def add(self, clause):
        """Adds a clause."""
        clause = list(dict.fromkeys(clause))
        if len(clause) < 2:
            self.units += clause
            self.is_false |= not clause
            return
        for literal in clause[:2]:
            self.watching[literal].append(clause)

    def propagate(self, assumed):
        """What is true where these are, or None where a clause is false then."""
        if self.is_false:
            return None
        true, left = set(), [*self.units, *assumed]
        while left:
            literal = left.pop()
            if -literal in true:
                return None
            if literal in true:
                continue
            true.add(literal)
            watching = self.watching[-literal]
            self.watching[-literal] = kept = []
            for place, clause in enumerate(watching):
                if clause[0] == -literal:
                    clause[0], clause[1] = clause[1], clause[0]
                if clause[0] not in true:
                    other = next((k for k in range(2, len(clause)) if -clause[k] not in true), None)
                    if other is not None:
                        clause[1], clause[other] = clause[other], clause[1]
                        self.watching[clause[1]].append(clause)
                        continue
                    if -clause[0] in true:
                        kept += watching[place:]
                        return None
                    left.append(clause[0])
                kept.append(clause)
        return true

    def is_fresh(self, step):
        """Whether propagation doesn't come to a step."""
        if not step:
            return True
        for literal in step:
            true = self.propagate([-other for other in step if other != literal])
            if true is not None and literal not in true:
                return True
        return False

    def follows(self, step):
        """Whether a step follows by propagation."""
        return self.propagate([-literal for literal in step]) is None


def clauses_of(text):
    """The clauses of a formula in DIMACS."""
    lines = [line for line in text.decode().splitlines() if line and line[0] not in "cp"]
    return [[int(word) for word in line.split()[:-1]] for line in lines]


def steps_of(log):
    """The clauses of the learnt steps of a log."""
    steps = []
    for line in log.decode().splitlines():
        if line.startswith("r "):
            words = line.split()[1:]
            steps.append([int(word) for word in words[: words.index("0")]])
    return steps


def judge(formula, log):
    """How many steps a log has, and the places of those that aren't as they should be."""
    clauses, wrong, steps = Clauses(clauses_of(formula)), [], steps_of(log)
    for place, step in enumerate(steps):
        if not clauses.is_fresh(step) or not clauses.follows(step):
            wrong.append(place)
        clauses.add(step)
    return len(steps), wrong


def main():
    words = argparse.ArgumentParser(description="Looks whether steps of logs are fresh.")
    words.add_argument("program")
    words.add_argument("logs", nargs="?", type=int, default=LOGS)
    words.add_argument("--learnt", type=int, default=STEPS)
    told, chance = words.parse_args(), random.Random(1)
    logs = steps = wrong = 0
    while logs < told.logs:
        grid = "{}x{}".format(*chance.choice(GRIDS))
        text = exhaust.request_text(exhaust.thrown_net(chance), [], [], []).encode()
        asked = [told.program, "layout", "--grid", grid, "--learnt", str(told.learnt)]
        done = subprocess.run(asked, input=text, stdout=subprocess.PIPE)
        if done.returncode == SPENT:
            words_of = [told.program, "formula", "--grid", grid]
            formula = subprocess.run(words_of, input=text, stdout=subprocess.PIPE).stdout
            count, places = judge(formula, done.stdout)
            logs, steps, wrong = logs + 1, steps + count, wrong + len(places)
            if places:
                print(f"{grid}, steps {places} of\n{text.decode()}", flush=True)
    print(f"{logs} logs of {steps} steps, {wrong} wrong")
    sys.exit(wrong > 0)


if __name__ == "__main__":
    main()
