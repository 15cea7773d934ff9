#!/usr/bin/env python3
"""Holds the program's reading of large layouts with one part changed against the second opinion's.

    mutants.py PROGRAM [--every N] DESIGN ..

Of each design, a blueprint's JSON, each part (or each Nth) is taken away, turned to each other direction and moved by a
tile in each, one at a time. What `recover` writes or refuses of such a mutant must be what the second opinion says of
it. So the network that a layout is said to lay, and that its mutants are not, is that of both. It prints how many
mutants show the network of the design, another one, or are refused, and every difference, and ends with 1 where there
is one."""

import argparse
import io
import json
import subprocess
import sys
from collections import Counter
from pathlib import Path

sys.dont_write_bytecode = True

from opinion import words
from opinion.parts import VERSION_TWO

WAYS = ((0, -1), (1, 0), (0, 1), (-1, 0))  # north, east, south and west


def is_upright(entity, turn):
    return entity.get("direction", 0) % (2 * turn) == 0


def turned(entity, quarters, turn):
    """The entity turned to the right by quarters, each so many of its directions; of a splitter the half stays that is
    further to the north or to the west."""
    direction = (entity.get("direction", 0) + turn * quarters) % (4 * turn)
    changed = {**entity, "position": {**entity["position"]}, "direction": direction}
    if entity["name"].endswith("splitter") and quarters % 2:
        further = 0.5 if is_upright(entity, turn) else -0.5
        changed["position"]["x"] -= further
        changed["position"]["y"] += further
    return changed


def moved(entity, way):
    """The entity, a tile away."""
    x, y = entity["position"]["x"], entity["position"]["y"]
    return {**entity, "position": {"x": x + way[0], "y": y + way[1]}}


def mutants(design, every):
    """What was done, and the text, of each mutant of a design."""
    entities = design["blueprint"]["entities"]
    turn = 2 if design["blueprint"].get("version", 0) < VERSION_TWO else 4
    for place in range(0, len(entities), every):
        entity, front, behind = entities[place], entities[:place], entities[place + 1 :]
        changes = [("away", [])]
        changes += [(f"turned by {quarters}", [turned(entity, quarters, turn)]) for quarters in (1, 2, 3)]
        changes += [(f"moved by {way}", [moved(entity, way)]) for way in WAYS]
        for change, instead in changes:
            mutant = {"blueprint": {**design["blueprint"], "entities": [*front, *instead, *behind]}}
            yield f"part {place} {change}", json.dumps(mutant)


def by_program(program, text):
    ran = subprocess.run([program, "recover"], input=text.encode(), stdout=subprocess.PIPE, check=False)
    return ran.returncode, ran.stdout.decode("latin-1")


def by_second_opinion(text):
    return words.run(["recover"], io.BytesIO(text.encode()).read, None)


def held(program, path, every):
    """The counts of a design's mutants, and the differences."""
    text = Path(path).read_text(encoding="utf-8")
    own, told, different = by_program(program, text), Counter(), []
    for change, mutant in mutants(json.loads(text), every):
        answer, other = by_program(program, mutant), by_second_opinion(mutant)
        if answer != other:
            different.append(f"{path}, {change}: {answer}, and by the second opinion {other}")
        told["the same network" if answer == own else "another network" if answer[0] == 0 else "refused"] += 1
    return told, different


def main():
    told_words = argparse.ArgumentParser(description="Holds readings of mutants of layouts against each other.")
    told_words.add_argument("program")
    told_words.add_argument("--every", type=int, default=1)
    told_words.add_argument("designs", nargs="+")
    asked, wrong = told_words.parse_args(), 0
    for path in asked.designs:
        told, different = held(asked.program, path, asked.every)
        wrong += len(different)
        counts = ", ".join(f"{count} {name}" for name, count in sorted(told.items()))
        print("\n".join([f"{path}: {counts}", *different]))
    print(f"{wrong} differences")
    sys.exit(wrong > 0)


if __name__ == "__main__":
    main()
