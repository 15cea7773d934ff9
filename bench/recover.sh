#!/usr/bin/env bash
# Times `beltproof recover` as a whole program: on fields of 1024 and of 4096 entities, with the ratio of the
# two times, and on a blueprint of 16 MiB against Python's json.loads of the same text, in one run.
set -euo pipefail
top=$(cd "$(dirname "${BASH_SOURCE[0]}")/.." && pwd)
work=$(mktemp -d)
trap 'rm -rf "$work"' EXIT
program=$("$top/tools/program")
python3 - "$program" "$work" <<'PYTHON'
import json, os, subprocess, sys, time

program, work = sys.argv[1:]

# A four to four balancer, by cells: belts, undergrounds to the north (U in, u out), splitters to the north.
BALANCER = """\
^^.^^
[].[]
^^<^^
^.uu^
^>>>^
^^UU.
[][].
^^^^.""".splitlines()
DIRECTIONS = {"^": 0, ">": 2, "v": 4, "<": 6}


def entity(mark, x, y):
    """The entity that a map's mark stands for at a cell, or None."""
    if mark in DIRECTIONS:
        return {"name": "transport-belt", "position": {"x": x + 0.5, "y": y + 0.5}, "direction": DIRECTIONS[mark]}
    if mark in "Uu":
        piece = "input" if mark == "U" else "output"
        return {"name": "underground-belt", "position": {"x": x + 0.5, "y": y + 0.5}, "direction": 0, "type": piece}
    if mark == "[":
        return {"name": "splitter", "position": {"x": x + 1, "y": y + 0.5}, "direction": 0}
    return None


def field(count):
    """So many entities: balancers in rows of sixteen, and lone belts for the rest."""
    entities = []
    for place in range(count // 30):
        left, top = 6 * (place % 16), 9 * (place // 16)
        for y, row in enumerate(BALANCER):
            entities += [e for x, mark in enumerate(row) if (e := entity(mark, left + x, top + y))]
    entities += [entity("^", -2 - 2 * k, 0) for k in range(count - len(entities))]
    return entities


def blueprint(entities, **more):
    return json.dumps(
        {"blueprint": {"item": "blueprint", "entities": entities, **more, "version": 281479271677952}}
    ).encode()


def padded(entities, size):
    """A blueprint with tiles up to about the size."""
    tiles, length = [], len(blueprint(entities, tiles=[]))
    while length < size - 80:
        tile = {"position": {"x": len(tiles) % 977, "y": len(tiles) // 977}, "name": "refined-concrete"}
        tiles.append(tile)
        length += len(json.dumps(tile)) + 2
    return blueprint(entities, tiles=tiles)


def seconds(words, path):
    """The least processor seconds of five runs."""
    best = None
    for _ in range(5):
        with open(path, "rb") as source:
            child = subprocess.Popen(words, stdin=source, stdout=subprocess.DEVNULL)
            _, status, usage = os.wait4(child.pid, 0)
        assert os.WEXITSTATUS(status) == 0, f"{words} ended with {os.WEXITSTATUS(status)}"
        spent = usage.ru_utime + usage.ru_stime
        best = spent if best is None else min(best, spent)
    return best


paths = {}
for count in (1024, 4096):
    paths[count] = os.path.join(work, f"{count}.json")
    with open(paths[count], "wb") as out:
        out.write(blueprint(field(count)))
large = os.path.join(work, "large.json")
with open(large, "wb") as out:
    out.write(padded(field(4096), 16 * 2**20))

few, many = seconds([program, "recover"], paths[1024]), seconds([program, "recover"], paths[4096])
print(f"1024 entities {few * 1000:.1f} ms, 4096 entities {many * 1000:.1f} ms: {many / few:.2f} times (at most 6)")
ours = seconds([program, "recover"], large)
theirs = None
with open(large, "rb") as source:
    text = source.read()
for _ in range(3):
    begin = time.process_time()
    json.loads(text)
    spent = time.process_time() - begin
    theirs = spent if theirs is None else min(theirs, spent)
print(
    f"{len(text) / 2**20:.1f} MiB: beltproof {ours:.3f} s, json.loads {theirs:.3f} s: {ours / theirs:.2f} "
    "times (at most 1)"
)
PYTHON
