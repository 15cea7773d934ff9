"""Throws labels, books and members at the tool for collections that nobody would publish, and looks whether each file
is told or refused in time, with a report.

    python3 -B -m collection.tests.fuzz PROGRAM SEED COUNT

writes what goes wrong, and how long the slowest took; `python3 -B -m collection.tests.fuzz PROGRAM large` throws files
of 16 MB. Some seeds are in the merge gate."""

import contextlib
import io
import json
import random
import resource
import subprocess
import sys
import tempfile
import time
from pathlib import Path

from .. import strings
from ..command import main as collection
from ..program import TOP

SIGNS = list("4-x:→to=>[]{}\"'\\\t\n\r@＝＋ \u202e\ud800\u0000é✓") + [
    "[item=", "[color=red]", "<script>", "</script>", "&amp;"
]
NAMES = ["transport-belt", "splitter", "underground-belt", "fast-splitter", "small-lamp", "inserter", "x" * 300, ""]
NUMBERS = [0, 0.5, 1, 1.5, 2, -1, 1e300, -0.0, 10**400, None, True, "1", [], {}, 281479271677952, 562949953421312]
MOST_SECONDS, MOST_BYTES = 10, 500 * 2**20


def label(chance):
    """A label, some of them long."""
    return "".join(chance.choice(SIGNS) for _ in range(chance.choice((1, 5, 30, 5000))))


def value(chance, depth=0):
    """Any value of JSON."""
    kind = chance.randrange(6 if depth < 4 else 3)
    if kind < 3:
        return (label(chance)[:50], chance.choice(NUMBERS), chance.choice([True, False, None]))[kind]
    many = range(chance.randrange(4))
    return [value(chance, depth + 1) for _ in many] if kind == 3 else {
        label(chance)[:9]: value(chance, depth + 1) for _ in many
    }


def entity(chance):
    """An entity, most of whose members are what they are to be."""
    name = chance.choice(NAMES[:3]) if chance.random() < 0.8 else chance.choice(NAMES)
    x, y = (chance.randrange(6) + chance.choice((0.5, 0.5, 0.5, 0)) for _ in "xy")
    found = {"entity_number": chance.randrange(9), "name": name, "position": {"x": x, "y": y}}
    found["direction"] = chance.choice((0, 2, 4, 6))
    if name == "underground-belt":
        found["type"] = chance.choice(("input", "output"))
    while chance.random() < 0.15:
        keys = [
            "name",
            "position",
            "direction",
            "type",
            "control_behavior",
            "output_priority",
            "filter",
            "wires",
            label(chance),
        ]
        found[chance.choice(keys)] = value(chance)
    return found


def design(chance):
    """A design, or what stands in the place of one."""
    told = {
        "item": "blueprint", "entities": [entity(chance) for _ in range(chance.randrange(12))], "label": label(chance)
    }
    if chance.random() < 0.2:
        told[chance.choice(["entities", "label", "version", "description", "icons", "wires"])] = value(chance)
    return {chance.choice(["blueprint"] * 9 + ["deconstruction_planner"]): told, "index": chance.choice(NUMBERS)}


def book(chance, depth=0):
    """A book, some of them deep."""
    inner = [
        design(chance) if depth > 3 or chance.random() < 0.7 else book(chance, depth + 1)
        for _ in range(chance.randrange(5))
    ]
    return {"blueprint_book": {"blueprints": inner, "label": label(chance)}, "index": chance.randrange(5)}


def mangled(chance, data):
    """Some bytes of a text changed, taken out or doubled."""
    found = bytearray(data)
    for _ in range(chance.choice((0, 0, 0, 1, 5))):
        at = chance.randrange(len(found) + 1)
        found[at : at + chance.randrange(4)] = bytes(chance.choice(b'{}[]",:0e') for _ in range(chance.randrange(4)))
    return bytes(found)


def file(chance):
    """A file's bytes: JSON or strings of it."""
    told = (design if chance.random() < 0.4 else book)(chance)
    data = mangled(chance, json.dumps(told, ensure_ascii=chance.random() < 0.5).encode("utf-8", "surrogatepass"))
    return mangled(chance, strings.deflate(data).encode()) if chance.random() < 0.4 else data


def large():
    """Files of 16 MB, each with what it is made of."""
    size = 16 * 10**6
    opened = b'{"blueprint":{"item":"blueprint","entities":['
    inside = b'{"blueprint_book":{"label":"' + b"a" * 1000 + b'","blueprints":['
    yield "dashes in a label", b'{"blueprint":{"label":"4' + b"-" * size + b'","entities":[]}}'
    yield "numbers in a label", b'{"blueprint":{"label":"' + b"4 - " * (size // 4) + b'","entities":[]}}'
    yield "books in one another", inside * (size // len(inside))
    yield "empty objects", opened + b"{}," * (size // 3) + b"{}]}}"
    yield "a list of numbers", opened + b"1.5," * (size // 4) + b"1]}}"
    yield "brackets", b"[" * size
    yield "empty designs", b'{"blueprint_book":{"blueprints":[' + b'{"blueprint":{}},' * (size // 17) + b"{}]}}"
    yield "many designs", b'{"blueprint_book":{"blueprints":[' + b'{"blueprint":{}},' * (size // 40) + b"{}]}}"
    yield "a label of 3 MB", b'{"blueprint":{"label":"4' + b"-" * (3 * 10**6) + b'","entities":[]}}'
    yield "entities of 3 MB", opened + b"{}," * (10**6) + b"{}]}}"
    yield "a long number", b'{"blueprint":{"entities":[{"position":{"x":' + b"1" * size + b"}}]}}"
    yield "beginnings of strings", b"0eNqrVkrOSM3JyVe yQcz " * (size // 22)
    yield "zeros", b"0" * size
    yield "blanks", b" \n" * (size // 2)
    yield "a bomb", strings.deflate(b'{"blueprint":{"entities":[' + b" " * (30 * 2**20) + b"]}}").encode()
    yield "a larger bomb", strings.deflate(bytes(60 * 2**20)).encode()
    book = b'{"blueprint_book":{"description":"' + b"A" * (32 * 2**20 - 100) + b'","blueprints":[]}}'
    yield "thirty bombs", "\n".join([strings.deflate(book)] * 30).encode()
    yield "belts", opened + b",".join(
        b'{"name":"transport-belt","position":{"x":%d.5,"y":0.5}}' % at for at in range(280000)
    ) + b"]}}"
    yield "a description", b'{"blueprint":{"description":"' + b"[item=" * (size // 6) + b'","entities":[]}}'
    yield "members", b'{"blueprint":{' + b",".join(b'"%d":0' % at for at in range(size // 11)) + b"}}"
    yield "a net", b"net 1 1 0\n" + b"edge i0 o0\n" * (size // 11)


def is_reported(folder, data, program):
    """Runs the tool on a file; whether there is a report, and its status is one of those that it may have."""
    path = Path(folder, "in.txt")
    path.write_bytes(data)
    with contextlib.redirect_stdout(io.StringIO()), contextlib.redirect_stderr(io.StringIO()):
        status = collection([str(path), "-o", str(Path(folder, "report")), "--jobs", "2", "--program", str(program)])
    return status in (0, 1) and Path(folder, "report", "index.html").is_file()


def throw(program, seeds):
    """Throws a file for each seed; what goes wrong, in lines. Seconds are those of the processor."""
    for seed in seeds:
        with tempfile.TemporaryDirectory() as folder:
            begin, data = time.process_time(), file(random.Random(seed))
            try:
                is_well = is_reported(folder, data, program)
            except Exception as fault:
                yield f"seed {seed}: {type(fault).__name__}: {fault}"
                continue
            seconds = time.process_time() - begin
            if not is_well or seconds > MOST_SECONDS:
                yield f"seed {seed}: {seconds:.1f} s, and {'a' if is_well else 'no'} report"


def throw_large(program):
    """Throws each large file at a process of its own; how long it took, and how much memory."""
    for name, data in large():
        with tempfile.TemporaryDirectory() as folder:
            path, begin = Path(folder, "in.txt"), time.monotonic()
            path.write_bytes(data)
            words = [
                sys.executable,
                "-B",
                "-m",
                "collection",
                str(path),
                "-o",
                str(Path(folder, "report")),
                "--program",
                program,
            ]
            ended = subprocess.run(words, cwd=TOP, capture_output=True, check=False)
            seconds, there = time.monotonic() - begin, Path(folder, "report", "index.html").is_file()
            most = resource.getrusage(resource.RUSAGE_CHILDREN).ru_maxrss // 1024
            said = ended.stderr.decode("utf-8", "replace").splitlines()[-1:] + ended.stdout.decode().splitlines()[-1:]
            print(
                f"{name}: {seconds:.1f} s, {most} MB at most so far, status {ended.returncode}, {there}: "
                f"{str(said)[:200]}"
            )


if __name__ == "__main__":
    if sys.argv[2] == "large":
        throw_large(sys.argv[1])
    else:
        first, count = map(int, sys.argv[2:])
        print("\n".join(throw(sys.argv[1], range(first, first + count))))
