#!/usr/bin/env bash
# Times `beltproof layout` as a whole program against SAT solvers on the formula that it refutes or meets, which
# `beltproof formula` prints, and tells for each request and grid the answer, the steps of a log, the seconds of the
# processor, the program's memory, and each solver's seconds and the ratio. What takes less than a hundredth of a second
# counts as one. Of what a solver doesn't answer in its time the time is told, and no ratio.
#
#     bench/layout.sh [NAME ...]
#
# measures the requests whose names begin so, by default all, each under three numberings of its network, of which
# solvers get the first. It takes those of cadical, minisat and cryptominisat5 that it finds, and tells memory where
# there is GNU time (`apt-get install minisat cryptominisat time`). Behind them come designs that `smallest --found`
# makes smaller, whose names begin with `smaller`: the grid that was found and the rows and seconds that are wanted.
set -euo pipefail
bench=$(cd "$(dirname "${BASH_SOURCE[0]}")" && pwd)
top=$(dirname "$bench")
work=$(mktemp -d)
trap 'rm -rf "$work"' EXIT
program=$("$top/tools/program")
PYTHONDONTWRITEBYTECODE=1 PYTHONPATH=$bench python3 - "$program" "$top/examples" "$work" "$@" <<'PYTHON'
import os, re, shutil, signal, subprocess, sys
from pathlib import Path

import networks

program, examples, work, *wanted_names = sys.argv[1:]
SECONDS, SOLVER_SECONDS, LEAST, NUMBERINGS = 300, 60, 0.01, 3
SOLVERS = [
    words
    for words in (["cadical", "-q"], ["minisat", "-verb=0"], ["cryptominisat5", "--verb", "0"])
    if shutil.which(words[0])
]
# A request, its grids, and what is wanted there: an answer, the most seconds, and the most as times of cadical.
CASES = [
    ("balancer-4-to-4", ["4x6", "5x8"], "found", 0.05, None),
    ("balancer-4-to-4", ["5x5"], "none", None, 0.3),
    ("stages-4-to-4", ["5x7"], "found", None, None),
    ("stages-4-to-4", ["6x7"], "found", 1, None),
    ("stages-4-to-4", ["5x6", "6x6"], "none", None, 1),
    ("ring-8-to-8", ["8x8"], "found", 0.5, None),
    ("ring-6-to-6", ["4x8", "16x16"], "found", 1, None),
    ("one-belt", ["16x16"], "found", 1, None),
    ("splitter-2-to-2", ["16x16"], "found", 1, None),
    ("balancer-8-to-8", ["9x11"], "found", 2, None),
    ("balancer-8-to-8", ["16x16", "12x12", "8x16", "9x12", "8x14", "8x13", "10x10", "10x11"], "found", 20, None),
    ("balancer-8-to-8", ["9x10", "10x9", "10x12", "9x13", "11x11", "16x9"], "found", 5, None),
    ("balancer-8-to-8", ["8x12"], "found", None, None),
    ("balancer-8-to-8", ["9x9"], "found", 5, None),
    ("balancer-8-to-8", ["7x11"], "found", 30, None),
    ("stages-4-to-4", ["16x16"], "found", 5, None),
    ("ring-8-to-8", ["16x16"], "found", 5, None),
    ("doubled-4-to-4", ["16x16", "10x12", "8x12"], "found", 5, None),
    ("belt-across", ["16x16"], "found", 5, None),
    ("pinned-2-to-2", ["16x16"], "found", 5, None),
    ("own-loop", ["16x16"], "found", 5, None),
    ("loop-5-to-5", ["16x16", "13x15", "12x14", "12x12", "10x14"], "found", 5, None),
    ("loop-6-to-6", ["16x16", "12x15", "12x14", "12x12"], "found", 5, None),
    ("loop-7-to-7", ["16x16", "12x14", "12x12", "9x12"], "found", 5, None),
    ("sided-4-to-4", ["16x16", "5x8"], "found", 10, None),
    ("sided-6-to-6", ["16x16", "7x10"], "found", 10, None),
    ("sided-8-to-8", ["16x16", "12x12", "9x12"], "found", 10, None),
    ("sided-doubled-4-to-4", ["16x16", "8x14"], "found", 10, None),
    ("sided-loop-5-to-5", ["16x16", "12x16"], "found", 10, None),
    ("sided-loop-6-to-6", ["16x16", "12x14"], "found", 10, None),
    ("sided-loop-7-to-7", ["16x16", "12x14"], "found", 10, None),
    ("row-8", ["8x13", "8x15"], "found", 1, None),
    ("row-16", ["16x22", "16x25"], "found", 1, None),
    ("row-32", ["32x38", "32x44"], "found", 1, None),
    ("row-64", ["64x68", "64x79"], "found", 1, None),
    ("row-benes-16", ["16x41"], "found", 1, None),
    ("row-benes-32", ["32x73"], "found", 1, None),
    ("row-benes-64", ["64x133"], "found", 1, None),
    ("led-back-15-of-16", ["20x29"], "found", 10, None),
    ("led-back-14-of-16", ["20x29"], "found", 10, None),
    ("led-back-12-of-16", ["22x28"], "found", 10, None),
    ("led-back-9-of-16", ["24x31"], "found", 10, None),
    ("scattered-20", ["160x160"], "found", 10, None),
    ("scattered-50", ["160x160"], "found", 10, None),
    ("scattered-100", ["160x160"], "found", 10, None),
]


# A design that is made smaller: an example, or a request and the grid in which it is laid; words; and by how many steps
# at most how many cells and seconds are wanted.
SMALLER = [
    ("smaller-16x33", "row-16", "16x33", [], {20_000: (16 * 28, 10), 100_000: (16 * 23, 60)}),
    ("smaller-16x33-sides", "row-16", "16x33", ["--sides"], {20_000: (16 * 28, 10), 100_000: (16 * 23, 60)}),
    ("smaller-16x53", "row-16", "16x53", [], {100_000: (16 * 23, 60)}),
    ("smaller-32x60", "row-32", "32x60", [], {100_000: (32 * 40, 60)}),
    ("smaller-35x36", "balancer-16-to-16", None, [], {100_000: (16 * 23, 60)}),
]


def staged(ends, stages):
    """As many inputs as outputs, two at each of the first and of the last splitters, and the edges between."""
    splitters = [int(number) for number in re.findall("s([0-9]+)", stages)]
    last = max(splitters) + 1 - ends // 2
    edges = [f"i{i} s{i // 2}" for i in range(ends)] + stages.split(",") + [
        f"s{last + o // 2} o{o}" for o in range(ends)
    ]
    return "\n".join([f"net {ends} {ends} {max(splitters) + 1}", *(f"edge {edge}" for edge in edges), "end"]) + "\n"


def balancer():
    """The balancer of the examples, for loops: its edges as networks.py has them."""
    text = (Path(examples) / "balancer-8-to-8.net").read_text()
    ends = [
        tuple((end[0], int(end[1:])) for end in line.split()[1:3])
        for line in text.splitlines() if line.startswith("edge")
    ]
    return networks.Network(8, 8, 12, ends)


def demanded(text, *lines):
    """The request for a network with these lines of pins or sides."""
    return text.replace("end\n", "\n".join([*lines, "end"]) + "\n")


def pinned(name, *pins):
    """The request for a network of the examples with these pins."""
    return demanded((Path(examples) / f"{name}.net").read_text(), *pins)


def sided(text):
    """The request for a network whose inputs are in the south and whose outputs are in the north."""
    return demanded(text, "side inputs south", "side outputs north")


def in_rows(network):
    """The request for a network whose inputs are side by side in the south, and its outputs in the north."""
    return demanded(network.text(), "side inputs south", "side outputs north", "row inputs", "row outputs")


MADE = {
    "stages-4-to-4": lambda: staged(4, "s0 s2,s0 s3,s1 s2,s1 s3,s2 s4,s2 s5,s3 s4,s3 s5"),
    "ring-8-to-8": lambda: staged(8, "s0 s4,s0 s5,s1 s5,s1 s6,s2 s6,s2 s7,s3 s7,s3 s4"),
    "ring-6-to-6": lambda: staged(6, "s0 s3,s0 s4,s1 s4,s1 s5,s2 s5,s2 s3"),
    "doubled-4-to-4": lambda: networks.doubled(2).text(),
    "belt-across": lambda: pinned("one-belt", "pin i0 0 0", "pin o0 15 15"),
    "pinned-2-to-2": lambda: pinned("splitter-2-to-2", "pin i0 0 0", "pin i1 15 15", "pin o0 0 15"),
    "own-loop": lambda: "net 1 1 1\nedge i0 s0\nedge s0 s0\nedge s0 o0\nend\n",
    "loop-5-to-5": lambda: networks.looped(balancer(), 5).text(),
    "loop-6-to-6": lambda: networks.looped(balancer(), 6).text(),
    "loop-7-to-7": lambda: networks.looped(balancer(), 7).text(),
    "sided-4-to-4": lambda: sided((Path(examples) / "balancer-4-to-4.net").read_text()),
    "sided-6-to-6": lambda: sided(MADE["ring-6-to-6"]()),
    "sided-8-to-8": lambda: sided(balancer().text()),
    "sided-doubled-4-to-4": lambda: sided(networks.doubled(2).text()),
    "sided-loop-5-to-5": lambda: sided(networks.looped(balancer(), 5).text()),
    "sided-loop-6-to-6": lambda: sided(networks.looped(balancer(), 6).text()),
    "sided-loop-7-to-7": lambda: sided(networks.looped(balancer(), 7).text()),
    **{f"row-{2**k}": lambda k=k: in_rows(networks.butterfly(k)) for k in (3, 4, 5, 6)},
    **{f"row-benes-{2**k}": lambda k=k: in_rows(networks.benes(k)) for k in (4, 5, 6)},
    **{
        f"led-back-{n}-of-16": lambda n=n: sided(networks.looped(networks.butterfly(4), n).text())
        for n in (9, 12, 14, 15)
    },
    **{f"scattered-{n}": lambda n=n: networks.scattered(n, 8, 1).text() for n in (20, 50, 100)},
}


def launched(words, limit):
    """Words that end a command after so many seconds and write down the most memory that it takes. Asked of the system
    by this script, that would be no less than what this script takes itself, which begins each command as its copy."""
    bounded = ["timeout", "--foreground", "-s", "KILL", str(limit), *words]
    return [*(["time", "-q", "-f", "%M", "-o", f"{work}/memory"] if shutil.which("time") else []), *bounded]


def run(words, text, rounds, limit):
    """The least processor seconds of some runs and the most memory in MB, what was printed, or None where it takes too
    long, and of memory where there is no GNU time."""
    path, memory = Path(work) / "input", Path(work) / "memory"
    path.write_text(text)
    best, most, printed = None, None, ""
    for _ in range(rounds):
        with path.open("rb") as file:
            process = subprocess.Popen(
                launched(words, limit), stdin=file, stdout=subprocess.PIPE, stderr=subprocess.DEVNULL
            )
            printed = process.stdout.read().decode()
            _, status, usage = os.wait4(process.pid, 0)
            process.returncode = status
        if memory.exists():
            most = max(most or 0, int(memory.read_text().split()[-1]) / 1024)
        if os.waitstatus_to_exitcode(status) == 128 + signal.SIGKILL:
            return None, most, ""
        seconds = usage.ru_utime + usage.ru_stime
        best = seconds if best is None else min(best, seconds)
        if seconds > 3:
            break
    return best, most, printed


def in_mb(memory):
    return "" if memory is None else f"{memory:.0f}"


def told(seconds, limit):
    return f"over {limit} s" if seconds is None else f"{seconds:.2f} s"


print("| request | grid | answer | seconds | MB | " + "".join(f"{words[0]} | times | " for words in SOLVERS) + "goal |")
print("|---" * (6 + 2 * len(SOLVERS)) + "|")
for name, grids, wanted, most_seconds, most_times in CASES:
    if wanted_names and not any(name.startswith(front) for front in wanted_names):
        continue
    plain = MADE[name]() if name in MADE else (Path(examples) / f"{name}.net").read_text()
    for grid, numbering in ((grid, numbering) for grid in grids for numbering in range(NUMBERINGS)):
        text = networks.renumbered(plain, numbering)
        ours, memory, printed = run([program, "layout", "--grid", grid], text, 3, SECONDS)
        first = printed.split("\n", 1)[0]
        steps = sum(line.startswith("r ") for line in printed.splitlines())
        answer = "no answer" if ours is None else "found" if first.startswith(
            "{"
        ) else f"{first.split()[0]}, {steps} steps"
        rivals = []
        formula = run([program, "formula", "--grid", grid], text, 1, SECONDS)[2] if numbering == 0 else ""
        for words in SOLVERS:
            if numbering > 0 or not formula.startswith("c"):
                rivals.append(" | | ")
                continue
            seconds, _, said = run([*words, "/dev/stdin"], formula, 3, SOLVER_SECONDS)
            if seconds is not None and answer != "no answer" and ("UNSATISFIABLE" in said) == (answer == "found"):
                sys.exit(f"{name} in {grid}: {words[0]} says otherwise")
            times = "" if None in (ours, seconds) else f"{max(ours, LEAST) / max(seconds, LEAST):.2f}"
            rivals.append(f"{told(seconds, SOLVER_SECONDS)} | {times} | ")
        goal = [wanted] + [f"{most_seconds} s"] * (most_seconds is not None) + [f"{most_times} times cadical"] * (
            most_times is not None
        )
        print(
            f"| {name} | {grid} | {answer} | {told(ours, SECONDS)} | {in_mb(memory)} | "
            f"{''.join(rivals)}{', '.join(goal)} |",
            flush=True,
        )


def design(name, grid):
    """The example of this name, or the layout of a request in a grid."""
    if grid is None:
        return (Path(examples) / f"{name}.json").read_text()
    return run([program, "layout", "--grid", grid], MADE[name](), 1, SECONDS)[2]


print("\n| design | words | steps | grid | seconds | MB | goal |")
print("|---" * 7 + "|")
for name, request, grid, words, goals in SMALLER:
    if wanted_names and not any(name.startswith(front) for front in wanted_names):
        continue
    text = design(request, grid)
    for steps, (most_cells, most_seconds) in goals.items():
        asked = [program, "smallest", "--found", *words, "--learnt", str(steps)]
        seconds, memory, printed = run(asked, text, 1, SECONDS)
        found = printed.split("\n", 1)[0].removeprefix("grid ") or "no answer"
        print(
            f"| {name} | {' '.join(words)} | {steps} | {found} | {told(seconds, SECONDS)} | {in_mb(memory)} | "
            f"{most_cells} cells, {most_seconds} s |",
            flush=True,
        )
PYTHON
