#!/usr/bin/env bash
# Times `beltproof check unlimited` on a certificate of 100 MB and on one of 200 MB, and prints the ratio and the most
# memory that it takes for the text's size. Then times `check` on a short certificate behind the two network texts of
# 2048 edges that follow, against `flow-check` on the same network with a state, and prints that ratio.
set -euo pipefail
top=$(cd "$(dirname "${BASH_SOURCE[0]}")/.." && pwd)
folder=$(mktemp -d)
trap 'rm -rf "$folder"' EXIT
program=$("$top/tools/program")
python3 - "$program" "$top/examples" "$folder" <<'PYTHON'
import os, subprocess, sys

program, examples, folder = sys.argv[1:]
SIZE = 100_000_000
ORDER = 7


def repeated(certificate, size):
    """A certificate of about so many bytes: the steps of this one again and again, but the empty clause at the end
    alone."""
    verdict, *steps, last, end = certificate.splitlines()
    text, count, length = [verdict], 0, 0
    while True:
        block = [shifted(step, count) for step in steps]
        text += block
        length += sum(map(len, block)) + len(block)
        if length >= size:
            return "\n".join([*text, shifted(last, count), end]) + "\n"
        count += len(steps)


def shifted(step, count):
    """A step whose hints name the steps of its own block, before which so many steps stand."""
    if step.startswith("f"):
        return step
    front, back = step.split(" 0 ", 1) if " 0 " in step else ("r", step[4:])
    hints = [int(word) for word in back.split()[:-1]]
    return f"{front} 0 {' '.join(str(hint + count if hint > CLAUSES else hint) for hint in hints)} 0"


def butterflies():
    """Two networks of 7 stages beside each other, 256 inputs to 256 outputs: the edges in their order."""
    ends, edges = 2**ORDER, []
    half = ends // 2
    for copy in range(2):
        first = copy * ORDER * half

        def splitter(stage, wire):
            low = wire & ((1 << stage) - 1)
            return ("s", first + stage * half + (low | wire >> stage + 1 << stage))

        for wire in range(ends):
            course = [
                ("i", copy * ends + wire), *(splitter(stage, wire) for stage in range(ORDER)), ("o", copy * ends + wire)
            ]
            edges += zip(course, course[1:])
    order = {"i": 0, "s": 1, "o": 2}
    return 2 * ends, 2 * ends, 2 * ORDER * half, sorted(edges, key=lambda e: [(order[end[0]], end[1]) for end in e])


def belts():
    """2048 belts beside each other."""
    return 2048, 2048, 0, [(("i", number), ("o", number)) for number in range(2048)]


def network_text(inputs, outputs, splitters, edges):
    lines = [f"edge {a[0]}{a[1]} {b[0]}{b[1]}" for a, b in edges]
    return "\n".join([f"net {inputs} {outputs} {splitters}", *lines, "end"]) + "\n"


def state_text(inputs, outputs, edges):
    """A state in which nothing moves."""
    words = [f"load{' 0' * inputs}", f"room{' 0' * outputs}", f"flow{' 0' * edges}", f"mark{' f' * edges}"]
    return "\n".join(["no unlimited", *words, "end"]) + "\n"


def run(words, path, rounds):
    """The least processor seconds of some runs, the most memory in bytes, and what was printed."""
    best, most, text = None, 0, b""
    for _ in range(rounds):
        with open(path, "rb") as file:
            process = subprocess.Popen(words, stdin=file, stdout=subprocess.PIPE)
            text = process.stdout.read()
            _, _, usage = os.wait4(process.pid, 0)
        time = usage.ru_utime + usage.ru_stime
        best = time if best is None else min(best, time)
        most = max(most, 1024 * usage.ru_maxrss)
    return best, most, text.decode().strip()


def write(name, text):
    path = os.path.join(folder, name)
    with open(path, "w") as file:
        file.write(text)
    return path


network = open(os.path.join(examples, "chain-1-to-3.net")).read()
formula = subprocess.run([program, "formula", "unlimited"], input=network, capture_output=True, text=True, check=True)
# A certificate numbers its steps after the clauses of the flow formula.
CLAUSES = next(int(line.split()[3]) for line in formula.stdout.splitlines() if line.startswith("p cnf"))
certificate = open(os.path.join(examples, "chain-1-to-3.yes-unlimited")).read()
once = network + repeated(certificate, SIZE)
time, memory, answer = run([program, "check", "unlimited"], write("once", once), 5)
double, _, _ = run([program, "check", "unlimited"], write("twice", network + repeated(certificate, 2 * SIZE)), 5)
print(
    f"100 MB: {answer}: {time:.2f} s, {memory / len(once):.1f} times the text in memory, twice the length "
    f"{double / time:.2f} times (at most 2.2)"
)

for name, (inputs, outputs, splitters, edges) in {"belts": belts(), "butterflies": butterflies()}.items():
    text = network_text(inputs, outputs, splitters, edges)
    short, _, answer = run([program, "check", "unlimited"], write(name, text + "yes unlimited\nr 0 1 0\nend\n"), 20)
    judged, _, other = run(
        [program, "flow-check", "unlimited"], write(name + "-state", text + state_text(inputs, outputs, len(edges))), 20
    )
    print(
        f"{name}: {len(edges)} edges, {answer}: {short * 1e3:.1f} ms, "
        f"flow-check ({other}) {judged * 1e3:.1f} ms: {short / judged:.2f} times (at most 3)"
    )
PYTHON
