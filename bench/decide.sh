#!/usr/bin/env bash
# Times `beltproof decide` as a whole program against z3 on the same question, which is written here as SMT-LIB, on the
# networks that collections are about, which it makes itself (networks.py), and prints for each property the verdict,
# the steps of its log, whether `check` accepts it, both times, their ratio and the program's memory. The seconds are
# those of the processor, the least of several runs that take turns; what takes less than a tenth of a second counts as
# one.
#
#     bench/decide.sh [NAME ...]
#
# measures the networks whose names begin so, by default all. It needs z3 (`apt-get install z3`).
set -euo pipefail
bench=$(cd "$(dirname "${BASH_SOURCE[0]}")" && pwd)
top=$(dirname "$bench")
work=$(mktemp -d)
trap 'rm -rf "$work"' EXIT
program=$("$top/tools/program")
PYTHONDONTWRITEBYTECODE=1 PYTHONPATH=$bench python3 - "$program" "$top/examples" "$work" "$@" <<'PYTHON'
import os, signal, subprocess, sys, threading

import networks

program, examples, work, *wanted_names = sys.argv[1:]
PROPERTIES = ["balanced", "drawn-evenly", "unlimited", "full"]
# The seconds that z3 and the program get, the seconds that anything counts as at least, and the most that a decision
# should take as times of z3: as much as z3 from 16 lines on where the property is balanced or full.
Z3_SECONDS, SECONDS, LEAST, MOST = 60, 300, 0.1, 3


def network(text):
    head, *lines = text.splitlines()
    counts = [int(word) for word in head.split()[1:]]
    edges = []
    for line in lines[:-1]:
        _, start, target, *cap = line.split()
        edges.append(((start[0], int(start[1:])), (target[0], int(target[1:])), int(cap[0]) if cap else 1))
    return counts, edges


def formula(counts, edges, wanted):
    """The states that break the property, as SMT-LIB: flows, loads, rooms and marks under the laws of a steady
    state."""
    inputs, outputs, splitters = counts
    out = ["(set-logic QF_LRA)"]
    f, m = [f"f{e}" for e in range(len(edges))], [f"m{e}" for e in range(len(edges))]
    c, d = [f"c{i}" for i in range(inputs)], [f"d{o}" for o in range(outputs)]
    out += [f"(declare-const {it} Real)" for it in f + c + d] + [f"(declare-const {it} Bool)" for it in m]
    said = lambda text: out.append(f"(assert {text})")
    first = {start: e for e, (start, _, _) in enumerate(edges) if start[0] == "i"}
    last = {target: e for e, (_, target, _) in enumerate(edges) if target[0] == "o"}
    total = lambda items: "0" if not items else items[0] if len(items) == 1 else f"(+ {' '.join(items)})"
    for e, (_, _, cap) in enumerate(edges):
        said(f"(and (>= {f[e]} 0) (<= {f[e]} {cap}))")
    for i in range(inputs):
        e = first["i", i]
        said(f"(and (>= {c[i]} 0) (<= {c[i]} {edges[e][2]}) (>= {c[i]} {f[e]}) (or {m[e]} (>= {f[e]} {c[i]})))")
    for o in range(outputs):
        e = last["o", o]
        said(f"(and (>= {d[o]} 0) (<= {d[o]} {edges[e][2]}) (>= {d[o]} {f[e]}) (or (not {m[e]}) (>= {f[e]} {d[o]})))")
    for s in range(splitters):
        ins = [e for e, (_, target, _) in enumerate(edges) if target == ("s", s)]
        outs = [e for e, (start, _, _) in enumerate(edges) if start == ("s", s)]
        said(f"(= {total([f[e] for e in ins])} {total([f[e] for e in outs])})")
        for side, mark in ((outs, "{}"), (ins, "(not {})")):
            if len(side) == 2:
                for x, y in (side, side[::-1]):
                    full = f" (>= {f[x]} {edges[x][2]})" if edges[x][2] < edges[y][2] else ""
                    said(f"(or {mark.format(m[x])} (>= {f[x]} {f[y]}){full})")
        for a in ins:
            for x in outs:
                said(f"(or (not {m[a]}) {m[x]} (>= {f[x]} {edges[x][2]}))")
    if wanted in ("balanced", "full"):
        out += [f"(assert (>= {d[o]} {edges[last['o', o]][2]}))" for o in range(outputs)]
    if wanted in ("drawn-evenly", "full"):
        out += [f"(assert (>= {c[i]} {edges[first['i', i]][2]}))" for i in range(inputs)]
    if wanted in ("balanced", "drawn-evenly"):
        flows = [f[last["o", o]] for o in range(outputs)] if wanted == "balanced" else [
            f[first["i", i]] for i in range(inputs)
        ]
        said(f"(or false {' '.join(f'(distinct {flows[0]} {it})' for it in flows[1:])})")
    else:
        carried = total([f[last["o", o]] for o in range(outputs)])
        said(f"(> {total(c)} {carried})")
        said(f"(> {total(d)} {carried})")
    return "\n".join([*out, "(check-sat)", ""])


# The runs of each side, and the seconds of both after which no more are begun.
ROUNDS, ENOUGH = 20, 6


def run(words, path, seconds):
    """The processor seconds and the memory in MB of one run, and what was printed; None where it took too long."""
    with open(path, "rb") as file:
        process = subprocess.Popen(words, stdin=file, stdout=subprocess.PIPE)
        timer = threading.Timer(seconds, process.kill)
        timer.start()
        text = process.stdout.read()
        _, status, usage = os.wait4(process.pid, 0)
        timer.cancel()
    killed = os.WIFSIGNALED(status) and os.WTERMSIG(status) == signal.SIGKILL
    return usage.ru_utime + usage.ru_stime, usage.ru_maxrss / 1024, None if killed else text.decode()


def race(ours, theirs):
    """The least seconds of both sides, which take turns, with the last memory and text of each."""
    best, spent = [None, None], 0
    for _ in range(ROUNDS):
        for side, (words, path, seconds) in enumerate((ours, theirs)):
            if best[side] and best[side][2] is None:
                continue
            result = run(words, path, seconds)
            spent += result[0]
            best[side] = min(best[side] or result, result, key=lambda it: it[0])
        if spent > ENOUGH:
            break
    return best


def write(name, text):
    path = os.path.join(work, name)
    with open(path, "w") as file:
        file.write(text)
    return path


def is_accepted(text, wanted, answer):
    path = write("both", text + answer)
    with open(path, "rb") as file:
        return subprocess.run([program, "check", wanted], stdin=file, stdout=subprocess.DEVNULL).returncode in (0, 1)


def is_met(name, wanted, ratio):
    """Whether a goal in time is met: at most three times z3's; at most z3's where the field is hard for it."""
    lines = int(name.split("-")[1]) if name.startswith(("butterfly", "doubled-1")) else 0
    hard = name == "balancer-8-to-8" or lines >= 16 and wanted in ("balanced", "full")
    return ratio <= (1 if hard else MOST)


texts = {name: open(os.path.join(examples, f"{name}.net")).read() for name in ("balancer-4-to-4", "balancer-8-to-8")}
named = networks.all_networks()
named |= {f"exchanged-{2**k}": networks.exchanged(networks.butterfly(k), k) for k in (4, 5, 6)}
named |= {f"scattered-{n}-{seed}": networks.scattered(n, 4 + seed, seed) for n in (20, 50) for seed in range(3)}
texts |= {name: network.text() for name, network in named.items()}
for name, text in texts.items():
    if wanted_names and not name.startswith(tuple(wanted_names)):
        continue
    for wanted in PROPERTIES:
        question = write("formula", formula(*network(text), wanted))
        ours, theirs = race(
            ([program, "decide", wanted], write("network", text), SECONDS), (
                ["z3", "-smt2", "/dev/stdin"], question, Z3_SECONDS
            )
        )
        answer = ours[2]
        if answer is None:
            print(f"{name} {wanted}: no answer in {SECONDS} s")
            continue
        first, *lines = answer.splitlines()
        steps, lemmas = (sum(line[:2] in starts for line in lines) for starts in (("f ", "r "), ("f ",)))
        theirs_said = "no answer" if theirs[2] is None else theirs[2].split()[0]
        agree = theirs[2] is None or {"unsat": "yes", "sat": "no"}.get(theirs_said) == first.split()[0]
        ratio = max(ours[0], LEAST) / max(theirs[0], LEAST)
        notes = [] if is_accepted(text, wanted, answer) else ["NOT ACCEPTED"]
        notes += [] if agree else ["DIFFERS"]
        notes += [] if theirs[2] is None or is_met(name, wanted, ratio) else ["slower than the goal"]
        print(
            f"{name} {wanted}: {first} ({steps} steps, {lemmas} lemmas) {ours[0]:.3f} s, {ours[1]:.0f} MB, "
            f"z3 {theirs_said} {theirs[0]:.3f} s: {ratio:.2f} times{''.join(f', {note}' for note in notes)}",
            flush=True,
        )
PYTHON
