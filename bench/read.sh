#!/usr/bin/env bash
# Times `beltproof flow-check unlimited` on a short design and state that 256 MiB of line feeds follow,
# against `wc -l` on the same file in the same run, and prints the ratio of the times and of peak memory
# to the input's size.
set -euo pipefail
top=$(cd "$(dirname "${BASH_SOURCE[0]}")/.." && pwd)
file=$(mktemp)
trap 'rm -f "$file"' EXIT
cat "$top/examples/loop-1-to-3.net" "$top/examples/loop-1-to-3.not-unlimited" >"$file"
head -c $((256 * 1024 * 1024)) /dev/zero | tr '\0' '\n' >>"$file"
program=$("$top/tools/program")
python3 - "$program" "$file" <<'PYTHON'
import os, subprocess, sys, time

program, path = sys.argv[1:]
size = os.path.getsize(path)


def run(words):
    """The least wall-clock seconds of three runs, the peak memory in bytes, and the output."""
    best, peak, text = None, 0, b""
    for _ in range(3):
        with open(path, "rb") as source:
            begin = time.monotonic()
            child = subprocess.Popen(words, stdin=source, stdout=subprocess.PIPE)
            text = child.stdout.read()
            _, _, usage = os.wait4(child.pid, 0)
            seconds = time.monotonic() - begin
        best = seconds if best is None else min(best, seconds)
        peak = max(peak, usage.ru_maxrss * 1024)
    return best, peak, text


ours, memory, answer = run([program, "flow-check", "unlimited"])
theirs, _, _ = run(["wc", "-l"])
print(f"answer: {answer.decode().strip()}")
print(f"beltproof {ours:.3f} s, wc -l {theirs:.3f} s: {ours / theirs:.2f} times (at most 10)")
print(f"peak memory {memory / 2**20:.0f} MiB of {size / 2**20:.0f} MiB read: {memory / size:.2f} times (at most 3)")
PYTHON
