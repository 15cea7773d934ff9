#!/usr/bin/env bash
# Runs the program on worked cases with one growth of memory refused: the first, then the second, until a run asks for
# none so late. Each run must end with status 8 and write nothing, or answer as it does with all memory. Prints a line
# for each case. It needs gcc, for tools/refuse_memory.c.
set -euo pipefail
top=$(cd "$(dirname "${BASH_SOURCE[0]}")/.." && pwd)
folder=$(mktemp -d)
trap 'rm -rf "$folder"' EXIT
gcc -O2 -shared -fPIC -o "$folder/refuse_memory.so" "$top/tools/refuse_memory.c"
program=$("$top/tools/program")
python3 - "$program" "$folder/refuse_memory.so" "$top/examples" <<'PYTHON'
import os, subprocess, sys

program, library, examples = sys.argv[1:]
WANT_OF_MEMORY = 8
CASES = [
    (["flow-check", "unlimited"], ["bottleneck-2-to-2.net", "bottleneck-2-to-2.not-unlimited"]),
    (["check", "unlimited"], ["one-belt.net", "one-belt.yes-unlimited"]),
    (["decide", "balanced"], ["splitter-2-to-2.net"]),
    (["recover"], ["splitter-2-to-2.json"]),
    (["layout", "--grid", "2x3"], ["splitter-2-to-2.net"]),
]


def run(words, text, refused=0):
    """The status, what was written, and whether a growth of memory was refused."""
    reads, writes = os.pipe()
    environment = {"LD_PRELOAD": library, "REFUSED": str(refused), "NOTED": str(writes)} if refused else {}
    ended = subprocess.run([program, *words], input=text, capture_output=True, env=environment, pass_fds=[writes])
    os.close(writes)
    noted = os.read(reads, 1)
    os.close(reads)
    return ended.returncode, ended.stdout, noted != b""


bad = 0
for words, names in CASES:
    text = b"".join(open(os.path.join(examples, name), "rb").read() for name in names)
    status, answer, _ = run(words, text)
    case = f"{' '.join(words)} < {' '.join(names)}"
    if answer == b"usage\n":
        print(f"{case}: no such command")
        continue
    number = lacked = answered = 0
    wrong = []
    while True:
        number += 1
        *ended, refused = run(words, text, number)
        if not refused:
            break
        if ended == [WANT_OF_MEMORY, b""]:
            lacked += 1
        elif ended == [status, answer]:
            answered += 1
        else:
            wrong.append((number, ended[0], len(ended[1])))
    bad += len(wrong)
    print(
        f"{case}: {number - 1} growths of memory: status 8 where {lacked} of them were refused, the "
        f"answer where {answered}, "
        f"something else where {len(wrong)}{f': number, status and bytes {wrong[:5]}' if wrong else ''}"
    )
    if ended != [status, answer]:
        bad += 1
        print(f"{case}: with nothing refused it answers otherwise under the library")
sys.exit(bad > 0)
PYTHON
