#!/usr/bin/env bash
# Times `beltproof decide` of the six properties of universal balancers, of 4 to 32 lines and two that a search found,
# and of `fair` and `drawn-fairly` of butterflies of 64 lines, which have neither. It prints for each property the
# verdict, the steps and bytes of its certificate, whether `check` accepts it, and the seconds of a processor, the least
# of several runs, and says where a goal isn't met.
#
#     bench/universal.sh [PROGRAM [NAME ...]]
#
# measures the program of these sources where none is told, on the networks whose names begin so, by default all.
set -euo pipefail
bench=$(cd "$(dirname "${BASH_SOURCE[0]}")" && pwd)
top=$(dirname "$bench")
program=${1:-$("$top/tools/program")}
shift || true
PYTHONDONTWRITEBYTECODE=1 PYTHONPATH=$bench python3 - "$program" "$top/examples" "$@" <<'PYTHON'
import os, subprocess, sys, tempfile

import networks

program, examples, *names = sys.argv[1:]
SHARING = ["fair", "drawn-fairly"]
SIX = ["balanced", "drawn-evenly", "unlimited", "full", *SHARING]
RUNS, ENOUGH = 5, 2  # and the seconds after which no more runs are begun
# The networks, with the most seconds and bytes of one decision that are wanted.
GOALS = [
    ("universal-4-to-4", networks.universal(2), SIX, 0.02, 20000),
    ("universal-8-to-8", networks.universal(3), SIX, 0.1, 60000),
    ("universal-16-to-16", networks.universal(4), SIX, 0.5, None),
    ("universal-32-to-32", networks.universal(5), SIX, 3, None),
    *((name, open(os.path.join(examples, f"{name}.net")).read(), SIX, 0.05, None)
      for name in ("universal-3-to-3", "universal-1-to-3")),
    ("butterfly-64", networks.butterfly(6).text(), SHARING, 1, None),
    ("doubled-64", networks.doubled(6).text(), SHARING, 1, None),
]


def run(words, text):
    """The seconds of one run, its status, and what was written."""
    with tempfile.TemporaryFile() as given:
        given.write(text)
        given.seek(0)
        process = subprocess.Popen([program, *words], stdin=given, stdout=subprocess.PIPE)
        written = process.stdout.read()
        _, status, usage = os.wait4(process.pid, 0)
    return usage.ru_utime + usage.ru_stime, os.waitstatus_to_exitcode(status), written


for name, text, wanted, most, bytes_ in GOALS:
    for prop in wanted if not names or name.startswith(tuple(names)) else ():
        best = spent = None
        for _ in range(RUNS):
            seconds, status, written = run(["decide", prop], text.encode())
            best, spent = min(best or seconds, seconds), (spent or 0) + seconds
            if spent > ENOUGH:
                break
        lines = written.splitlines()
        steps = sum(line[:2] in (b"f ", b"r ") for line in lines)
        notes = [] if run(["check", prop], text.encode() + written)[1] == status else ["NOT ACCEPTED"]
        notes += [] if best <= most else ["slower than the goal"]
        notes += [] if bytes_ is None or len(written) <= bytes_ else ["longer than the goal"]
        verdict = lines[0].decode()
        told = f"{steps} steps, {len(written)} bytes, {best:.3f} s"
        print(f"{name} {verdict}: {', '.join([told, *notes])}", flush=True)
PYTHON
