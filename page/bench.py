"""Times the program in the page, in Chromium without a window, against the program beside the page, in one run and in
turn.

    python3 -m page.bench PAGE

prints the seconds of both, their ratio, and the memory of both, for decisions on 64 lines, layouts of eight to eight
and the check of a certificate of 9 MB; then the size of the page, and how long a click on a 4 to 4 balancer takes to
its first verdict. Both are wall seconds, the least of several runs. It wants the command chromium."""

import base64
import subprocess
import sys
import tempfile
from pathlib import Path

from .build import PROGRAM
from .look import EXAMPLES, Page, deflate
from .sheet import TOP

TIMES = 3
LINES = 6
"""The order of the butterfly that is decided: 64 lines."""

CERTIFICATE = 9_000_000
MOST_ROOM = 1.3
"""How many times the memory of the program the page's should have at most."""

sys.path.insert(0, str(TOP / "bench"))


def cases(program):
    """What is timed: a name, the words, what is read, and the most that the ratio of times should be."""
    import networks

    lines = networks.butterfly(LINES).text().encode()
    for prop in ("balanced", "drawn-evenly", "unlimited", "full"):
        yield f"decide {prop}, 64 lines", ["decide", prop], lines, 2.5
    eight = (EXAMPLES / "balancer-8-to-8.net").read_bytes()
    for grid in ("9x11", "12x12"):
        yield f"layout {grid}, eight to eight", ["layout", "--grid", grid], eight, 2.5
    splitter = (EXAMPLES / "splitter-2-to-2.net").read_bytes()
    yes = subprocess.run([program, "decide", "unlimited"], input=splitter, stdout=subprocess.PIPE, check=True).stdout
    verdict, *steps, _ = yes.decode().splitlines()
    formula = subprocess.run(
        [program, "formula", "unlimited"], input=splitter, stdout=subprocess.PIPE, check=True
    ).stdout
    clauses = next(int(it.split()[3]) for it in formula.decode().splitlines() if it.startswith("p cnf"))
    text = repeated(steps, clauses)
    yield "check, 9 MB", ["check", "unlimited"], splitter + f"{verdict}\n{text}end\n".encode(), 4


def repeated(steps, clauses):
    """A certificate of 9 MB: these steps again and again, but the empty clause at the end alone."""
    *block, last = steps
    text, count, length = [], 0, 0

    def shifted(step):
        if step.startswith("f"):
            return step
        front, back = step.split(" 0 ", 1) if " 0 " in step else ("r", step[4:])
        hints = [int(it) for it in back.split()[:-1]]
        return f"{front} 0 {' '.join(str(it + count if it > clauses else it) for it in hints)} 0"

    while length < CERTIFICATE:
        new = [shifted(it) for it in block]
        text += new
        length += sum(map(len, new)) + len(new)
        if length < CERTIFICATE:
            count += len(block)
    return "".join(f"{it}\n" for it in [*text, shifted(last)])


RUN = """
import os, subprocess, sys, time
began = time.monotonic()
process = subprocess.Popen(sys.argv[1:], stdout=subprocess.PIPE)
length = sum(map(len, iter(lambda: process.stdout.read(1 << 20), b"")))
_, status, usage = os.wait4(process.pid, 0)
print(time.monotonic() - began, 1024 * usage.ru_maxrss, os.waitstatus_to_exitcode(status), length)
"""
"""What runs the program: a small process, since what a process takes counts what the one took that it came from."""


def by_program(program, words, data):
    """The seconds, the memory in bytes, the status and the length of the answer of the program."""
    command = [sys.executable, "-S", "-c", RUN, program, *words]
    told = subprocess.run(command, input=data, stdout=subprocess.PIPE, check=True).stdout.split()
    return float(told[0]), *map(int, told[1:])


def by_page(page, words):
    """The same of the page's program, over the bytes that the page was given: of its memory the pages that hold
    something, since no more of the program's is counted, and all that it grew to."""
    told = "(it) => [it.seconds, it.touched, it.status, it.written?.length, it.memory]"
    script = f"program.run({words}, window.timed, 'timing', {{ isMeasured: true }}).told.then({told})"
    told = page.ask("Runtime.evaluate", expression=script, awaitPromise=True, returnByValue=True)
    return told["result"]["value"]


def main(path):
    path = Path(path).resolve()
    program, wrong = path.with_name(PROGRAM), []
    with tempfile.TemporaryDirectory(ignore_cleanup_errors=True) as room:
        page = Page(room)
        try:
            page.open(path.as_uri())
            page.wait("document.querySelectorAll('#examples option').length > 5")
            for name, words, data, most in cases(program):
                page.value(f"window.timed = fromBase64('{base64.b64encode(data).decode()}'); 0")
                best = {}
                for _ in range(TIMES):
                    for key, told in (("page", by_page(page, words)), ("program", by_program(program, words, data))):
                        best[key] = min(best.get(key, told), told)
                ours, theirs = best["page"], best["program"]
                ratio, room_ratio = ours[0] / theirs[0], ours[1] / theirs[1]
                print(
                    f"{name}: page {ours[0]:.2f} s, program {theirs[0]:.2f} s, {ratio:.2f} times (at most {most}); "
                    f"memory {ours[1] / 1e6:.0f} MB of {ours[4] / 1e6:.0f} MB and {theirs[1] / 1e6:.0f} MB, "
                    f"{room_ratio:.2f} times (at most {MOST_ROOM})",
                    flush=True,
                )
                if ours[2:4] != list(theirs[2:]):
                    wrong.append(f"{name}: the page's program answers otherwise: {ours[2:4]} and {theirs[2:]}")
            print(f"the page has {path.stat().st_size} bytes")
            string = deflate((EXAMPLES / "balancer-4-to-4.json").read_bytes())
            page.value(f"document.getElementById('text').value = '{string}'")
            first = (
                "new Promise((resolve) => { const began = performance.now(); document.getElementById('open').click(); "
                "const look = () => document.querySelector('.verdict.yes, .verdict.no') "
                "? resolve((performance.now() - began) / 1000) : setTimeout(look, 1); look(); })"
            )
            told = page.ask("Runtime.evaluate", expression=first, awaitPromise=True, returnByValue=True)
            print(f"the first verdict of a 4 to 4 balancer comes {told['result']['value']:.2f} s after the click")
        finally:
            page.process.terminate()
            page.process.wait()
    print("\n".join(wrong), end="\n" * bool(wrong))
    return bool(wrong)


if __name__ == "__main__":
    sys.exit(main(*sys.argv[1:]))
