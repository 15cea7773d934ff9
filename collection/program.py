"""Runs the program: with what it reads and where it writes, for so many seconds at most."""

import os
import signal
import subprocess
import threading
import time
from dataclasses import dataclass
from pathlib import Path

from .files import BLOCK, digest_of_file

TOP = Path(__file__).resolve().parent.parent
EXACT_STATUSES = {0, 1, 2, 3, 4, 5, 9, 10, 11, 12}
"""With these the program ended as its sources say; with others it lacked memory or a stream, or was ended."""


class NoProgram(Exception):
    """Why there is no program to run, in words."""


@dataclass(frozen=True)
class Ended:
    """How a run ended: its status, negative for a signal; how many seconds it took of a processor, and by the clock;
    whether its time was up."""

    status: int
    processor: float
    clock: float
    late: bool


class Program:
    """The program at a path, and those of its runs that are under way."""

    def __init__(self, path):
        self.path, self.digest = str(path), digest_of_file(path)
        if self.digest is None or not os.access(path, os.X_OK):
            raise NoProgram(f"{path} is no program that can be run")
        self.running, self.guard, self.stopped = {}, threading.Lock(), False

    def run(self, words, reads, writes, seconds=None):
        """Runs it with these words; what it reads is a list of bytes and of paths, and it writes to an open file."""
        with self.guard:
            if self.stopped:
                raise KeyboardInterrupt
            process = subprocess.Popen(
                [self.path, *words], stdin=subprocess.PIPE, stdout=writes, stderr=subprocess.DEVNULL
            )
            self.running[process.pid] = False
        begin = time.monotonic()
        timer = threading.Timer(seconds, self.end, [process.pid]) if seconds else None
        if timer:
            timer.daemon = True
            timer.start()
        try:
            feed(process.stdin, reads)
            os.waitid(os.P_PID, process.pid, os.WEXITED | os.WNOWAIT)
        except BaseException:
            self.end(process.pid)
            raise
        finally:
            with self.guard:
                _, status, usage = os.wait4(process.pid, 0)
                late = self.running.pop(process.pid)
            process.returncode = os.waitstatus_to_exitcode(status)
            if timer:
                timer.cancel()
        clock = time.monotonic() - begin
        return Ended(process.returncode, usage.ru_utime + usage.ru_stime, clock, late)

    def end(self, pid):
        """Ends a run that is under way."""
        with self.guard:
            if pid in self.running:
                self.running[pid] = True
                os.kill(pid, signal.SIGKILL)

    def stop(self):
        """Ends all runs, and begins none any more."""
        with self.guard:
            self.stopped = True
            for pid in self.running:
                os.kill(pid, signal.SIGKILL)


def feed(pipe, reads):
    """Writes bytes and files into a pipe; who reads it may have ended."""
    try:
        with pipe:
            for it in reads:
                if isinstance(it, bytes):
                    pipe.write(it)
                    continue
                with open(it, "rb") as file:
                    while block := file.read(BLOCK):
                        pipe.write(block)
    except BrokenPipeError:
        pass


def find(path=None):
    """The program at a path, or that which the environment names, or the one that bin/beltproof starts."""
    path = path or os.environ.get("BELTPROOF_PROGRAM")
    if path is None:
        asked = subprocess.run([str(TOP / "tools" / "program")], stdout=subprocess.PIPE, text=True)
        if asked.returncode:
            raise NoProgram("there is no program of these sources")
        path = asked.stdout.strip()
    return Program(path)
