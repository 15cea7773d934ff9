"""How far the work is: a line on a terminal that is drawn again, or elsewhere a line every ten seconds."""

import os
import sys
import time

from .files import plain

REDRAWN_EACH = 0.5
"""Seconds between two drawings of the line on a terminal."""
TOLD_EACH = 10
"""Seconds between two lines where there is no terminal."""
MOST_NAMED = 3
"""How many runs the line names at most."""


class Progress:
    """How much is done, how much is left, and what runs."""

    def __init__(self, count, stream=None, clock=time.monotonic):
        self.count, self.stream, self.clock = count, stream or sys.stderr, clock
        self.done, self.running, self.live = 0, {}, (stream or sys.stderr).isatty()
        self.start = self.told = clock()
        self.least = {}
        """The least that was found so far, by designs, in words."""

    def line(self):
        left, passed = self.count - self.done, self.clock() - self.start
        rest = passed / self.done * left if self.done else 0
        time_left = f", some {int(rest) // 60}:{int(rest) % 60:02} left" if self.done else ""
        runs = ", ".join(plain(it) for it in list(self.running.values())[:MOST_NAMED])
        least = "".join(f"; {plain(name)}: {words}" for name, words in list(self.least.items())[-1:])
        clock = f"{int(passed) // 60}:{int(passed) % 60:02}"
        return f"{clock}: {self.done} done, {left} to do{time_left}: {runs}{least}"

    def draw(self):
        """Draws the line, where it is time to."""
        if self.live:
            self.write("\r\x1b[K" + self.line()[: os.get_terminal_size(self.stream.fileno()).columns - 1])
        elif self.clock() - self.told >= TOLD_EACH:
            self.told = self.clock()
            self.write(f"collection: {self.line()}\n")

    def end(self):
        if self.live:
            self.write("\r\x1b[K")

    def write(self, text):
        self.stream.write(text)
        self.stream.flush()
