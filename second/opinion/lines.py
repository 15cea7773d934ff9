"""Lines and blanks of a text, which has one character for each byte."""

import re

from opinion.answers import need

BLANKS = re.compile("[ \t\n\r]*")


def past_blanks(text, at):
    """The first place from there on at which no blank stands."""
    return BLANKS.match(text, at).end()


def lines_of(text):
    """The lines of a text, and behind them an empty one, which may stand nowhere.

    The last line needs no line feed.
    """
    return [*text.removesuffix("\n").split("\n"), ""] if text else [""]


def nothing_after(lines, number):
    """Refuses the first line behind the one of that number that is more than blanks."""
    for behind in range(number, len(lines)):
        need(not lines[behind].strip(" \t\r"), 50, "CertLine", behind + 1)
