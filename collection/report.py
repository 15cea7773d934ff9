"""The report: a page to look at, and a table of all results."""

import unicodedata
from collections import defaultdict
from pathlib import Path

from . import files, networks, page, results, trace
from .answers import SETTLED
from .rows import Row
from .running import share
from .states import KNOWN_AS
from .work import SMALLER

FORMULAS, QUOTES = set("=+-@"), "\"'` \u00a0\u3000"
"""How a text begins that a spreadsheet takes for a formula, as its widest form too, and what may stand before that."""

COLUMNS = "design place source property verdict why steps processor_seconds clock_seconds accepted file".split()
COLUMNS += "design_digest program_digest known_as ends bare opened remarks same_network_as universal".split()


def took(told):
    """How many seconds an answer took, of a processor and by the clock."""
    return [told.processor or 0, told.clock or 0]


def lines_of(row, program):
    """The results of a design, a line of words each."""
    start = [row.found.name, row.found.place, row.found.source]
    digests = [row.judged_digest, program if row.found.text is not None else ""]
    halves = (trace.spelled(row.bare), trace.spelled(row.of_reading("opened")))
    same = row.kin[0].found.name if row.kin else ""
    universal = row.universal()
    of_ends = [row.ends(), *halves, "; ".join(row.remarks()), same, universal.verdict if universal else ""]
    if not row.net:
        verdict = "passed" if row.found.is_passed else "unread"
        verdict = "failed" if row.trouble else "refused" if row.refusal() else verdict
        return [[*start, "-", verdict, row.reason() or "not read yet", 0, 0, 0, "", "", *digests, "", *of_ends]]
    lines = []
    for prop in row.asked:
        told = row.answer(prop)
        file = f"designs/{row.id()}/{told.file}" if told.file else ""
        accepted = ("yes" if told.verdict in SETTLED else "no") if file else ""
        line = [prop, told.verdict, told.why, told.steps, *took(told), accepted, file]
        lines.append([*start, *line, *digests, KNOWN_AS[prop], *of_ends])
    if row.smaller:
        told = row.smaller
        found = told.verdict == "found"
        sides = "ends side by side" if told.facing else "each end at its own side" if told.sides else "ends at any side"
        why = "{} x {}, {}".format(*told.size, sides) if found else row.why_no_smaller()
        line = ["smaller", told.verdict, why, 0, *took(told), "", f"designs/{row.id()}/{SMALLER}" if found else ""]
        lines.append([*start, *line, *digests, "", *of_ends])
    return lines


MOST_BEFORE = 40
"""So many signs are looked at for where a formula begins."""


def cell(word):
    """A cell of the table: a text that a spreadsheet takes for a formula has a mark in front that makes it none."""
    text = files.plain(str(word))
    begin = unicodedata.normalize("NFKC", text[:MOST_BEFORE]).lstrip(QUOTES)[:1]
    return f"'{text}" if begin in FORMULAS and text != "-" or text[:1] == '"' else text


def table(lines):
    return "".join("\t".join(map(cell, line)) + "\n" for line in [COLUMNS, *lines])


def find_kin(rows):
    """Tells each design which others have the same network."""
    own = []
    for row in rows:
        try:
            if row.folder and not row.same_as and row.net and networks.is_plain(row.net_text):
                own.append((row, row.cells() is None, row.cells() or 0))
        except Exception:
            continue  # What is wrong with it is told where it is shown.
    groups = {}
    for first, one in zip(networks.grouped([row.net for row, _, _ in own]), own):
        groups.setdefault(first, []).append(one)
    for them in groups.values():
        kin = [row for row, _, _ in sorted(them, key=lambda it: it[1:])]
        for row in kin if len(kin) > 1 else []:
            row.kin = kin


def standing_together(rows):
    """The rows in their order, but those with the same network together, the least in cells first."""
    found, seen = [], set()
    copies = defaultdict(list)
    for row in rows:
        if row.same_as:
            copies[id(row.same_as)].append(row)
    for row in rows:
        for it in row.kin or [row]:
            if not it.same_as and id(it) not in seen:
                seen.add(id(it))
                found += [it, *copies[id(it)]]
    return found


def title_of(rows):
    """The name of the book, or of the file, where all is from one."""
    sources = list(dict.fromkeys(row.found.source for row in rows))
    if len(sources) != 1:
        return "A collection of belt balancers"
    return sources[0].partition(", ")[2] or Path(sources[0]).stem


class NotShown(Exception):
    """Why a design can't be shown: the one that it is the same as can't be."""


def guarded(row, alone, program, unshown):
    """A design as the page has it, and its lines of the table; where they can't be made, the reason, and its folder's
    name is one of those that aren't shown."""
    try:
        if row.id() in unshown:
            raise NotShown(row.found.digest[:16])
        return page.show(row, alone), lines_of(row, program), results.of_design(row)
    except Exception as fault:
        if row.folder:
            unshown.add(row.id())
        why = f"what is kept of it can't be shown ({type(fault).__name__}: {fault})"
        bare = Row(row.found, asked=row.asked, trouble=why)
        return page.show(bare, alone), lines_of(bare, program), results.unshown(bare, why)


def write(output, rows, program):
    """Writes the report into its folder; all files, or none. Gives the rows as it shows them."""
    for left in output.glob(f".*{files.UNDONE}"):
        left.unlink()
    share(rows)
    find_kin(rows)
    rows = standing_together(rows)
    alone = len({row.found.source for row in rows}) == 1
    unshown = set()
    made = [guarded(row, alone, program, unshown) for row in rows]
    lines = table(line for _, them, _ in made for line in them)
    text = page.whole([it for it, _, _ in made], title_of(rows), program)
    told = results.whole([it for _, _, it in made], program)
    with files.replacing(output / "results.tsv", synced=True) as tsv, files.replacing(
        output / "results.json", True
    ) as whole:
        with files.replacing(output / "index.html", synced=True) as shown:
            for file, it in ((shown, text), (tsv, lines), (whole, told)):
                file.write(it.encode())
                file.flush()
    return [it.row for it, _, _ in made]
