"""Two reports compared: which designs are new, gone, moved, smaller, or have other verdicts or another network."""

import json
from collections import defaultdict
from dataclasses import dataclass
from html import escape
from pathlib import Path

from . import files, networks, states
from .page import HERE, element, named, policy, shown
from .report import cell
from .results import FORMAT

PAGE, TABLE, RESULTS = "index.html", "changes.tsv", "results.json"
CHANGES = ("new", "gone", "moved", "another network", "smaller", "larger", "verdict changed")
COLUMNS = ("change", "old", "new", "what")


class NoReport(Exception):
    """Why a folder has no results to compare, in words."""


@dataclass(frozen=True)
class Change:
    """A change: what it is, the design's old name and its new one, where it has them, and more of it in words."""

    kind: str
    old: str
    new: str
    what: str


def read(folder):
    """The designs of a report."""
    try:
        told = json.loads(Path(folder, RESULTS).read_text("utf-8"))
    except OSError as fault:
        raise NoReport(f"{folder} has no {RESULTS}: {fault.strerror}") from None
    except (ValueError, RecursionError):
        raise NoReport(f"the {RESULTS} in {folder} is damaged") from None
    if not isinstance(told, dict) or told.get("format") != FORMAT or not isinstance(told.get("designs"), list):
        raise NoReport(f"the {RESULTS} in {folder} is of another form")
    return [it for it in told["designs"] if it["status"] != "passed" and not it["same_as"]]


def area(design):
    """How many cells a design has, or None."""
    return design["cells"][0] * design["cells"][1] if design["cells"] else None


def body_of(design):
    """What is equal of a design that has another label alone; None where it has no network."""
    return (design["network"], *design["cells"], *design["tiers"]) if design["network"] and design["cells"] else None


def paired(old, new):
    """The pairs of designs that are the same ones: by their digest, then by their names, and then by all that is judged
    of them; and what is left of both."""
    pairs, left = [], list(new)
    for key in (lambda it: it["digest"], lambda it: it["name"], body_of):
        there = defaultdict(list)
        for it in left:
            there[key(it)].append(it)
        rest = []
        for it in old:
            if key(it) and there[key(it)]:
                found = there[key(it)].pop(0)
                pairs.append((it, found))
                left = [other for other in left if other is not found]
            else:
                rest.append(it)
        old = rest
    return pairs, old, left


def is_same_network(one, other):
    """Whether two designs have the same network, but for the numbers of its ends and splitters."""
    if not one["network"] or not other["network"]:
        return one["network"] == other["network"]
    if one["network"] == other["network"]:
        return True
    if not (networks.is_plain(one["network"]) and networks.is_plain(other["network"])):
        return False
    nets = [states.read_net(it["network"]) for it in (one, other)]
    return networks.shape(nets[0]) == networks.shape(nets[1]) and networks.renaming(
        *(it.edges for it in nets)
    ) is not None


def where(design):
    return " ".join(filter(None, (design["source"], design["place"])))


def of_pair(old, new):
    """What changed of a design."""
    names = old["name"], new["name"]
    if names[0] != names[1]:
        yield Change("moved", *names, f"from {where(old)} to {where(new)}")
    if not is_same_network(old, new):
        yield Change("another network", *names, f"{ends_of(old)} before, {ends_of(new)} now")
    sizes = area(old), area(new)
    if None not in sizes and sizes[0] != sizes[1]:
        told = "{} × {} before, {} × {} now".format(*old["cells"], *new["cells"])
        yield Change("smaller" if sizes[1] < sizes[0] else "larger", *names, told)
    verdicts = [{it["property"]: it["words"] for it in design["properties"]} for design in (old, new)]
    # Where only one of the reports was asked for a property, nothing is said of it.
    for prop in [it for it in verdicts[0] | verdicts[1] if not all(verdicts) or all(it in them for them in verdicts)]:
        before, now = (it.get(prop, "none") for it in verdicts)
        if before != now:
            yield Change("verdict changed", *names, f"{prop}: {before} before, {now} now")


def ends_of(design):
    return "{} to {}".format(*design["ends"]) if design["ends"] else "no network"


def changes(old, new):
    """All changes, by their kinds."""
    pairs, gone, added = paired(old, new)
    found = [change for pair in pairs for change in of_pair(*pair)]
    for kind, them, others in (("new", added, old), ("gone", gone, new)):
        for it in them:
            same = [other["name"] for other in others if it["network"] and is_same_network(it, other)]
            more = f", with the same network as {same[0]}" if same else ""
            names = ("", it["name"]) if kind == "new" else (it["name"], "")
            found.append(Change(kind, *names, f"{ends_of(it)}{more}"))
    return sorted(found, key=lambda it: (CHANGES.index(it.kind), it.new or it.old))


def table(found):
    lines = [COLUMNS, *((it.kind, it.old, it.new, it.what) for it in found)]
    return "".join("\t".join(map(cell, line)) + "\n" for line in lines)


def page(found, titles):
    """The page of the changes."""
    counts = ((sum(it.kind == kind for it in found), kind) for kind in CHANGES)
    tiles = (element("li", element("strong", number), element("span", kind)) for number, kind in counts)
    rows = []
    for it in found:
        name = named(it.new or it.old)
        before = element(
            "span", "before: ", named(it.old), class_="note"
        ) if it.old and it.new and it.old != it.new else ""
        rows.append(element(
            "tr", element("th", name, before, scope="row"), element("td", it.kind), element("td", shown(it.what))
        ))
    body = element("table", element("tbody", *rows), class_="others") if rows else element("p", "Nothing has changed.")
    title = f"{titles[0]} and {titles[1]}, compared"
    content = element("header", element("h1", shown(title)), element("ul", *tiles, class_="tiles"))
    head = (
        element("meta", charset="utf-8"),
        policy(""),
        element("meta", name="viewport", content="width=device-width, initial-scale=1"),
        element("meta", name="color-scheme", content="light dark"),
        element("title", escape(files.plain(title))),
        element("style", (HERE / "report.css").read_text("utf-8")),
    )
    body = element("body", element("main", element("section", content, body, class_="front")))
    return f"<!DOCTYPE html>\n{element('html', element('head', *head), body, lang='en')}\n"


def write(output, old, new):
    """Compares two reports, and writes the page and the table into a folder; the changes."""
    found = changes(read(old), read(new))
    files.write(Path(output, PAGE), page(found, [Path(it).name or str(it) for it in (old, new)]))
    files.write(Path(output, TABLE), table(found))
    return found
