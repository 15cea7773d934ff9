"""The results of a report for programs that build on it: `results.json`, whose members docs/COLLECTIONS.md tells."""

import json

from . import labels, states
from .answers import SETTLED
from .rows import LABELS
from .states import KNOWN_AS
from .work import SMALLER

FORMAT = 1
"""The number of these members' form: it grows where one is taken away, or means something else."""


def place_of(place):
    """A bare half as an object."""
    kind, x, y = place
    return {"kind": kind, "x": x, "y": y}


def of_property(row, prop):
    """What became of a property."""
    told = row.answer(prop)
    return {
        "property": prop,
        "known_as": KNOWN_AS[prop],
        "verdict": told.verdict,
        "words": LABELS[told.verdict],
        "why": told.why,
        "steps": told.steps,
        "processor_seconds": told.processor,
        "clock_seconds": told.clock,
        "accepted": bool(told.file) and told.verdict in SETTLED,
        "file": f"designs/{row.id()}/{told.file}" if told.file else None,
    }


def of_universal(row):
    """Whether it is universal, and which properties it hasn't; None where that isn't known."""
    told = row.universal()
    return {"verdict": told.verdict, "fails": list(told.failing)} if told else None


def of_smaller(row):
    """What became of looking for a smaller layout, or None where it wasn't looked for."""
    told = row.smaller
    if told is None:
        return None
    is_found = told.verdict == "found"
    return {
        "verdict": told.verdict,
        "why": "" if is_found else row.why_no_smaller(),
        "cells": told.size if is_found else None,
        "sides": is_found and told.sides,
        "facing": is_found and told.facing,
        "file": f"designs/{row.id()}/{SMALLER}" if is_found else None,
    }


def status_of(row):
    """What became of a design as a whole."""
    if row.net:
        return "choices" if row.choices else "open" if row.is_open() else "judged"
    if row.found.is_passed:
        return "passed"
    return "failed" if row.trouble else "refused" if row.refusal() else "unread"


def of_design(row):
    """What is told of a design."""
    claims = labels.claims(row.found.label())
    return {
        "name": row.found.name,
        "label": row.found.label(),
        "books": row.found.books,
        "place": row.found.place,
        "source": row.found.source,
        "folder": f"designs/{row.id()}" if row.folder else None,
        "same_as": row.same_as.found.name if row.same_as else None,
        "status": status_of(row),
        "reason": row.reason(),
        "digest": row.found.digest,
        "judged_digest": row.judged_digest,
        "ends": [row.net.inputs, row.net.outputs] if row.net else None,
        "splitters": row.net.splitters if row.net else None,
        "network": row.net_text if row.net else None,
        "choices": len(row.choices),
        "cells": list(row.size()) if row.size() else None,
        "tiers": list(row.tiers()),
        "bare": [place_of(it) for it in row.bare],
        "opened": [place_of(it) for it in row.of_reading("opened")],
        "gaps": [list(it) for it in row.of_reading("gaps")],
        "warnings": row.warnings,
        "remarks": row.remarks(),
        "claims": claims.properties,
        "same_network_as": row.kin[0].found.name if row.kin else None,
        "properties": [of_property(row, prop) for prop in row.asked] if row.net else [],
        "universal": of_universal(row),
        "smaller": of_smaller(row),
    }


def unshown(row, why):
    """What is told of a design of which what is kept is damaged."""
    told = dict.fromkeys(MEMBERS) | {"name": row.found.name, "label": row.found.label(), "source": row.found.source}
    lists = {it: [] for it in ("tiers", "bare", "opened", "gaps", "warnings", "remarks", "properties")}
    more = {"place": row.found.place, "books": row.found.books, "digest": row.found.digest, "judged_digest": ""}
    return told | lists | more | {"status": "failed", "reason": why, "claims": {}, "choices": 0}


MEMBERS = (
    "name label books place source folder same_as status reason digest judged_digest ends splitters network choices "
    "cells tiers bare opened gaps warnings remarks claims same_network_as properties universal smaller"
).split()
"""The members of a design, in their order."""


def whole(designs, program):
    """The text of the results."""
    told = {"format": FORMAT, "program_digest": program, "designs": designs}
    return json.dumps(told, indent=1, ensure_ascii=True) + "\n"


def nets_of(designs):
    """The networks of designs as numbers, where they have one."""
    return [states.read_net(it["network"]) if it.get("network") else None for it in designs]
