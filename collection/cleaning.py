"""What is left out of a design, or is taken for something else, before the program reads it: bystanders, what only
reads a belt, and parts of a mod. All else of the text stays, faults and all, for the program to judge."""

import json
from collections import Counter
from dataclasses import dataclass, field

from . import links, rigs
from .books import Fault
from .design import BODIES, BYSTANDERS, NAMES, PREFIXES, TIERS
from .entities import listed

CONTROL = "control_behavior"
READING = {"circuit_read_hand_contents", "circuit_contents_read_mode"}
"""What a belt's control behaviour has where it only reads what lies on the belt."""
ENABLING = {
    "circuit_enable_disable": "circuit_condition",
    "circuit_enabled": "circuit_condition",
    "connect_to_logistic_network": "logistic_condition",
}
"""What stops a belt where its condition fails, unless it is false, and that condition."""
WORDS = (("splitter", "splitter"), ("underground", "underground-belt"), ("belt", "transport-belt"))
"""Which words in a part's name tell what it is, the first of them that is there."""


NOTHING = "nothing"
"""For what a name is taken that can't touch a belt."""


class WrongName(Exception):
    """Why a name can't be treated as one of a tier, in words."""


@dataclass(frozen=True)
class Cleaned:
    """A design's text as the program reads it, and what became another, in words."""

    text: str
    notes: list = field(default_factory=list)


def of_tier(words):
    """The name in `NAME=TIER`, and the name of the part of that tier for which it is taken, or None for nothing."""
    name, sign, tier = words.rpartition("=")
    if sign and name and tier == NOTHING and name not in NAMES:
        return name, None
    body = next((body for word, body in WORDS if word in name), None)
    if not sign or not name or tier not in TIERS:
        raise WrongName(
            f"NAME=TIER is wanted, where the tier is one of {', '.join(TIERS)}, or {NOTHING}, and not {words}"
        )
    if name in NAMES:
        raise WrongName(f"{name} is a part of the game, and has its own tier")
    if body is None:
        raise WrongName(f"nothing in the name {name} says whether it is a belt, an underground or a splitter")
    return name, PREFIXES[tier] + body


def only_reads(behaviour):
    """Whether a belt's control behaviour leaves the belt running."""
    if not isinstance(behaviour, dict):
        return False
    idle = {name for name in ENABLING if behaviour.get(name) is False}
    live = {name for name in ENABLING if name in behaviour} - idle
    dead = {ENABLING[name] for name in idle} - {ENABLING[name] for name in live}
    return not live and set(behaviour) <= READING | idle | dead


def name_of(entity):
    """An entity's name, or an empty one."""
    return entity.value("name") if isinstance(entity.value("name"), str) else ""


def stands_by(entity, treated):
    """Whether an entity can't touch a belt."""
    name = name_of(entity)
    return name in BYSTANDERS or treated.get(name, "") is None


def counted(names):
    return ", ".join(f"{number} × {name}" for name, number in names.items())


def cleaned(text, treated=()):
    """A design's text without what stands by and what only reads, and with the names that are treated as others."""
    try:
        found = listed(text)
    except Fault:
        return Cleaned(text)
    treated, texts = dict(treated), []
    left_out, ends, renamed, readers = Counter(), Counter(), Counter(), 0
    loaders = rigs.end_loaders(text, treated)
    gone = [it for at, it in enumerate(found.entities) if at in loaders or stands_by(it, treated)]
    numbers = links.numbers_of(gone)
    for at, entity in enumerate(found.entities):
        name = name_of(entity)
        if at in loaders or stands_by(entity, treated):
            (ends if at in loaders else left_out)[name] += 1
            continue
        taken_for = treated.get(name)
        kind, _ = NAMES.get(taken_for or name, ("", ""))
        reads = kind == BODIES["transport-belt"] and CONTROL in entity.members and only_reads(entity.value(CONTROL))
        readers += reads
        if taken_for:
            renamed[f"{name} as {taken_for}"] += 1
        linked = links.connections(entity, numbers) if numbers and links.CONNECTIONS in entity.members else None
        if taken_for or reads or linked is not None:
            names = {"name": json.dumps(taken_for)} if taken_for else {}
            names |= {links.CONNECTIONS: linked} if linked else {}
            without = {CONTROL} if reads else set()
            texts.append(found.changed(entity, without | {links.CONNECTIONS} if linked == "" else without, names))
        else:
            texts.append(found.text_of(entity))
    notes = [f"left out, since it can't touch a belt: {counted(left_out)}"] if left_out else []
    notes += [f"left out, since it only reads: {CONTROL} of {counted({'transport belt': readers})}"] if readers else []
    notes += [f"taken for ends, with the belts that they stand at: {counted(ends)}"] if ends else []
    notes += [f"taken for another: {counted(renamed)}"] if renamed else []
    return Cleaned(found.with_all(texts, links.changed(found.others, numbers)), notes) if notes else Cleaned(text)
