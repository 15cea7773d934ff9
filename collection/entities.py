"""The entities of a blueprint's text with their places in it, so that what is changed leaves all the rest as it was."""

from dataclasses import dataclass

from .books import Fault, Reader


@dataclass(frozen=True)
class Member:
    """A member of an entity: its value, and where its text begins, where its value's does, and where both end."""

    value: object
    start: int
    value_start: int
    end: int


@dataclass(frozen=True)
class Entity:
    """An entity: where its text begins and ends, and its members; of one that is no object there are none."""

    start: int
    end: int
    members: dict

    def value(self, name):
        """The value of a member, or None."""
        return self.members[name].value if name in self.members else None


@dataclass(frozen=True)
class Listed:
    """A blueprint's text with its entities."""

    text: str
    entities: list
    end: int
    """Where the list's closing bracket stands."""
    others: dict
    """The blueprint's other members."""

    def text_of(self, entity):
        return self.text[entity.start : entity.end]

    def changed(self, entity, without, texts):
        """An entity's text without some of its members, and with other texts for the values of some."""
        kept = [(name, it) for name, it in entity.members.items() if name not in without]
        heads = (self.text[it.start : it.value_start] for _, it in kept)
        values = (texts.get(name, self.text[it.value_start : it.end]) for name, it in kept)
        return "{" + ",".join(map("".join, zip(heads, values))) + "}"

    def with_all(self, texts, values=None):
        """The blueprint's text with these entities in place of its own, and other texts for the values of some of its
        other members."""
        first = self.entities[0].start if self.entities else self.end
        last = self.entities[-1].end if self.entities else self.end
        changes = [(first, last, ",\n".join(texts))]
        changes += [(self.others[name].value_start, self.others[name].end, it) for name, it in (values or {}).items()]
        found, at = [], 0
        for start, end, text in sorted(changes):
            found += [self.text[at:start], text]
            at = end
        return "".join([*found, self.text[at:]])

    def with_more(self, texts):
        """The blueprint's text with these entities behind its own."""
        at = self.entities[-1].end if self.entities else self.end
        more = [",\n" * bool(self.entities or number) + it for number, it in enumerate(texts)]
        return self.text[:at] + "".join(more) + self.text[at:]


def entity_at(reader):
    """The entity that stands here; the reader goes past it."""
    reader.sign()
    start, members = reader.at, {}
    if reader.sign() != "{":
        reader.value()
        return Entity(start, reader.at, members)
    for _ in reader.parts("{", "}"):
        reader.sign()
        begin, name = reader.at, reader.value()
        reader.expect(":")
        reader.sign()
        value_start, value = reader.at, reader.value()
        if not isinstance(name, str) or name in members:
            raise Fault("an entity's member has no name of its own")
        members[name] = Member(value, begin, value_start, reader.at)
    return Entity(start, reader.at, members)


MOST_LISTED = 16384
"""How many entities are listed at most; with more, no program takes the design."""


def all_entities(reader):
    """The entities of the list that stands here; a fault where there are too many."""
    found = []
    for _ in reader.parts("[", "]"):
        if len(found) == MOST_LISTED:
            raise Fault(f"there are more than {MOST_LISTED} entities")
        found.append(entity_at(reader))
    return found


def listed(text):
    """A blueprint's entities; a fault where the text is no blueprint with a list of them, or is damaged."""
    reader, entities, end, others = Reader(text), [], None, {}
    for name in reader.members():
        if name != "blueprint" or end is not None or reader.sign() != "{":
            reader.value()
            continue
        for inner in reader.members():
            if inner == "entities" and end is None and reader.sign() == "[":
                entities = all_entities(reader)
                end = reader.at - 1
            else:
                reader.sign()
                start, value = reader.at, reader.value()
                if isinstance(inner, str):
                    others[inner] = Member(value, start, start, reader.at)
    if end is None:
        raise Fault("the text is no blueprint with a list of entities")
    return Listed(text, entities, end, others)
