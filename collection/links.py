"""What links the entities of a blueprint by their numbers: wires, circuit connections and schedules. Of entities that
are left out these go too; all else of the text stays."""

import json

CONNECTIONS = "connections"
"""The member by which an entity tells its circuit connections, before version 2.0."""


def spelled(value):
    return json.dumps(value, separators=(",", ":"))


def numbers_of(entities):
    """The numbers of some entities."""
    return {it for it in (entity.value("entity_number") for entity in entities) if isinstance(it, int)}


def is_number_of(value, gone):
    return isinstance(value, int) and not isinstance(value, bool) and value in gone


def unlinked(value, gone):
    """A value without the objects in its lists that name one of these entities, and without what is empty then."""
    if isinstance(value, list):
        left = [it for it in value if not (isinstance(it, dict) and is_number_of(it.get("entity_id"), gone))]
        return [unlinked(it, gone) for it in left]
    if isinstance(value, dict):
        inner = {name: unlinked(it, gone) for name, it in value.items()}
        return {name: it for name, it in inner.items() if it or not value[name]}
    return value


def connections(entity, gone):
    """The text of an entity's circuit connections without those to these entities: None where nothing changes, and
    empty where none is left."""
    value = entity.value(CONNECTIONS)
    left = unlinked(value, gone) if isinstance(value, (dict, list)) else value
    return None if left == value else spelled(left) if left else ""


def wires(value, gone):
    """The wires, each with the number of an entity at either end, without those to these entities."""
    return [it for it in value if not (isinstance(it, list) and any(is_number_of(end, gone) for end in it[:4:2]))]


def schedules(value, gone):
    """The schedules without these locomotives, and without those of which none is left."""
    found = []
    for it in value:
        them = it.get("locomotives") if isinstance(it, dict) else None
        left = [one for one in them if not is_number_of(one, gone)] if isinstance(them, list) else None
        if left is None or left == them:
            found.append(it)
        elif left:
            found.append(it | {"locomotives": left})
    return found


def stock(value, gone):
    """The connections of rolling stock without those of these entities."""
    return [it for it in value if not (isinstance(it, dict) and any(is_number_of(one, gone) for one in it.values()))]


LINKS = {"wires": wires, "schedules": schedules, "stock_connections": stock}


def changed(others, gone):
    """The texts of a blueprint's members that link entities, where these are left out; those that change."""
    values = {name: it.value for name, it in others.items() if name in LINKS and isinstance(it.value, list)}
    left = {name: LINKS[name](value, gone) for name, value in values.items()}
    return {name: spelled(it) for name, it in left.items() if it != values[name]}
