"""Designs that are known of balancers, judged anew and taken into a book: what each is, and the same turned round."""

import json
from dataclasses import dataclass

from .built import KINDS, Laid, same
from .design import NORTH, PREFIXES, Unreadable, read
from .trace import Half, Layout, Untraced

OPPOSITE = {"input": "output", "output": "input"}
PRIORITIES = {"input_priority": "output_priority", "output_priority": "input_priority"}


@dataclass(frozen=True)
class Known:
    """A layout that is known: its blueprint's text, its network's, and how wide and high it is."""

    blueprint: str
    network: str
    size: tuple

    @property
    def ends(self):
        """Its numbers of inputs and outputs."""
        return tuple(int(it) for it in self.network.split("\n", 1)[0].split(" ")[1:3])

    @property
    def cells(self):
        return self.size[0] * self.size[1]


def turned_round(text):
    """The blueprint of a layout with its ends in rows, in which all flows back, turned by half, so that inputs come in
    at the south again; None where its belts can't be traced. What flows back through a belt leaves it to where it came
    from, so after half a turn each belt has the direction of what led to it. Where an output turned on its last belt,
    each input gets a belt more, since what comes in is to come straight."""
    root = json.loads(text)
    try:
        design = read(text.encode())
        layout = Layout(design.parts)
        outputs = layout.network().outputs
    except (Unreadable, Untraced):
        return None
    quarter = 4 if design.sixteenths else 2
    entities = root["blueprint"].get("entities", [])
    has_turned = False
    for number, part in enumerate(design.parts):
        entity = entities[part.entity]
        entity["position"] = {axis: -entity["position"][axis] or 0 for axis in ("x", "y")}
        [feeder] = layout.feeders.get(Half(number), [None]) if part.kind == "belt" else [None]
        if feeder is not None:
            came = design.parts[feeder.part].direction
            entity["direction"] = quarter * came
            has_turned |= Half(number) in outputs and came != NORTH
        if "type" in entity:
            entity["type"] = OPPOSITE[entity["type"]]
        entity.update({PRIORITIES[it]: entity.pop(it) for it in PRIORITIES if it in entity})
    last = max((it.get("entity_number", 0) for it in entities), default=0)
    for count, output in enumerate(outputs if has_turned else [], 1):
        part = design.parts[output.part]
        position = entities[part.entity]["position"]
        entities.append({
            "entity_number": last + count,
            "name": f"{PREFIXES[part.tier]}transport-belt",
            "position": {"x": position["x"], "y": position["y"] + 1},
            "direction": NORTH,
        })
    return json.dumps(root, separators=(",", ":"), ensure_ascii=False)


def stand_in_rows(text):
    """Whether the inputs come in side by side at the south edge, and the outputs leave so at the north edge."""
    try:
        design = read(text.encode())
        layout = Layout(design.parts)
        network = layout.network()
    except (Unreadable, Untraced):
        return False
    _, top, _, bottom = design.box()
    return is_row(layout, network.inputs, bottom) and is_row(layout, network.outputs, top)


def is_row(layout, ends, row):
    """Whether the first or last parts of ends look to the north, side by side in this row."""
    xs, ys = zip(*sorted(layout.cell(it) for it in ends))
    is_north = all(layout.parts[it.part].direction == NORTH for it in ends)
    return is_north and set(ys) == {row} and list(xs) == list(range(xs[0], xs[0] + len(xs)))


def known_of(maker, text):
    """The layout of a blueprint whose ends stand in rows, or None where it is refused or they don't."""
    status, network, _ = maker.ask(["recover"], text)
    if status != 0 or not stand_in_rows(text):
        return None
    left, top, right, bottom = read(text.encode()).box()
    return Known(text, network, (right - left + 1, bottom - top + 1))


def better(known, balancer):
    """Whether a layout takes the place of a balancer's: fewer tiles, or as many and fewer splitters."""
    if not balancer.is_found("rows"):
        return True
    now = balancer.cells, balancer.laid[balancer.which].splitters
    return (known.cells, Laid(known.network).splitters) < now


def take(maker, balancer, known):
    """Has a layout take a balancer's place, where it is better and the program decides that it is of the kind; whether
    it did."""
    if not better(known, balancer) or not maker.has(known.network, KINDS[balancer.kind]["properties"]):
        return False
    which = next((at for at, it in enumerate(balancer.laid) if same(it.network, known.network)), None)
    if which is None:
        which = len(balancer.laid)
        balancer.laid.append(Laid(known.network))
    balancer.size, balancer.form, balancer.blueprint, balancer.which = [*known.size], "rows", known.blueprint, which
    return True


def take_all(maker, them, texts):
    """Takes what is known into the balancers of a book, and each turned round, where it is better; tells each."""
    of_place = {(it.kind, it.inputs, it.outputs): it for it in them}
    for text in texts:
        for blueprint in (text, turned_round(text)):
            known = known_of(maker, blueprint) if blueprint else None
            places = [(kind, *known.ends) for kind in KINDS] if known else []
            for place in places:
                balancer = of_place.get(place)
                if balancer and take(maker, balancer, known):
                    yield balancer
