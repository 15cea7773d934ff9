"""States on pictures: of each edge a line as wide as its flow, with the number. The elements are as in `picture`, of
whole numbers alone."""

from .design import STEPS
from .picture import HALF, middle_of, short, sign, svg, titled
from .trace import standing


def pieces(parts, edge):
    """An edge's way as lists of points, each with whether it lies under the ground."""
    points = [middle_of(cell) for cell, _ in edge.run]
    first, last = (parts[edge.run[at][1].part] for at in (0, -1))
    if edge.source[0] == "i":
        points[0] = points[0][0] - HALF * STEPS[first.direction][0], points[0][1] - HALF * STEPS[first.direction][1]
    if edge.target[0] == "o":
        end = points[-1][0] + HALF * STEPS[last.direction][0], points[-1][1] + HALF * STEPS[last.direction][1]
        points.append(end)
    found, line = [], [points[0]]
    for at, point in enumerate(points[1:], 1):
        entering = at < len(edge.run) and parts[edge.run[at - 1][1].part].kind == "entrance"
        if entering:
            begin = middle_of(edge.run[at - 1][0])
            found += [(line if line[-1] == begin else [*line, begin], False), ([begin, point], True)]
            line = [point]
        else:
            line.append(point)
    return [(line, under) for line, under in [*found, (line, False)] if len(line) > 1]


def drawn_line(points):
    """The path through these points; those in the midst of a straight line are left out."""
    kept = [points[0]]
    for before, here, after in zip(points, points[1:], points[2:]):
        if (here[0] - before[0]) * (after[1] - here[1]) != (here[1] - before[1]) * (after[0] - here[0]):
            kept.append(here)
    kept.append(points[-1])
    return "M" + "L".join(f"{x} {y}" for x, y in kept)


def label_place(parts, edge, taken):
    """Where an edge's number stands: on a cell of it that no other number has, as near to its middle as can be."""
    cells = [cell for cell, half in edge.run if parts[half.part].kind != "splitter"]
    if not cells:
        (ax, ay), (bx, by) = (middle_of(edge.run[at][0]) for at in (0, -1))
        return (ax + bx) // 2, (ay + by) // 2
    middle = len(cells) - 1
    ordered = sorted(range(len(cells)), key=lambda at: abs(2 * at - middle))
    cell = next((cells[at] for at in ordered if cells[at] not in taken), cells[ordered[0]])
    taken.add(cell)
    return middle_of(cell)


def flowing(parts, network, badges, state, ways):
    """The elements that draw a state's flows. Between them and their numbers stands what tells the belts' directions,
    the group of this name."""
    lines, labels = [], []
    most, at = max(edge.cap for edge in network.edges), standing(parts)
    taken = {cell for cell in badges.values() if cell in at}
    for edge, flow, mark in zip(network.edges, state.flows, state.marks):
        kind = "backed" if mark == "b" else "free"
        width = 2 + 8 * flow.numerator // (most * flow.denominator)
        for points, under in pieces(parts, edge):
            names = f"flow {kind}" + " under" * under + " idle" * (flow == 0)
            path = drawn_line(points)
            lines.append(["path", {"class": names, "stroke-width": width, "d": path}, ""])
            if mark == "b" and not under:
                lines.append(["path", {"class": "ties", "d": path}, ""])
        x, y = label_place(parts, edge, taken)
        box = {"x": x - 11, "y": y - 6, "width": 22, "height": 12, "rx": 3}
        tag = ["rect", {"class": f"tag {kind}", **box}, ""], sign(short(flow), x, y + 3, kind)
        labels.append(titled(f"{edge.source} to {edge.target}: {flow} of {edge.cap}, {kind}", *tag))
    return [*lines, ["use", {"class": "over", "href": f"#{ways}"}, ""], *labels]


def flows(picture, state, ways):
    """The text of a state's flows on a picture."""
    return svg(flowing(picture.design.parts, picture.network, picture.badges, state, ways))
