"""Balancers that the program builds, each laid out in smaller and smaller rectangles: with its ends side by side, and
where none is found so with inputs and outputs at two sides, and then with ends anywhere."""

import json
import threading
from dataclasses import dataclass, field
from itertools import chain
from pathlib import Path

from . import networks, states
from .files import UNDONE
from .words import PROPERTIES, WORDS
from .work import FACING, GRID, NOT_FOUND, request_of

KINDS = WORDS["balancers"]["kinds"]
"""The kinds of balancers: of each the properties that it has, and what its label says of it."""
FORMS = {"rows": FACING, "sides": FACING[:2], "anywhere": ()}
"""How the ends of a layout may stand, the best first, and the lines of a request that ask for it."""
FIRST_STEPS, TIMES_STEPS, MOST_STEPS = 2000, 4, 10**9
"""How many steps a search for a layout takes in the first round, and how many times as many in each one behind it."""
WIDER, HIGHEST, ROOMY = 8, 40, 5
"""How many tiles wider than the lines a rectangle is at most, and how high, where none was found yet; and how many
times as many cells it has as the least in which a layout may be, where one is looked for first."""
QUICKER = 8
"""How many times fewer steps a search takes where none was found yet."""
GENEROUS, ROOM = (12, 16, 20, 24, 33, 40), 40
"""How many tiles wide and high a square is in which one is looked for first: in the greatest two nothing is searched,
but what is proposed is tested. And how many tiles it has for each splitter at least, before those with fewer: in such
squares the router finds nearly all."""
PROPOSED, LITTLE_SMALLER, NEAREST = 1, 0.85, 6
"""How many steps a search takes at most where it is asked for what is proposed; how many times as many cells as the
least layout so far a rectangle has then, and in how many that is asked."""
SMALLER = 0.75
"""How many times as many cells as the least layout so far a rectangle has that is looked in first."""
LEAST_CLOCK, CLOCK_TIMES = 20, 3
"""How many seconds by the clock a search may take at least, and how many times as many as of a processor: others may
want it."""


class Unbuilt(Exception):
    """Why a network wasn't built, in words."""


def mirrored(text):
    """The network with each edge turned, inputs and outputs exchanged, and what was given taken."""
    ends = str.maketrans("io", "oi")
    head, *lines = text.splitlines()
    _, inputs_, outputs, splitters = head.split(" ")
    edges = [it.split(" ") for it in lines if it.startswith("edge ")]
    turned = [["edge", it[2].translate(ends), it[1].translate(ends), *it[3:]] for it in edges]
    others = {"give": "take", "take": "give"}
    preferred = [it.split(" ") for it in lines if it.split(" ")[0] in others]
    told = sorted(([others[it[0]], *it[1:]] for it in preferred), key=lambda it: (it[0] == "take", int(it[1][1:])))
    return "\n".join(" ".join(it) for it in [["net", outputs, inputs_, splitters], *turned, *told, ["end"]]) + "\n"


@dataclass
class Laid:
    """A network that may be laid out: its text, and in which rectangles it was looked for, with so many steps; a
    rectangle in which there is none has none."""

    network: str
    tried: dict = field(default_factory=dict)

    @property
    def splitters(self):
        return int(self.network.split(" ", 4)[3].split("\n")[0])


@dataclass
class Balancer:
    """A balancer of the book: its kind, its numbers of ends, the networks that have it, and its least layout so far."""

    kind: str
    inputs: int
    outputs: int
    laid: list = field(default_factory=list)
    is_built: bool = False
    is_other: bool = True
    """Whether no kind before it has the same network of as many ends."""
    steps: int = FIRST_STEPS
    seconds: float = 0.0
    size: list | None = None
    form: str = "rows"
    """How the ends of its least layout stand."""
    blueprint: str = ""
    which: int = 0
    """Which of the networks is laid out."""
    also: list = field(default_factory=list)
    """The kinds that the same network is, too."""

    @property
    def name(self):
        kinds_ = [it for it in (self.kind, *self.also) if it != "output" or "balanced" not in self.also]
        return f"{self.inputs} to {self.outputs} {', '.join(KINDS[it]['label'] for it in kinds_)}"

    def says(self):
        """What holds of it, in words: of several kinds the last one says most."""
        return KINDS[[self.kind, *self.also][-1]]["says"]

    @property
    def lines(self):
        return max(self.inputs, self.outputs)

    @property
    def cells(self):
        return self.size[0] * self.size[1] if self.size else None

    def is_found(self, form):
        """Whether its least layout has its ends so."""
        return self.size is not None and self.form == form

    def forms(self):
        """How the ends may stand of a layout that is better than the least so far."""
        forms = list(FORMS)
        return forms[: forms.index(self.form) + 1] if self.size else forms

    def steps_each(self, form):
        """How many steps a search takes now: fewer where none was found yet, so that more rectangles are looked in."""
        return self.steps if self.is_found(form) else max(1, self.steps // QUICKER)

    def looks(self, at, form):
        """What is still to be looked for of one of the networks, with its ends so, and as many steps as this round
        has: what is proposed in generous squares until one is found, and then in lesser rectangles; then any lesser
        one; and then rectangles that are searched."""
        laid, steps = self.laid[at], self.steps_each(form)
        proposed = [Look.within(it, form, PROPOSED) for it in self.proposed(laid, form)]
        is_shrunk = self.is_found(form) and (form == "rows" or at == self.which)
        any_lesser = [self.smallest(form, steps)] if is_shrunk else []
        searched = (Look.within(it, form, steps) for it in self.rectangles(laid, form, steps))
        return (it for it in chain(proposed, any_lesser, searched) if laid.tried.get(it.told, 0) < it.steps)

    def smallest(self, form, steps):
        """A search for any lesser layout: of one with its ends in rows from the network anew, and else in that which
        is known."""
        words = {"rows": [], "sides": ["--sides"], "anywhere": []}[form]
        return Look(f"smallest {form}", ["smallest", "--found", *words], steps, FORMS[form], form == "rows")

    def proposed(self, laid, form):
        """Where what the router and the stages propose is tested: as wide as there are lines and in generous squares,
        and where one was found in the rectangles that are a little smaller."""
        if not self.is_found(form):
            squares = sorted(GENEROUS, key=lambda it: (it * it < ROOM * laid.splitters, it))
            return [(self.lines, HIGHEST), *((it, it) for it in squares if it >= self.lines)]
        them = self.rectangles(laid, form, MOST_STEPS + 2)
        near = sorted(them, key=lambda it: abs(it[0] * it[1] - LITTLE_SMALLER * self.cells) + apart(it))[:NEAREST]
        width, height = self.size
        # What has stages is laid as wide as there are lines: there fewer rows come first.
        lower = [(width, int(height * LITTLE_SMALLER)), (width, height - 1)] if width == self.lines else []
        return [*(it for it in lower if it[1] > 0), *near]

    def rectangles(self, laid, form, steps):
        """The rectangles that are still to be looked in for this network: where one was found, all with fewer cells,
        those first that are a good deal smaller; and else roomy ones first."""
        least, most = least_cells(laid), self.cells if self.is_found(form) else None
        narrowest = self.lines if form == "rows" else 1
        if most:
            them = (
                (width, height) for width in range(narrowest, most) for height in range(1, (most - 1) // width + 1)
            )
        else:
            them = ((self.lines + wider, height) for wider in range(WIDER + 1) for height in range(1, HIGHEST + 1))
        them = [it for it in them if it[0] * it[1] >= least]
        left = [it for it in them if laid.tried.get(told_of(it, form), 0) < steps]
        if most:
            return sorted(left, key=lambda it: (abs(it[0] * it[1] - SMALLER * most), apart(it)))
        return sorted(left, key=lambda it: growing(it, self.lines, least))


@dataclass(frozen=True)
class Look:
    """A search for a layout: how the record tells of it, the words for the program, how many steps it may take, the
    lines of its request, and whether the network is read, and not the layout that is known."""

    told: str
    words: list
    steps: int
    lines: list
    is_anew: bool

    @staticmethod
    def within(size, form, steps):
        """The search in a rectangle."""
        return Look(told_of(size, form), ["layout", "--grid", "{}x{}".format(*size)], steps, FORMS[form], True)


def told_of(size, form):
    """How the record tells of a rectangle."""
    grid = "{}x{}".format(*size)
    return grid if form == "rows" else f"{grid} {form}"


def least_cells(laid):
    """How many cells a layout of a network has at least: two for each splitter, and one for each belt between an input
    and an output."""
    edges = states.read_net(laid.network).edges
    return 2 * laid.splitters + sum(source[0] == "i" and target[0] == "o" for source, target, _ in edges)


def apart(rectangle):
    """How far a rectangle is from a square."""
    return abs(rectangle[0] - rectangle[1])


def growing(rectangle, lines, least):
    """The order in which rectangles are looked in where none was found yet: roomy ones and those that are nearly
    squares first, since there one is found soon."""
    return abs(rectangle[0] * rectangle[1] - ROOMY * least - 2 * lines) + 2 * apart(rectangle)


class Maker:
    """Builds and lays out balancers, with a program and within a time for each."""

    def __init__(self, program, folder, seconds):
        self.program, self.folder, self.seconds = program, Path(folder), seconds
        self.guard = threading.Lock()
        """Held where a balancer is changed, and where all are read."""

    def ask(self, words, text="", seconds=None):
        """A run of the program: its status, or none where its time by the clock was up, what it wrote, and how many
        seconds of a processor it took."""
        out = self.folder / f"answer-{threading.get_ident()}{UNDONE}"
        try:
            with open(out, "wb") as file:
                ended = self.program.run(words, [text.encode()], file, seconds)
            return None if ended.late else ended.status, out.read_text("ascii", "replace"), ended.processor
        finally:
            out.unlink(missing_ok=True)

    def built(self, wish, inputs_, outputs):
        """The network that the program builds, or None where it knows none."""
        status, text, _ = self.ask(["build", ",".join(wish), str(inputs_), str(outputs)])
        if status not in (0, NOT_FOUND):
            raise Unbuilt(f"{inputs_} to {outputs}: the program ended with status {status}: {text[:80].strip()}")
        return text if status == 0 else None

    def has(self, text, wish):
        """Whether the program decides that a network has these properties."""
        return all(self.ask(["decide", it], text)[0] == 0 for it in wish)

    def build(self, balancer):
        """Finds the networks of a balancer: that which the program builds, and others with as few splitters: that of
        any stronger wish, and each turned around, where the program decides that it is as wished."""
        wish, kept = KINDS[balancer.kind]["properties"], []
        wishes = [wish, *(it["properties"] for it in KINDS.values() if set(wish) < set(it["properties"]))]
        ends = balancer.inputs, balancer.outputs
        for text, is_turned in [(self.network(them, *ends, it), it) for them in wishes for it in (False, True)]:
            least = min((it.splitters for it in kept), default=None)
            if text is None or least is not None and Laid(text).splitters > least or any(
                same(text, it.network) for it in kept
            ):
                continue
            if not is_turned or self.has(text, wish):
                kept = [it for it in kept if it.splitters <= Laid(text).splitters] + [Laid(text)]
        balancer.laid, balancer.is_built = kept, True

    def network(self, wish, inputs_, outputs, is_turned):
        """The network that the program builds, or the one that it builds the other way around, turned; or None."""
        if not is_turned:
            return self.built(wish, inputs_, outputs)
        text = self.built(turned(wish), outputs, inputs_)
        return text and mirrored(text)

    def lay(self, balancer, most):
        """Looks for smaller layouts of a balancer's networks, with as many steps as its round has, until so many
        seconds are spent on it in all: with its ends in rows, and where none is found so in half of what is left of
        the time, at two sides, and then anywhere. Whether there is time left, and anything to look for."""
        for form in balancer.forms():
            left = most - balancer.seconds
            is_last = form == "anywhere" or balancer.is_found(form)
            self.lay_so(balancer, form, balancer.seconds + (left if is_last else left / 2))
            if balancer.is_found(form):
                break
        is_over = balancer.seconds >= most or balancer.steps >= MOST_STEPS
        balancer.steps = min(MOST_STEPS, balancer.steps * TIMES_STEPS)
        return not is_over

    def lay_so(self, balancer, form, until):
        """Looks for smaller layouts with the ends so, of each network by turns, until so many seconds are spent."""
        is_any = True
        while is_any:
            is_any = False
            for at in range(len(balancer.laid)):
                if balancer.seconds >= until:
                    return
                look = next(balancer.looks(at, form), None)
                if look:
                    is_any = True
                    self.look(balancer, at, form, look, until - balancer.seconds)

    def look(self, balancer, at, form, look, seconds):
        """Looks for a layout, and keeps it where one is found, which is better than any before."""
        laid = balancer.laid[at]
        text = request_of(laid.network, look.lines) if look.is_anew else balancer.blueprint
        words = [*look.words, "--learnt", str(look.steps)]
        status, text, took = self.ask(words, text, max(LEAST_CLOCK, CLOCK_TIMES * seconds))
        size, blueprint = read_laid(look, text) if status == 0 else (None, "")
        if status == 0 and not self.shows(blueprint, laid):
            raise Unbuilt(f"{balancer.inputs} to {balancer.outputs}: what was laid out is no layout of it")
        with self.guard:
            balancer.seconds = round(balancer.seconds + took, 3)
            if size and (not balancer.is_found(form) or size[0] * size[1] < balancer.cells):
                balancer.size, balancer.form, balancer.blueprint, balancer.which = size, form, blueprint, at
            # Where one was found or there is none, more steps change nothing.
            is_settled = status in (0, 1) and look.words[0] == "layout"
            laid.tried[look.told] = MOST_STEPS + 1 if is_settled else look.steps

    def shows(self, text, laid):
        """Whether a blueprint shows a network with these numbers of all, as the program reads it."""
        status, found, _ = self.ask(["recover"], text)
        return status == 0 and same(found, laid.network)


def read_laid(look, text):
    """The size and the blueprint of what was found."""
    if look.words[0] == "layout":
        return [int(it) for it in look.words[2].split("x")], text.strip()
    head, _, blueprint = text.partition("\n")
    found = GRID.fullmatch(head.encode())
    if found is None:
        raise Unbuilt(f"the program wrote no size of a grid: {head[:80]!r}")
    return [int(it) for it in found.groups()], blueprint.strip()


def turned(wish):
    """What a network has to have so that it has this where it is turned around."""
    pairs = {"balanced": "drawn-evenly", "fair": "drawn-fairly"}
    pairs |= {it: key for key, it in pairs.items()}
    return [it for it in PROPERTIES if it in {pairs.get(word, word) for word in wish}]


def same(one, other):
    """Whether two networks are the same but for their numbers; of splitters that prefer sides, whether all counts are
    the same."""
    nets = states.read_net(one), states.read_net(other)
    if networks.is_plain(one) and networks.is_plain(other):
        return networks.shape(nets[0]) == networks.shape(nets[1]) and networks.renaming(
            nets[0].edges, nets[1].edges
        ) is not None
    counts = [
        [sum(line.startswith(it) for line in text.splitlines()) for it in ("edge ", "give ", "take ")]
        for text in (one, other)
    ]
    heads = one.splitlines()[0] == other.splitlines()[0]
    return heads and counts[0] == counts[1]


def designed(maker, wish, inputs_, outputs):
    """A balancer with these properties as a design: its blueprint where a layout was found in the maker's time, best
    with its ends side by side, and else the text of its network."""
    text = maker.built(wish, inputs_, outputs)
    if text is None:
        raise Unbuilt(f"no balancer from {inputs_} to {outputs} is known that is {', '.join(wish)}")
    one = Balancer("", inputs_, outputs, [Laid(text)], True)
    while maker.lay(one, maker.seconds) and not is_over(one):
        pass
    return labelled(one.blueprint, f"{inputs_} to {outputs}") if one.size else text


def labelled(text, label, **more):
    """A blueprint's text with this label, and more members."""
    root = json.loads(text)
    return json.dumps(
        {**root, "blueprint": {**root["blueprint"], "label": label, **more}}, separators=(",", ":"), ensure_ascii=False
    )


def is_least(balancer):
    """Whether the program has certified of each rectangle with fewer cells that holds the lines that there is no layout
    of any of these networks in it, with the ends as those of the least are."""
    if not balancer.size:
        return False
    return not any(balancer.rectangles(it, balancer.form, MOST_STEPS + 1) for it in balancer.laid)


def is_over(balancer):
    """Whether nothing better is left to be looked for."""
    return is_least(balancer) and balancer.form == "rows"
