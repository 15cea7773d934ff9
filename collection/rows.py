"""The rows of a report: a design each, with what became of it and what is drawn of it."""

from dataclasses import dataclass, field, replace
from functools import cached_property

from . import design, ends, files, labels, refusals, states, trace
from .answers import OF_HALVES, UNDECIDED, UNKNOWN, Answer, Network, Smaller
from .files import counted
from .inputs import Design
from .picture import Marks, Picture
from .words import CLAIMING, NUMBERS, OF_ENDS, PROPERTIES, UNIVERSAL, WORDS
from .work import DESIGN_JSON, NETWORK, ORIGINAL, SMALLER, SMALLER_STRING, Folder

LABELS = WORDS["verdicts"]
"""How the report calls the verdicts, in the order in which it sorts them."""
MOST_LISTED = 8
"""How many bare halves a sentence names at most."""


def core_of(parts, network):
    """How many cells wide and high parts are without the belts between an end and the first splitter or underground
    end; None where that is all of them."""
    gone = set()
    for edge in network.edges:
        run = [half.part for _, half in edge.run]
        for end, way in ((edge.source, run), (edge.target, run[::-1])):
            count = next((at for at, it in enumerate(way) if parts[it].kind != "belt"), len(way))
            gone.update(way[:count] if end[0] != "s" else [])
    cells = [cell for at, it in enumerate(parts) if at not in gone for cell in it.cells]
    if not cells:
        return None
    least_x, least_y, most_x, most_y = design.box_of(cells)
    return most_x - least_x + 1, most_y - least_y + 1


@dataclass(frozen=True)
class Universal:
    """Whether a balancer is universal, yes or no, and the properties that it hasn't."""

    verdict: str
    failing: tuple = ()

    def words(self):
        """What it is, in words."""
        return UNIVERSAL[self.verdict].format(states.together(self.failing)) if self.failing else UNIVERSAL[
            self.verdict
        ]


@dataclass
class Row:
    """A design of the collection, with its folder and what became of it."""

    found: Design
    folder: Folder | None = None
    asked: tuple = PROPERTIES
    """The properties that are decided."""
    trouble: str | None = None
    same_as: "Row | None" = None
    network: Network | None = None
    decided: dict = field(default_factory=dict)
    """The answer of each property that was decided."""
    smaller: Smaller | None = None
    kin: list = field(default_factory=list)
    """The designs that have the same network, itself too, the least in cells first; empty where it is alone."""

    def id(self):
        """The name of its folder."""
        return self.folder.path.name if self.folder else ""

    def refusal(self):
        """The program's line where it doesn't take the design."""
        return self.network.line if self.network else ""

    def reason(self):
        """Why this is no design of belts, or couldn't be dealt with, in words; None where it has a network, or several
        that may be meant."""
        if self.found.trouble or self.trouble:
            return self.found.trouble or self.trouble
        if self.choices:
            return None
        if self.is_open() and self.network.status != 0:
            return self.of_ends()
        return self.refused.words if self.refused else None

    def is_open(self):
        """Whether nothing is decided, since it isn't clear which bare halves are ends."""
        return self.network is not None and self.network.ends in ends.UNJUDGED

    @cached_property
    def choices(self):
        """The choices of bare halves where there are several, each as a row of its own, the likely one first."""
        if not self.folder or not self.network or not self.network.choices:
            return []
        return [self.choice(it) for it in self.folder.choices()]

    def choice(self, folder):
        """A choice of bare halves as a row."""
        row = Row(self.found, folder, self.asked, network=folder.network())
        row.decided = {prop: it for prop in self.asked if (it := folder.decided(prop))}
        return row

    def of_ends(self):
        """What there is to say of its ends where nothing is decided, or where several choices are left; or None."""
        if not self.network or not (self.is_open() or self.choices):
            return None
        if self.network.ends == ends.GAP:
            return f"{self.of_gaps()}; {OF_ENDS['unjudged']}"
        pairs = labels.spelled(labels.told(self.found.label()))
        if self.choices:
            return OF_ENDS["several"].format(pairs, len(self.choices))
        stand, could = tuple(self.network.before), tuple(self.network.would)
        said = OF_ENDS["counts"].format(pairs, labels.spelled([stand]))
        said += OF_ENDS["could"].format(labels.spelled([could])) if could != stand else ""
        return f"{said}: {OF_ENDS[self.network.ends]}"

    def of_gaps(self):
        """At which tiles a belt may be missing, in words; None where there is none."""
        tiles = [trace.tile(it) for it in self.of_reading("gaps")]
        word = "gap" if len(tiles) == 1 else "gaps"
        return OF_ENDS[word].format(states.together(tiles[:MOST_LISTED])) if tiles else None

    @cached_property
    def refused(self):
        """The program's refusal in words, with its places."""
        return refusals.refusal(self.refusal(), self.text) if self.refusal() else None

    def is_broken(self):
        """Whether this is no design at all, whatever the program would say of one."""
        number = refusals.number_of(self.refusal())
        return self.found.text is None and not self.found.is_passed or number in refusals.BROKEN

    def answer(self, prop):
        """What became of a property."""
        if self.is_open():
            return Answer(OF_HALVES, OF_ENDS["undecided"])
        return self.decided.get(prop) or UNDECIDED

    def told(self):
        """The properties of which the report tells: those that are decided, but for what the program doesn't know."""
        return [prop for prop in self.asked if self.answer(prop).verdict != UNKNOWN]

    def universal(self):
        """Whether it is universal, as the verdicts tell that this takes; None where they don't, or not all are asked
        for."""
        if not self.net or not set(UNIVERSAL["properties"]) <= set(self.asked):
            return None
        verdicts = {prop: self.answer(prop).verdict for prop in UNIVERSAL["properties"]}
        failing = tuple(prop for prop, it in verdicts.items() if it == "no")
        if failing:
            return Universal("no", failing)
        return Universal("yes") if set(verdicts.values()) == {"yes"} else None

    @cached_property
    def text(self):
        """The design's text as it is judged."""
        if self.folder and self.network and self.folder.file(DESIGN_JSON).is_file():
            return self.folder.text(DESIGN_JSON)
        return self.found.text.decode("utf-8", "replace") if self.found.text is not None else ""

    @cached_property
    def judged_digest(self):
        """The digest of the design as it is judged."""
        file = self.folder.design_file() if self.folder else None
        return (files.digest_of_file(file) if file else None) or self.found.digest

    def is_changed(self):
        """Whether what is judged is another text than what came."""
        return self.folder.file(ORIGINAL).is_file()

    def of_reading(self, name):
        """What is told of how the design was read: a list, or a number."""
        return (getattr(self.network, name) if self.network else None) or []

    @cached_property
    def bare(self):
        """The bare halves that are left, by their places."""
        parts, _ = self.design
        return [trace.place_of(parts.parts, it) for it in trace.bare_ends(parts.parts)] if parts else []

    def ends(self):
        """How many inputs and outputs the network has, in words."""
        return f"{self.net.inputs} to {self.net.outputs}" if self.net else ""


    def warning(self):
        """What is amiss with the number of ends, in words, where the label tells of others; or None."""
        if self.of_ends() or self.of_gaps():
            return self.of_ends() or self.of_gaps()
        pairs = labels.told(self.found.label())
        if not self.net or not pairs or (self.net.inputs, self.net.outputs) in pairs:
            return None
        would, said = tuple(self.of_reading("would")), OF_ENDS["counts"].format(labels.spelled(pairs), self.ends())
        if would and would != (self.net.inputs, self.net.outputs):
            return said + OF_ENDS["could"].format(labels.spelled([would]))
        return said

    def claims(self):
        """What its label claims that isn't so, and that of lanes nothing is said, in sentences without stops."""
        told = labels.claims(self.found.label())
        false = {}
        for prop, words in told.properties.items():
            if self.answer(prop).verdict == "no":
                false.setdefault(words, []).append(states.KNOWN_AS[prop])
        said = [CLAIMING["contradicted"].format(words, states.together(them)) for words, them in false.items()]
        return said + ([CLAIMING["lanes"]] if told.lanes else [])

    @cached_property
    def warnings(self):
        """What is amiss with its ends, and with what its label claims; once all is decided."""
        return [it for it in [self.warning()] if it and it != self.reason()] + self.claims()

    def remarks(self, most=MOST_LISTED):
        """What there is to say of how the design was read, in sentences without stops, with so many halves each."""
        opened, unopened = self.of_reading("opened"), self.of_reading("unopened")
        told = [*self.warnings]
        belts = counted(self.of_reading("belts") or 0, "belt")
        if opened and self.of_reading("is_marked"):
            told += [OF_ENDS["marked"].format(trace.spelled(opened, most))]
        elif opened:
            told += [f"opened by {belts}: {trace.spelled(opened, most)}"]
        shut = [it for it in self.bare if list(it) not in map(list, opened)]
        if shut and self.net and not self.choices:
            word = "shut_one" if len(shut) == 1 else "shut"
            told += [OF_ENDS[word].format(len(shut), trace.spelled(shut, most))]
        reasons = [f"{trace.spelled([place])}, since {why}" for place, why in unopened[:most]]
        more = f", and {len(unopened) - most} more" if len(unopened) > most else ""
        told += [f"not opened: {'; '.join(reasons)}{more}"] if unopened else []
        return told + self.of_reading("notes")

    @cached_property
    def net_text(self):
        if self.choices:
            return self.choices[0].net_text
        return self.folder.text(NETWORK)

    @cached_property
    def net(self):
        """The network in numbers, where there is one; of several the likely one."""
        if self.choices:
            return self.choices[0].net
        if not self.network or self.network.status != 0:
            return None
        return states.read_net(self.net_text)

    @cached_property
    def design(self):
        """The design's parts, and why they can't be drawn where they can't."""
        if not self.found.is_json():
            return None, "A network text has no parts, so there is no picture."
        try:
            found = design.read(self.text)
        except design.Unreadable as reason:
            return None, f"There is no picture: {reason}."
        return replace(found, strangers=found.strangers + self.left_out(found)), None

    def left_out(self, found):
        """What stood by and was left out, among the parts and next to them."""
        if not self.of_reading("notes"):
            return []
        least_x, least_y, most_x, most_y = found.box()
        treated = [tuple(it) for it in self.of_reading("asked")[1:]]
        them = design.bystanders(self.found.text.decode("utf-8", "replace"), treated)
        near = range(least_x - 1, most_x + 2), range(least_y - 1, most_y + 2)
        return [it for it in them if any(x in near[0] and y in near[1] for x, y in it.cells)]

    def cells(self):
        """How many cells the design's rectangle has, or None where it has no parts."""
        size = self.size()
        return size[0] * size[1] if size else None

    def description(self):
        """What the design's author says of it."""
        try:
            told = design.blueprint_of(self.text).get("description") if self.found.is_json() else None
        except design.Unreadable:
            return ""
        return files.short(told, NUMBERS["longest_description"]) if isinstance(told, str) else ""

    def has_version(self):
        """Whether the blueprint tells the game's version, without which directions are read as before 2.0."""
        try:
            return "version" in design.blueprint_of(self.text)
        except design.Unreadable:
            return True

    def tiers(self):
        parts, _ = self.design
        return parts.tiers() if parts else {}

    def size(self):
        """How many cells wide and high the design is, where it has parts."""
        parts, _ = self.design
        if not parts:
            return None
        cells = [cell for it in parts.parts or parts.strangers for cell in it.cells]
        least_x, least_y, most_x, most_y = design.box_of(cells)
        return most_x - least_x + 1, most_y - least_y + 1

    def sides(self):
        """At which side of the design each end is, north, east, south or west, where it is at one and looks across it;
        None where that can't be told."""
        picture, _ = self.picture
        if not picture or not picture.network:
            return None
        parts, (least_x, least_y, most_x, most_y) = picture.design.parts, design.box_of(
            [cell for it in picture.design.parts for cell in it.cells]
        )
        found = {}
        for sign, halves, away in (("i", picture.network.inputs, 2), ("o", picture.network.outputs, 0)):
            for k, half in enumerate(halves):
                (x, y), side = parts[half.part].cells[half.half], (parts[half.part].direction + away) % 4
                at = (y == least_y, x == most_x, y == most_y, x == least_x)[side]
                found[f"{sign}{k}"] = side if at else None
        return found

    def core_size(self):
        """How many cells wide and high the design is without the belts at its ends, where it has such and more than
        these."""
        picture, _ = self.picture
        return core_of(picture.design.parts, picture.network) if picture and picture.network else None

    @cached_property
    def smaller_picture(self):
        """The picture of the smaller layout that was found, or None."""
        if not self.smaller or self.smaller.verdict != "found":
            return None
        parts = design.read(self.folder.text(SMALLER))
        marks = Marks(tuple(trace.bare_ends(parts.parts)))
        try:
            return Picture(parts, trace.Layout(parts.parts).network(), marks)
        except trace.Untraced:
            return Picture(parts, marks=marks)

    def why_no_smaller(self):
        """Why there is no smaller layout, in words."""
        line = self.smaller.why
        number = refusals.number_of(line)
        if number in refusals.TO_LAY_OUT:
            return f"refused {number} {line.split(' ')[2]}: {refusals.TO_LAY_OUT[number]}"
        return refusals.told(line, self.text)

    def smaller_string(self):
        """The smaller layout as a string to paste."""
        return self.folder.text(SMALLER_STRING).strip()

    def marked(self):
        """The ends that are marked in the network alone, and how many inputs and outputs stand before them."""
        return (self.of_reading("opened"), tuple(self.of_reading("before"))) if self.of_reading("is_marked") else (
            [], (0, 0)
        )

    def places(self):
        """The places with a red frame: what is refused, and where a belt may be missing."""
        gaps = [((tuple(it),), OF_ENDS["gap"].format(trace.tile(it))) for it in self.of_reading("gaps")]
        return gaps or (self.refused.places if self.refused and not self.choices else ())

    @cached_property
    def picture(self):
        """The design's picture, and what it lacks."""
        parts, reason = self.design
        if parts is None:
            return None, reason
        added = frozenset(range(len(parts.parts) - (self.of_reading("belts") or 0), len(parts.parts)))
        marks = Marks(tuple(trace.bare_ends(parts.parts)), added, self.places())
        if self.net is None or self.choices:
            return Picture(parts, marks=marks), None
        lack = "Ends and states aren't drawn: "
        try:
            network = trace.Layout(parts.parts).network()
        except trace.Untraced as reason:
            return Picture(parts, marks=marks), f"{lack}as traced for the picture, {reason}."
        if self.of_reading("is_marked"):
            return Picture(parts, marks=marks), f"{lack}not all of them have room for a belt."
        if not trace.same_network(network, self.net_text):
            return Picture(parts, marks=marks), f"{lack}traced for the picture, the network is another one."
        return Picture(parts, network, marks), None
