"""The page of a report: one file that needs neither scripts nor a network."""

import base64
import hashlib
import zlib
from collections import Counter
from dataclasses import dataclass
from html import escape
from pathlib import Path

from . import files, labels, states, strings, trace
from .answers import SETTLED
from .files import counted
from .flows import flows
from .rows import LABELS, Row, core_of
from .states import KNOWN_AS, PROMISES
from .words import LATER, NUMBERS, OF_ENDS, PROPERTIES, UNIVERSAL, of_properties
from .work import DESIGN_JSON, NETWORK, OF_SEARCHES, ORIGINAL, SMALLER, SMALLER_STRING

HERE = Path(__file__).resolve().parent
VOID = {"br", "meta", "input"}
"""The elements that have no content, and no end."""
SIGNS = {"yes": "✓", "no": "✕"}
ALSO_KNOWN_AS = of_properties("also")
"""By which other words a property is found."""
PIXELS, MOST_PIXELS, PLENTY = 34, 46, 420
"""How wide a cell is on a large screen: more where the whole picture is small."""
WIDEST_BESIDE = 20
"""So many cells wide a picture is at most that stands beside what is told of it."""
THUMB = 60
"""How wide and how high the small picture in the table is at most."""
MOST_IN_TABLE, MOST_IN_PAGE = 3, 24
"""How many bare halves a sentence names at most, in the table and on a design's own page."""
LONGEST = NUMBERS["longest_name"]
MOST_DRAWN = 12
"""How many choices of bare halves are drawn at most."""
AT_ONCE = 40
"""So many rows of the table are laid out when the page opens; those behind them once it is there."""
SOMETIMES = (*LATER, "universal", "bare", "same network", "smaller", "seconds")
"""The columns of the table that are there where at least one design has something in them."""
LEAST_SECONDS = 0.05
"""So long the decisions on a design take at least where the table tells their time."""


def element(name, /, *content, **members):
    """An element of HTML; its content is HTML already, the values of its members are not."""
    told = "".join(
        f' {key.rstrip("_").replace("_", "-")}="{escape(str(value))}"' for key, value in members.items() if value != ""
    )
    return f"<{name}{told}>" + ("" if name in VOID else f"{''.join(map(str, content))}</{name}>")


def page_id(row):
    """The name of a design's page: no other element of the report has one like it."""
    return f"d-{row.id()}"


def link(row, name):
    """A link to a file of a design's folder."""
    return element("a", name, href=f"designs/{row.id()}/{name}")


def shown(text):
    """A text that others wrote, as HTML."""
    return f"<bdi>{escape(files.plain(text))}</bdi>"


def named(text):
    """A label as HTML, with the game's marks as words."""
    return shown(labels.in_words(text))


def badge(told, prop=""):
    """A verdict."""
    verdict = told.verdict
    kind = verdict if verdict in SIGNS else "withheld"
    title = f"{prop}: {told.why or verdict}" if prop else ""
    return element("span", f"{SIGNS.get(verdict, '–')} {LABELS[verdict]}", class_=f"verdict {kind}", title=title)


def mark(verdict, words, title):
    """A verdict in the table: where there is room its sign alone is seen."""
    sign = SIGNS.get(verdict)
    content = f"{sign}{element('span', f' {words}', class_='word')}" if sign else f"– {words}"
    return element("span", content, class_=f"verdict {verdict if sign else 'withheld'}", title=title)


def note(*content):
    return element("span", *content, class_="note")


def tier_mark(tier):
    return element("span", tier, class_=f"tier {tier}")


def spent_time(told):
    """How long an answer took, of a processor and, where that is another time, by the clock."""
    if told.processor is None:
        return ""
    processor = f"{told.processor:.2f} s" if told.processor >= 0.01 else "under 0.01 s"
    apart = told.clock - told.processor > max(1, told.processor / 10)
    return f"{processor} of a processor" + (f", {told.clock:.2f} s by the clock" if apart else "")


def figure(picture, content, label, ruled=False):
    """A picture that is as wide as it needs, or as the screen is; with the numbers of columns and rows where it is
    ruled."""
    width = picture.box[2] + ruled
    content = picture.rules() + content if ruled else content
    pixels = min(MOST_PIXELS, max(PIXELS, PLENTY // width))
    style = f"max-width:{width * pixels}px"
    drawn = element("svg", content, role="img", aria_label=label, viewBox=picture.view(ruled), style=style)
    return element("div", drawn, class_="plane", tabindex=0, role="group", aria_label=label)


def thumb(row):
    """The small picture of a design."""
    picture, _ = row.picture
    if picture is None or not row.folder:
        return element("span", "–" if row.found.text is None or row.found.is_json() else "net", class_="thumb none")
    width, height = map(float, picture.view().split()[2:])
    scale = THUMB / max(width, height)
    size = {"width": round(width * scale), "height": round(height * scale)}
    drawn = element("use", href=f"#p-{row.id()}")
    drawn = element("svg", drawn, aria_hidden="true", viewBox=picture.view(), **size)
    return element("span", drawn, class_="thumb", data_of=f"k-{row.id()}")


def where(row, alone):
    """Where a design stands: the books around it, its place there, and the file where there are several."""
    told = [row.found.books.replace("/", " / "), row.found.place, "" if alone else row.found.source]
    return note(shown(", ".join(filter(None, told)) or row.found.source))


def remarks(row, most):
    """What there is to say of how a design was read, with so many names in each sentence."""
    told, warnings = row.remarks(most), set(row.warnings)
    lines = [element("li", shown(it[0].upper() + it[1:]), class_="warning" * (it in warnings)) for it in told]
    return element("ul", *lines, class_="remarks") if lines else ""


def who(row, alone):
    """A design's name with its small picture, leading to its page."""
    first = row.same_as or row
    name = named(row.found.label())
    if row.folder:
        name = element("a", name, href=f"#{page_id(first)}")
    same = note(f"the same design as {named(first.found.name)}") if row.same_as else ""
    told = remarks(row, MOST_IN_TABLE)
    return element("div", thumb(first), element("div", name, same, where(row, alone), told), class_="who")


def same_network(row):
    """What the table tells of the designs with the same network: which is the least, and how many cells more it has."""
    if not row.kin or row.same_as:
        return "", 0
    least = row.kin[0]
    if row is least:
        return f"least of {len(row.kin)}", 0
    more = row.cells() - least.cells() if row.cells() is not None else None
    told = "no layout" if more is None else f"{counted(more, 'cell')} more" if more else "as many cells"
    return f"{told} {note('than ' if more else 'as ', named(least.found.label()))}", more or 0


def kin_of(row):
    """The other designs with the same network, each with its cells, in a line."""
    for it in row.kin:
        if it is not row:
            more = it.cells() - row.cells() if None not in (it.cells(), row.cells()) else None
            apart = "" if more is None else f": {counted(it.cells(), 'cell')}, " + (
                f"{abs(more)} {'more' if more > 0 else 'less'}" if more else "as many"
            )
            yield element("a", named(it.found.label()), href=f"#{page_id(it)}") + apart


def searched(row):
    """What became of the search for a smaller layout, in a few words."""
    if row.smaller.verdict == "found":
        less = row.smaller.size[0] * row.smaller.size[1] < (row.cells() or 0)
        return OF_SEARCHES["yes" if less else "larger"]
    return OF_SEARCHES[row.smaller.verdict]


def cells_of(row):
    """What the table tells of a design: of each column what is shown, and by what it is sorted."""
    net, size, order = row.net, row.size(), list(LABELS)
    seconds = sum(row.answer(prop).processor or 0 for prop in row.asked)
    less = row.smaller.size[0] * row.smaller.size[1] if row.smaller and row.smaller.verdict == "found" else 0
    area = size[0] * size[1] if size else 0
    return {
        "ends": (f"{net.inputs} → {net.outputs}", net.inputs * 10000 + net.outputs),
        "bare": (len(row.bare) or "", len(row.bare)),
        "splitters": (net.splitters, net.splitters),
        "cells": (f"{size[0]} × {size[1]}", area) if size else ("–", -1),
        "tiers": (" ".join(map(tier_mark, row.tiers())) or "–", " ".join(row.tiers())),
        **{it: (marked(it, row.answer(it)), order.index(row.answer(it).verdict)) for it in row.told()},
        **{it: ("", -1) for it in PROPERTIES if it not in row.told()},
        "universal": universal(row),
        "same network": same_network(row),
        "smaller": (f"{area} → {less}", less - area) if less else (note(searched(row)), 0) if row.smaller else ("", 0),
        "seconds": (f"{seconds:.1f}" if seconds >= LEAST_SECONDS else "", seconds),
    }


def marked(prop, told):
    """What the table tells of a property."""
    return mark(told.verdict, LABELS[told.verdict], f"{prop}: {told.why or LABELS[told.verdict]}")


def universal(row):
    """What the table tells of whether it is universal, and by what it is sorted."""
    told = row.universal()
    if told is None:
        return ("–" if set(UNIVERSAL["properties"]) <= set(row.told()) else ""), 1
    return mark(told.verdict, LABELS[told.verdict], told.words()), 0 if told.verdict == "yes" else 2


def sought(row, words, **more):
    """By what a row of a table is found: the design's own words, and apart those of the books and the file around
    it."""
    own = files.plain(" ".join([row.found.label(), *words])).lower()
    around = files.plain(f"{row.found.books} {row.found.source}").lower()
    return {"data_words": own, "data_around": around, **more}


@dataclass(frozen=True)
class Line:
    """A design's row of the table: its head, what there is of each column, and by what it is found and filtered."""

    head: str
    cells: dict
    sought: dict

    @classmethod
    def of(cls, row, alone):
        """The row of a design; whether all are from one file."""
        head = element("th", who(row, alone), scope="row", data_sort=files.plain(row.found.name).lower())
        return cls(head, cells_of(row), sought_in(row))

    def with_columns(self, columns):
        """The row's text, with these columns."""
        rest = (element("td", self.cells[it][0], data_label=it, data_sort=self.cells[it][1]) for it in columns)
        return element("tr", self.head, *rest, **self.sought)


def sought_in(row):
    """By what a design's row of the table is found and filtered."""
    net, verdicts_ = row.net, [f"{prop}:{row.answer(prop).verdict}" for prop in row.told()]
    known = ((prop, it) for prop, names in ALSO_KNOWN_AS.items() if prop in row.told() for it in names)
    also = (f"{it}:{row.answer(prop).verdict}" for prop, it in known)
    verdicts_ += [f"{UNIVERSAL['name']}:{row.universal().verdict}"] if row.universal() else []
    verdicts_ += [f"smaller:{searched(row).replace(' ', '-')}"] if row.smaller else []
    marks = ("bare", row.bare), ("opened", row.of_reading("opened")), ("warning", row.warnings), ("false", row.claims())
    words = [*row.tiers(), *verdicts_, *also, *(word for word, told in marks if told)]
    told = {"data_ends": f"{net.inputs}-{net.outputs}", "data_tiers": " ".join(row.tiers())}
    told |= {"data_verdicts": " ".join(verdicts_), "data_page": page_id(row.same_as or row)}
    return sought(row, words, **told)


def refused_row(row, alone):
    """A row for what has no network; whether all are from one file."""
    reason = row.reason() or "not read yet"
    head = element("th", who(row, alone), scope="row")
    if row.found.is_passed:
        return element("tr", element("th", shown(row.found.name), scope="row"), element("td", note(shown(reason))))
    told = {"data_page": page_id(row.same_as or row)} if row.folder else {}
    return element("tr", head, element("td", shown(reason)), **sought(row, [reason], **told))


def without_ends(core, size):
    """How many cells wide and high a design is without its end belts, in words, where that is another size."""
    return f", without its end belts {core[0]} × {core[1]}" if core and tuple(core) != tuple(size) else ""


def badge_of_universal(told):
    """Whether a balancer is universal, and what it isn't else."""
    return element("span", f"{SIGNS[told.verdict]} {told.words()}", class_=f"verdict {told.verdict}")


def facts(row):
    """What the design is made of."""
    told, net, size, (parts, _) = [], row.net, row.size(), row.design
    if net:
        kinds = ((net.inputs, "input"), (net.outputs, "output"), (net.splitters, "splitter"), (len(net.edges), "edge"))
        told.append(("Network", ", ".join(counted(*it) for it in kinds)))
    if row.universal():
        told.append(("Universal", badge_of_universal(row.universal())))
    if size:
        told.append(("Cells", f"{size[0]} × {size[1]}{without_ends(row.core_size(), size)}"))
    for tier, kinds in row.tiers().items():
        under = kinds["entrance"] + kinds["exit"]
        words = ((kinds["belt"], "belt"), (under, "underground end"), (kinds["splitter"], "splitter"))
        told.append(("Parts", f"{tier_mark(tier)} {', '.join(counted(*it) for it in words if it[0])}"))
    names = Counter(it.name[:LONGEST] for it in parts.strangers if not it.stands_by) if parts else None
    if names:
        them = [f"{number} × {shown(name)}" for name, number in names.most_common(MOST_IN_PAGE)]
        them += [f"{len(names) - MOST_IN_PAGE} more"] if len(names) > MOST_IN_PAGE else []
        told.append(("Others", ", ".join(them)))
    if row.kin:
        told.append(("The same network", element("br").join(kin_of(row))))
    if row.found.is_json() and not row.has_version():
        told.append(("Version", "none is told: directions are read as before 2.0"))
    told.append(("From", shown(row.found.source + (f", place {row.found.place}" if row.found.place else ""))))
    is_told = net and not row.choices
    kept = [row.found.file(), *([ORIGINAL] if row.is_changed() else []), *([NETWORK] if is_told else [])]
    told.append(("Files", ", ".join(link(row, name) for name in kept)))
    told.append(("Digest", element("code", shown(row.judged_digest[:16]))))
    lines = (element("div", element("dt", key), element("dd", value)) for key, value in told)
    return element("dl", *lines, class_="facts")


def about(row, told):
    """What there is to a verdict: the file that shows it, or why there is none."""
    why = shown(told.why) if told.why else ""
    if not told.file:
        return why
    breaks = told.file.startswith("not")
    what = "breaking state" if breaks else f"certificate of {counted(told.steps, 'step')}"
    leading = element("a", what, href=f"designs/{row.id()}/{told.file}")
    return leading + (", accepted" if told.verdict in SETTLED else f". {why}")


def verdicts(row):
    """The verdicts on a design."""
    lines = []
    for prop in row.told():
        told = row.answer(prop)
        seconds = note(spent_time(told)) if told.processor is not None else ""
        head = element("th", prop, note(KNOWN_AS[prop]), note(PROMISES[prop]), scope="row")
        lines.append(element("tr", head, element("td", badge(told)), element("td", about(row, told), " ", seconds)))
    return element("table", element("tbody", *lines), class_="verdicts")


def marks_legend(row):
    """What the marks on a design's picture mean, those that are there."""
    parts, _ = row.design
    told = [
        (row.bare, "hollow: a half to which no belt leads"),
        (row.of_reading("belts"), "dashed rims: belts that were added"),
        (any(it.give or it.take for it in parts.parts), "triangle: a side that a splitter prefers"),
        (row.of_reading("gaps"), "red: where a belt may be missing"),
        (row.places() and not row.of_reading("gaps"), "red: what is refused"),
    ]
    shown_ = [element("span", words) for there, words in told if there]
    return element("p", *shown_, class_="legend") if shown_ else ""


def legend(unit, apart):
    """What the lines and numbers of a state mean."""
    told = (
        element("i", class_="key free") + "free: all moves on",
        element("i", class_="key backed") + "backed: items queue up and wait",
        f"width and number: flow, in {unit}",
        "at the ends: load (i) and room (o)",
    )
    told += (UNIVERSAL["apart"],) if apart else ()
    return element("p", *(element("span", it) for it in told), class_="legend")


def state_table(net, state):
    """A state's flows and marks, in a table."""
    head = (element("th", it, scope="col") for it in ("edge", "from", "to", "flow", "cap", "mark"))
    lines = []
    for number, ((source, target, cap), flow, mark) in enumerate(zip(net.edges, state.flows, state.marks)):
        told = number, source, target, flow, cap, "backed" if mark == "b" else "free"
        lines.append(element("tr", *(element("td", it) for it in told)))
    whole = element("table", element("thead", element("tr", *head)), element("tbody", *lines), class_="flows")
    return element("div", whole, class_="wide")


def breaking(row, prop):
    """The breaking state of a property: what it shows, drawn on the picture, and in full."""
    text = row.folder.text(row.answer(prop).file)
    state, (picture, _) = states.read_state(text), row.picture
    content = [element("h3", "Why it isn’t ", element("em", prop))]
    content.append(element("p", escape(states.shown(prop, row.net, state, tuple(row.tiers())))))
    if picture and picture.network:
        ends = {f"i{k}": load for k, load in enumerate(state.loads)}
        ends |= {f"o{k}": room for k, room in enumerate(state.rooms)}
        below = element("use", class_="below", href=f"#p-{row.id()}")
        apart = states.apart(prop, row.net, state)
        drawn = below + flows(picture, state, f"w-{row.id()}") + picture.ends(ends, apart)
        content.append(figure(picture, drawn, f"{files.plain(row.found.name)}: a state that breaks {prop}"))
        content.append(legend("full belts" if len(row.tiers()) == 1 else "full basic belts", apart))
    summary = element("summary", "The state in full")
    content.append(element("details", summary, element("pre", escape(text)), state_table(row.net, state)))
    return element("section", *content, class_="breaking")


SIDES_KEPT = "Each input and output that is at a side of the design is at that side here too."
SIDES_FACING = "Its inputs stand side by side at the south, and its outputs at the north."
SIDES_LEFT = "Its inputs and outputs may be at other sides: with each at its own side of the design none was found."
"""Which sides the ends of a smaller layout are at."""


def smaller(row):
    """The smaller layout that was found: its size, its picture and its string; or why there is none."""
    is_facing = row.smaller.facing or "facing" in (row.smaller.limits or [])
    told, heading = row.smaller, element("h3", "A layout with ends side by side" if is_facing else "A smaller layout")
    if told.verdict != "found":
        return element("section", heading, element("p", shown(row.why_no_smaller())), class_="smaller")
    width, height = told.size
    own = row.size()
    than = f", where the design has {own[0]} × {own[1]}, {counted(own[0] * own[1], 'cell')}" if own else ""
    links = " and ".join(link(row, it) for it in (SMALLER, SMALLER_STRING))
    sides = SIDES_FACING if told.facing else SIDES_KEPT if told.sides else SIDES_LEFT
    picture = row.smaller_picture
    core = core_of(picture.design.parts, picture.network) if picture.network else None
    told = f"{width} × {height}, {counted(width * height, 'cell')}{without_ends(core, told.size)}{than}: "
    said = element("p", told, links, f". {sides}")
    label = f"{files.plain(row.found.name)}, laid out smaller"
    drawn = figure(picture, picture.parts(f"s-{row.id()}") + picture.ends(), label)
    summary = element("summary", "Blueprint string of the smaller layout, to paste into the game")
    string = element("details", summary, element("code", row.smaller_string(), class_="string"))
    return element("section", heading, said, drawn, string, class_="smaller")


def of_choices(row):
    """The choices of bare halves that make the ends which the label tells of, side by side."""
    cards = [of_choice(row, at, it) for at, it in enumerate(row.choices, 1)]
    heading = element("h3", "Which halves are meant?")
    return element("section", heading, element("div", *cards, class_="choices"))


def of_choice(row, at, choice):
    """A choice: which halves it opens, its picture, and what holds of it."""
    folder, (picture, _) = f"designs/{row.id()}/{choice.id()}", choice.picture
    likely = f", {OF_ENDS['likely']}" if at == 1 else ""
    told = element("h4", f"{at}{likely}: ", shown(trace.spelled(choice.of_reading("opened"), MOST_IN_PAGE)))
    lacking = choice.of_reading("lacking")
    told += element("p", OF_ENDS["room"].format(trace.tile(lacking)), class_="note") if lacking else ""
    drawn = ""
    if picture and at <= MOST_DRAWN:
        label = f"{files.plain(row.found.name)}, choice {at}"
        drawn = picture.parts(f"c-{row.id()}-{at}") + picture.ends() + picture.halves(*choice.marked())
        drawn = figure(picture, drawn, label)
    lines = []
    for prop in row.told():
        it = choice.answer(prop)
        what = "breaking state" if it.verdict == "no" else "certificate"
        leading = element("a", what, href=f"{folder}/{it.file}") if it.file else shown(it.why)
        lines.append(element("div", element("dt", prop), element("dd", badge(it, prop), " ", leading)))
    lines.append(element("div", element("dt", "Files"), element("dd", *(
        element("a", name, href=f"{folder}/{name}") + " " for name in (DESIGN_JSON, NETWORK)
    ))))
    return element("div", told, drawn, element("dl", *lines, class_="facts"), class_="choice")


WAYS = element("nav", element("a", "← All designs", href="#all"), element("span"))
"""The ways from a design's page: to all, and to those before and after it, which the order of the table tells."""
UNSCRIPTED = ".designs .later{display:table-row-group}"
"""The style of a page without scripts: all rows are there from the beginning."""
UNDRAWN = "Without scripts no picture is drawn here and no design’s page; the verdicts are below, and all files in "
UNDRAWN += "designs/."


def arranged(row, picture, drawn):
    """A design's picture with what is told of it: beside it where none of its properties is broken, and else the states
    that break them stand beside it."""
    small, judged = not picture or picture.box[2] <= WIDEST_BESIDE, verdicts(row) if row.net else ""
    noes = [prop for prop in row.asked if row.net and row.answer(prop).verdict == "no" and row.answer(prop).file]
    if not noes:
        told = element("div", facts(row), judged)
        return element("div", element("div", drawn), told, class_="two" if small else "one")
    shows = [breaking(row, prop) for prop in noes]
    pictures = element("div", element("div", drawn, class_="itself"), *shows, class_="states" if small else "one")
    return pictures + element("div", element("div", facts(row)), element("div", judged), class_="two")


def page(row):
    """What a design's page tells."""
    picture, lack = row.picture
    name = row.found.name.replace("/", " / ") if row.found.books else row.found.name
    refused = element("p", shown(row.reason()), class_="refused") if row.reason() else ""
    drawn = ""
    if picture:
        label = f"{files.plain(row.found.name)}, drawn from its parts"
        halves = picture.halves(*row.marked())
        drawn = figure(picture, element("use", href=f"#p-{row.id()}") + picture.ends() + halves, label, ruled=True)
        drawn += marks_legend(row)
    drawn += note(shown(lack)) if lack else ""
    both = arranged(row, picture, drawn)
    string = ""
    if row.found.is_json():
        opened = row.of_reading("opened")
        text = row.folder.file(DESIGN_JSON).read_bytes() if opened else row.found.text
        what = ", with the belts that were added" if row.of_reading("belts") else ""
        summary = element("summary", f"Blueprint string, to paste into the game{what}")
        string = element("details", summary, element("code", strings.deflate(text), class_="string"))
    less = smaller(row) if row.smaller else ""
    described = element("p", named(row.description()), class_="described") if row.description() else ""
    told = remarks(row, MOST_IN_PAGE)
    choices = of_choices(row) if row.choices else ""
    return "".join((element("h2", named(name)), described, refused, told, both, choices, less, string))


def told_of(rows):
    """The properties of which something is told of one of these designs."""
    them = set().union(*(row.told() for row in rows))
    return [it for it in PROPERTIES if it in them]


def summary(rows):
    """How many designs there are, and how many have each property."""
    with_network = [row for row in rows if row.net]
    tiles = [(sum(not row.found.is_passed for row in rows), "found"), (len(with_network), "with a network")]
    for prop in told_of(with_network):
        number = sum(row.answer(prop).verdict == "yes" for row in with_network)
        tiles.append((f"{number}{element('small', f' of {len(with_network)}')}", prop))
    universal_ = [it for row in with_network if (it := row.universal())]
    if universal_:
        number = sum(it.verdict == "yes" for it in universal_)
        tiles.append((f"{number}{element('small', f' of {len(with_network)}')}", UNIVERSAL["name"]))
    return element(
        "ul", *(element("li", element("strong", it), element("span", word)) for it, word in tiles), class_="tiles"
    )


CERTIFICATES = (
    "A certificate is good for this: who has it and the design can be sure of the property, for every load and "
    "blocking, without trust in its author or in this program, by checking it with a program of their own."
)

SEARCH = element(
    "p",
    element("label", "Search", for_="words"),
    element("input", id="words", type="search", autocomplete="off", placeholder="4 to 4, words, or unlimited:no"),
    element("span", id="filters"),
    element("output", id="left", for_="words"),
    class_="search",
    hidden="hidden",
)


@dataclass(frozen=True)
class Shown:
    """A design as the page has it: its row of the table, or what the row is made of; which columns it has something in;
    what its page tells, and its picture's shapes."""

    row: Row
    columns: set
    line: object
    page: str = ""
    shapes: str = ""


def show(row, alone):
    """A design as the page has it; whether all are from one file."""
    line = Line.of(row, alone) if row.net else refused_row(row, alone)
    columns = {it for it, (content, _) in line.cells.items() if content != ""} if row.net else set()
    if not row.folder or row.same_as:
        return Shown(row, columns, line)
    picture, _ = row.picture
    shapes = element("g", picture.parts(f"w-{row.id()}"), id=f"p-{row.id()}") if picture else ""
    return Shown(row, columns, line, page(row), shapes)


def packed(text):
    """HTML as the page keeps it until it is shown: compressed with zlib, in base64."""
    return base64.b64encode(zlib.compress(text.encode(), 9)).decode()


def front(designs, title, program):
    """The first page: the table of all designs, and what has no network."""
    alone = len({it.row.found.source for it in designs}) == 1
    there = set().union(*(it.columns for it in designs))
    told = told_of([it.row for it in designs if it.row.net])
    columns = ["ends", "bare", "splitters", "cells", "tiers", *told, "universal", "smaller", "same network", "seconds"]
    columns = [it for it in columns if it in there or it not in SOMETIMES]
    titles_of = KNOWN_AS | {UNIVERSAL["name"]: UNIVERSAL["known_as"]}
    titles = (element("th", it, scope="col", title=titles_of.get(it, "")) for it in ("design", *columns))
    head = element("tr", *titles)
    lines = [it.line.with_columns(columns) for it in designs if it.row.net]
    bodies = [element("tbody", *lines[:AT_ONCE])]
    bodies += [element("tbody", *lines[AT_ONCE:], class_="later")] if lines[AT_ONCE:] else []
    table = element("table", element("thead", head), *bodies, class_="designs", id="designs")
    promises = (
        element("div", element("dt", prop), element("dd", element("em", KNOWN_AS[prop]), f": {words}"))
        for prop, words in PROMISES.items()
        if prop in told
    )
    content = [element("header", element("h1", shown(title)), summary([it.row for it in designs]))]
    content += [element("dl", *promises, class_="promises"), SEARCH, element("div", table, class_="wide")]
    others = [it.line for it in designs if not it.row.net]
    if others:
        table = element("table", element("tbody", *others), class_="others")
        content.append(element("section", element("h2", "Without a network"), table))
    words = (
        "Every yes has a certificate and every no a steady state in which the property fails, and ",
        element("code", "beltproof check"),
        f" has accepted each. Program {element('code', shown(program[:16]))}. The results are in ",
        element("a", "results.tsv", href="results.tsv"),
        ", one line for each design and property.",
    )
    every = element("button", "Print all, a design a sheet", type="button", id="every", hidden="hidden")
    foot = element("footer", element("p", *words), element("p", CERTIFICATES), every)
    return element("section", *content, foot, id="all", class_="front")


def policy(script):
    """What the page may do: it loads nothing, and runs this script alone."""
    digest = base64.b64encode(hashlib.sha256(script.encode()).digest()).decode()
    allowed = f"default-src 'none'; style-src 'unsafe-inline'; script-src 'sha256-{digest}'; base-uri 'none'"
    return element("meta", http_equiv="Content-Security-Policy", content=f"{allowed}; form-action 'none'")


def whole(designs, title, program):
    """The whole page."""
    pages = (
        element(
            "article", WAYS, class_="page", id=page_id(it.row), data_kept=packed(it.page)
        ) for it in designs if it.page
    )
    style, script = ((HERE / name).read_text("utf-8") for name in ("report.css", "report.js"))
    head = (
        element("meta", charset="utf-8"),
        policy(script),
        element("meta", name="viewport", content="width=device-width, initial-scale=1"),
        element("meta", name="color-scheme", content="light dark"),
        element("title", escape(files.plain(title))),
        element("style", style),
        element("noscript", element("style", UNSCRIPTED)),
    )
    kept = (
        element("g", id=f"k-{it.row.id()}", data_kept=packed(it.shapes)) for it in designs if it.shapes
    )
    shapes = element("defs", *kept)
    store = element("svg", shapes, class_="store", width="0", height="0", aria_hidden="true")
    main = element("main", front(designs, title, program), *pages)
    body = element("body", store, element("noscript", element("p", UNDRAWN)), main, element("script", script))
    return f"<!DOCTYPE html>\n{element('html', element('head', *head), body, lang='en')}\n"
