"""What is done for each design: its network, each property decided, each answer checked, and a smaller layout.

All of it is kept in the design's folder, with a record of what was done by which program. What the record tells is not
done again, as long as the files are there and are what they were. The design is kept as it is judged, and where that
isn't as it came, it is kept as it came too."""

import json
import os
import re
import shutil
import threading
from dataclasses import dataclass, field, replace
from functools import cached_property
from pathlib import Path

from . import cleaning, design, files, labels, openings, strings
from .answers import ANSWERS, FOUND, GAVE_UP, SETTLED, UNKNOWN, Answer, Limits, Network, Smaller, together
from .inputs import design_digest
from .program import EXACT_STATUSES
from .states import PROPERTIES
from .words import LATER, WORDS

OF_SEARCHES = WORDS["searches"]
RECORD = "record.json"
NETWORK = "network.net"
DESIGN_JSON, DESIGN_NET = "design.json", "design.net"
ORIGINAL = "original.json"
"""The design as it came, where what is judged is another text."""
CHOICE = "choice-{}"
"""The folder of a choice of bare halves, in that of its design."""
LONGEST_LINE = 4096
SMALLER, SMALLER_STRING, SMALLER_NETWORK = "smaller.json", "smaller.txt", "smaller.net"
"""A smaller blueprint, the string to paste of it, and the network that is recovered from it."""
REFUSED = 3
"""The program's status where it refuses a design."""
USAGE, NOT_FOUND = 2, 12
"""The program's status where it doesn't know its words, and where it looked for something and found nothing."""
RULE = "2"
"""By which rule designs are read: what was read by another one is read anew."""
FIRST_LEARNT, TIMES_LEARNT, DEFAULT_LEARNT = 500, 4, 100_000
"""The steps of the first search where the time is bounded, how many times as many the next one has, and the program's
own bound."""
USUAL_GRID, LARGE_GRID = 16, 160
"""How many tiles wide and high a layout is at most, where the program knows no larger ones, and where it does."""
FACING = ("side inputs south", "side outputs north", "row inputs", "row outputs")
"""The lines that ask for inputs side by side at one side, and outputs at the other."""
GRID = re.compile(rb"grid (\d{1,9})x(\d{1,9})")
FAILED = -1
"""What stands for its status where it gave no answer."""
VERDICT_OF = {0: "yes", 1: "no", 4: "spent", 5: "wide", 10: "pivots"}


class Folder:
    """A design's folder in the report, and the record in it."""

    def __init__(self, path):
        self.path, self.guard = Path(path), threading.Lock()
        self.record, self.of_choices = self.read(), {}

    def read(self):
        try:
            record = json.loads((self.path / RECORD).read_text("utf-8"))
        except (OSError, ValueError, RecursionError):
            return {}
        kinds = {"decided": dict} | dict.fromkeys(("design", "judged", "program", "name", "label"), str)
        sound = isinstance(record, dict) and all(isinstance(record.get(it, kind()), kind) for it, kind in kinds.items())
        return record if sound else {}

    def write(self):
        files.write(self.path / RECORD, json.dumps(self.record, indent=1) + "\n")

    def file(self, name):
        return self.path / name

    def text(self, name):
        return self.file(name).read_text("utf-8", "replace")

    def first_file(self, *names):
        return next((self.file(it) for it in names if self.file(it).is_file()), None)

    def design_file(self):
        """The file of the design as it is judged, or None."""
        return self.first_file(DESIGN_JSON, DESIGN_NET)

    def judged_file(self):
        """The file of what is judged: the design, or where its ends are marked there alone, its network."""
        told = Network.of(self.record.get("network"))
        return self.file(NETWORK) if told and told.is_marked else self.design_file()

    def choices(self):
        """The folders of the choices of bare halves, the likely one first."""
        told = Network.of(self.record.get("network"))
        with self.guard:
            for at in range(1, told.choices + 1) if told else ():
                self.of_choices.setdefault(at, Folder(self.file(CHOICE.format(at))))
            return [self.of_choices[at] for at in range(1, told.choices + 1)] if told else []

    def original_file(self):
        """The file of the design as it came, or None."""
        return self.first_file(ORIGINAL, DESIGN_JSON, DESIGN_NET)

    def digest(self):
        """The digest of the design as it came, as the record tells it, or of its file; None where there is none."""
        return self.record.get("design") or self.digest_of_original()

    def digest_of_original(self):
        """The digest of the design as it came, or None where its file can't be read."""
        file = self.original_file()
        try:
            return design_digest(file.read_bytes()) if file else None
        except OSError:
            return None

    def network(self):
        """What the record tells of the network, where the files are what they were."""
        told = Network.of(self.record.get("network"))
        if told is None:
            return None
        file, judged = self.design_file(), self.record.get("judged")
        same = not told.digest or told.digest == files.digest_of_file(self.file(NETWORK))
        same = same and (judged is None or file is not None and files.digest_of_file(file) == judged)
        return told if same else None

    def decided(self, prop):
        """What the record tells of a property, where the files are what they were; of choices what they tell
        together."""
        choices = self.choices()
        if choices:
            return together([it.network() and it.decided(prop) for it in choices])
        told = Answer.of(self.record.get("decided", {}).get(prop))
        if told is None or not told.is_of(prop):
            return None
        return told if not told.file or files.digest_of_file(self.file(told.file)) == told.digest else None

    def smaller(self):
        """What the record tells of a smaller layout, where the files are what they were."""
        told = Smaller.of(self.record.get("smaller"))
        if told is None or told.verdict not in FOUND:
            return None
        names = {SMALLER, SMALLER_STRING} if told.verdict == "found" else set()
        same = set(told.digests) == names and (told.size is not None) == bool(names)
        return told if same and all(files.digest_of_file(self.file(it)) == told.digests[it] for it in names) else None

    def forget(self, record):
        """Takes away what another program answered, or what was answered to another design."""
        with self.guard:
            self.record, self.of_choices = record, {}
            if not self.path.is_dir():
                return
            answers = (f"{word}-{prop}.txt" for word in ANSWERS.values() for prop in PROPERTIES)
            for name in [NETWORK, SMALLER, SMALLER_STRING, *answers]:
                self.file(name).unlink(missing_ok=True)
            for it in self.path.glob(CHOICE.format("[0-9]*")):
                if it.is_dir() and not it.is_symlink():
                    shutil.rmtree(it)

    def put(self, judged, original):
        """Writes the design as it is judged, and where that is another text, as it came. What was answered to another
        text is forgotten."""
        digest = files.digest(judged)
        if self.record.get("judged", digest) != digest:
            self.forget({key: it for key, it in self.record.items() if key in ("design", "program", "name", "label")})
        if judged != original:
            files.write_new(self.file(ORIGINAL), original)
        files.write_new(self.file(DESIGN_JSON), judged)
        if judged == original:
            self.file(ORIGINAL).unlink(missing_ok=True)
        self.record["judged"] = digest

    def keep(self, **told):
        with self.guard:
            self.record |= told
            self.write()

    def keep_decided(self, prop, told):
        with self.guard:
            self.record.setdefault("decided", {})[prop] = told.kept()
            self.write()


def sizes(text):
    """How many inputs, outputs, splitters and edges a network text tells of, and how many preferred ones."""
    lines = text.splitlines()
    counts = (sum(line.startswith(f"{it} ") for line in lines) for it in ("edge", "give", "take"))
    return [*lines[0].split(" ")[1:4], *counts] if lines else []


def request_of(network, lines):
    """A network's text with more lines before its end."""
    return network.rstrip("\n").removesuffix("end") + "".join(f"{it}\n" for it in lines) + "end\n"


def tier_words(text):
    """The words that name the tier of a layout's parts, where all have one."""
    try:
        tiers = list(design.read(text).tiers())
    except design.Unreadable:
        return []
    return ["--tier", tiers[0]] if len(tiers) == 1 else []


def encoded(text):
    return text.encode("utf-8", "surrogateescape")


def first_line(path):
    with open(path, "rb") as file:
        return file.readline(LONGEST_LINE).decode("ascii", "replace").rstrip("\n")


def word_of(line, at):
    """A word of a line, or an empty one where it has fewer."""
    return (line.split(" ")[at:] or [""])[0]


def numbers_line(path):
    """The line that tells two numbers whose sum or product leaves 128 bits."""
    with open(path, "rb") as file:
        file.seek(max(0, path.stat().st_size - LONGEST_LINE))
        lines = file.read().decode("ascii", "replace").splitlines()
    return next((it for it in lines if it.startswith("numbers ")), "")


def count_steps(path):
    """How many steps a certificate has: its lines but for the first and the last."""
    lines = 0
    with open(path, "rb") as file:
        while block := file.read(files.BLOCK):
            lines += block.count(b"\n")
    return max(0, lines - 2)


def how_it_ended(ended):
    """Why a run has no answer, in words."""
    if ended.status in EXACT_STATUSES:
        return f"the program wrote no answer, and ended with status {ended.status}"
    if ended.status < 0:
        return f"the program was ended by signal {-ended.status}"
    told = {6: "the program couldn't read", 7: "the program couldn't write", 8: "the program had no memory left"}
    return told.get(ended.status, f"the program ended with status {ended.status}")


def spent_on(ended):
    """What a run took, in seconds, as an answer tells it."""
    return {"processor": round(ended.processor, 3), "clock": round(ended.clock, 3)}


def rounds(limits):
    """The words for one search after the other: with more and more steps where the time is bounded, else one alone."""
    if limits.seconds is None:
        return [limits.words_to_find()]
    most, steps = DEFAULT_LEARNT if limits.learnt is None else limits.learnt, FIRST_LEARNT
    found = []
    while steps < most:
        found.append(["--learnt", str(steps)])
        steps *= TIMES_LEARNT
    return [*found, ["--learnt", str(most)]]


def of_opened(found):
    """What a record keeps of how bare halves were opened."""
    names = ("belts", "opened", "unopened", "before", "after", "would", "ends", "gaps", "is_marked", "lacking")
    return {name: getattr(found, name) for name in names}


@dataclass
class Spent:
    """What several runs took, in seconds of a processor and by the clock."""

    processor: float = 0
    clock: float = 0

    def add(self, ended):
        self.processor, self.clock = self.processor + ended.processor, self.clock + ended.clock


def with_words_of(text, blueprint):
    """A smaller blueprint with the label, the icons and the description of the design, as far as it has them."""
    try:
        root, of_design = json.loads(blueprint), design.blueprint_of(text)
    except (ValueError, RecursionError, design.Unreadable):
        return blueprint
    if not isinstance(root, dict) or not isinstance(root.get("blueprint"), dict):
        return blueprint
    kept = {name: of_design[name] for name in ("icons", "description") if name in of_design}
    label = of_design.get("label")
    kept |= {"label": f"{label}{OF_SEARCHES['label']}"} if isinstance(label, str) and label else {}
    own = {name: it for name, it in root["blueprint"].items() if name not in ("label", "icons", "description")}
    if not kept and own == root["blueprint"]:
        return blueprint
    root["blueprint"] = own | kept
    return (json.dumps(root, separators=(",", ":"), default=float, ensure_ascii=False) + "\n").encode(
        "utf-8", "surrogatepass"
    )


class NoAnswer(Exception):
    """How a run ended that has no answer."""


@dataclass(frozen=True)
class Reading:
    """How designs are read: when bare halves are opened, and which names are taken for others."""

    bare_ends: str = "label"
    treated: tuple = ()

    def told(self, label):
        """How a design with this label is read: what is told of it stands until another way is asked for."""
        pairs = labels.spelled(labels.told(label)) if self.bare_ends == "label" else ""
        return [f"{RULE} {self.bare_ends} {pairs}", *map(list, self.treated)]


@dataclass
class Worker:
    """Does the work on folders, with a program and within limits."""

    program: object
    limits: Limits = field(default_factory=Limits)
    smaller: bool = False
    """Whether smaller layouts are looked for."""
    reading: Reading = field(default_factory=Reading)
    properties: tuple = PROPERTIES
    """The properties that are decided."""
    least: dict = field(default_factory=dict)
    """The least that was found so far, in words, by the names of the designs' folders."""

    def begin(self, folder, name, label, text, file):
        """Puts a design into its folder. What is there of another design or program is forgotten."""
        digest, is_new = design_digest(text), not folder.path.is_dir()
        record = folder.record
        if record.get("design") != digest or record.get("program") != self.program.digest:
            folder.forget({"design": digest, "program": self.program.digest})
        folder.record |= {"name": name, "label": label}
        if is_new or folder.digest_of_original() != digest:
            folder.file(ORIGINAL).unlink(missing_ok=True)
            files.write(folder.file(file), text)
        if is_new or folder.read() != folder.record:
            folder.keep()

    def ask(self, folder, text):
        """What `recover` says of a text: its network, or its refusal."""
        asked = folder.file(f"{NETWORK}{files.UNDONE}")
        try:
            with open(asked, "wb") as out:
                ended = self.program.run(["recover"], [text], out)
            answer = asked.read_text("ascii", "replace") if ended.status == 0 else first_line(asked)
            if ended.status not in EXACT_STATUSES or not answer:
                raise NoAnswer(ended)
            return answer
        finally:
            asked.unlink(missing_ok=True)

    def recover(self, folder):
        """Finds the network of the design as it is judged, or the refusal."""
        told, asked = folder.network(), self.reading.told(folder.record.get("label", ""))
        if told is not None and told.asked == asked:
            return told
        if told is not None:
            # The ends may be others, though the text stays.
            folder.forget(
                {key: it for key, it in folder.record.items() if key in ("design", "program", "name", "label")}
            )
        file = folder.original_file()
        try:
            if file.name == DESIGN_NET:
                answer, kept = self.ask(folder, file.read_bytes()), {}
            else:
                answer, kept = self.judge(folder, file.read_bytes())
        except NoAnswer as ended:
            return Network(FAILED, how_it_ended(ended.args[0]))
        told = self.kept_network(folder, answer, {**kept, "asked": asked})
        folder.keep(network=told.kept())
        return told

    def kept_network(self, folder, answer, kept):
        """Puts a network into its folder; what is told of it, or of the refusal."""
        if answer.startswith("net "):
            files.write(folder.file(NETWORK), answer)
            return Network(0, digest=files.digest(answer.encode()), **kept)
        return Network(REFUSED, answer, **kept)

    def judge(self, folder, data):
        """Puts a blueprint into its folder as it is judged; the program's answer, and what is told of it."""
        text = data.decode("utf-8", "surrogateescape")
        clean = cleaning.cleaned(text, self.reading.treated)
        kept = {"notes": clean.notes}
        try:
            bystanders = design.bystanders(text, self.reading.treated)
            opening = openings.Opening(clean.text, bystanders, lambda it: self.ask(folder, encoded(it)))
            found = openings.opened(opening, self.reading.bare_ends, folder.record.get("label", ""))
            judged, answer = found.text, found.answer
            kept |= of_opened(found)
        except openings.Refused as refusal:
            judged, answer, found = clean.text, str(refusal), None
        folder.put(encoded(judged), data)
        if found and found.choices:
            self.keep_choices(folder, found.choices)
            kept["choices"] = len(found.choices)
        return answer, kept

    def keep_choices(self, folder, choices):
        """Puts each choice of bare halves into a folder of its own."""
        for at, found in enumerate(choices, 1):
            own = Folder(folder.file(CHOICE.format(at)))
            text = encoded(found.text)
            own.forget({"design": files.digest(text), "program": self.program.digest})
            own.put(text, text)
            told = self.kept_network(own, found.answer, of_opened(found))
            own.keep(network=told.kept())

    def decide(self, folder, prop):
        """Decides a property and checks the answer, for each choice of bare halves where there are several; what the
        record tells is not done again."""
        choices = folder.choices()
        if choices:
            return together([self.decide(it, prop) for it in choices])
        told = folder.decided(prop)
        if told and told.stands(self.limits):
            return told
        answer = folder.file(f"{prop}.answer{files.UNDONE}")
        try:
            told = self.decide_anew(folder, prop, answer)
        finally:
            answer.unlink(missing_ok=True)
        if told.verdict in SETTLED + GAVE_UP:
            folder.keep_decided(prop, told)
        return told

    def decide_anew(self, folder, prop, answer):
        with open(answer, "wb") as out:
            words = ["decide", prop, *self.limits.words()]
            ended = self.program.run(words, [folder.judged_file()], out, self.limits.seconds)
        verdict, line = VERDICT_OF.get(ended.status), first_line(answer)
        if ended.late:
            told = Answer("late", f"the time was up after {self.limits.seconds:g} seconds by the clock")
        elif ended.status == USAGE and prop in LATER:
            told = Answer(UNKNOWN, "the program doesn't know this property")
        elif verdict in SETTLED and line:
            told = self.settle(folder, prop, verdict, answer)
        elif verdict is None or not line:
            told = Answer("failed", line or how_it_ended(ended))
        elif verdict == "spent" and word_of(line, 1).isdigit():
            told = Answer(verdict, f"the log is full: {word_of(line, 1)} steps", int(word_of(line, 1)))
        elif verdict == "pivots":
            told = Answer(verdict, f"{word_of(line, 1)} turns were made for one choice of rows")
        elif verdict == "wide":
            numbers = numbers_line(answer)
            told = Answer(verdict, f"a number leaves 128 bits ({line}{'; ' * bool(numbers)}{numbers})")
        else:
            told = Answer("failed", line)
        return replace(told, **spent_on(ended), limits=self.limits.told())

    def settle(self, folder, prop, verdict, answer):
        """Checks an answer, and keeps it under the name that tells what it says."""
        name = f"{ANSWERS[verdict]}-{prop}.txt"
        asked = folder.file(f"{prop}.check{files.UNDONE}")
        try:
            with open(asked, "wb") as out:
                both = [folder.judged_file(), b"\n", answer]
                check = self.program.run(["check", prop], both, out, self.limits.seconds)
            line = "the time was up" if check.late else first_line(asked) or how_it_ended(check)
        finally:
            asked.unlink(missing_ok=True)
        for other in ANSWERS.values():
            folder.file(f"{other}-{prop}.txt").unlink(missing_ok=True)
        steps = count_steps(answer) if verdict == "yes" else 0
        answer.rename(folder.file(name))
        told = Answer(verdict, "", steps, file=name, digest=files.digest_of_file(folder.file(name)))
        if line == f"{verdict} {prop}":
            return told
        exact = check.late or check.status in EXACT_STATUSES and line != how_it_ended(check)
        why = f"{verdict}, but check doesn't accept it: {line}"
        return replace(told, verdict="unaccepted" if exact else "failed", why=why)

    def shrink(self, folder):
        """Looks for a smaller layout of a design that is laid out; what the record tells is not done again."""
        told = folder.smaller()
        if told and told.stands(self.limits):
            return told
        answer = folder.file(f"smaller.answer{files.UNDONE}")
        try:
            told = self.shrink_anew(folder, answer)
        finally:
            answer.unlink(missing_ok=True)
        if told.verdict in FOUND:
            folder.keep(smaller=told.kept())
        return told

    def shrink_anew(self, folder, answer):
        """Looks for a smaller layout with each end at its own side, for half of the time where that is bounded, and
        where none is found for one with ends at any side."""
        for name in (SMALLER, SMALLER_STRING):
            folder.file(name).unlink(missing_ok=True)
        seconds, spent = self.limits.seconds, Spent()
        if self.limits.facing:
            told = self.shrink_facing(folder, answer, spent)
            return replace(
                told,
                processor=round(spent.processor, 3),
                clock=round(spent.clock, 3),
                limits=self.limits.told_to_find(),
            )
        told = self.look_in_rounds(folder, answer, ["--sides"], seconds and seconds / 2, spent)
        if told.verdict == "found":
            told = replace(told, sides=True)
        elif told.verdict in ("late", "none"):
            first, told = told, self.look_in_rounds(folder, answer, [], seconds, spent)
            if first.verdict == told.verdict == "none":
                told = replace(told, why=f"{first.why} with each end at its own side, and {told.why} with ends at any")
        return replace(
            told, processor=round(spent.processor, 3), clock=round(spent.clock, 3), limits=self.limits.told_to_find()
        )

    @cached_property
    def most_of_grid(self):
        """How many tiles wide and high a layout is at most."""
        with open(os.devnull, "wb") as out:
            ended = self.program.run(["smallest", "--found", "--most", f"{LARGE_GRID}x{LARGE_GRID}"], [b"net"], out)
        return USUAL_GRID if ended.status == USAGE else LARGE_GRID

    def shrink_facing(self, folder, answer, spent):
        """Looks for a layout with inputs side by side at one side and outputs at the other: for half of the time where
        that is bounded in the width of the lines, unless a width is asked for, and where none is found in any width."""
        text, seconds = folder.text(NETWORK), self.limits.seconds
        request, lines = request_of(text, FACING), max(map(int, text.split(" ", 3)[1:3]))
        usual = min(self.most_of_grid, max(USUAL_GRID, 2 * lines))
        widths = [self.limits.width] if self.limits.width else [lines, usual]
        for at, width in enumerate(widths, 1):
            grid = f"{min(width, self.most_of_grid)}x{self.most_of_grid if self.limits.width else usual}"
            until = seconds and seconds * at / len(widths)
            told = self.look_in_rounds(folder, answer, ["--most", grid], until, spent, request.encode())
            if told.verdict not in ("none", "late"):
                return replace(told, facing=told.verdict == "found")
        return told

    def look_in_rounds(self, folder, answer, words, seconds, spent, request=None):
        """Looks for a smaller layout with these words until so many seconds are spent; where the time is bounded, with
        more and more steps, so that what was found stands when it is up. A request takes the design's place."""
        tier, found, told = tier_words(folder.text(folder.design_file().name)), None, None
        if self.limits.width and request is None:
            tier += ["--most", f"{min(self.limits.width, self.most_of_grid)}x{self.most_of_grid}"]
        for steps in rounds(self.limits):
            left = seconds and max(0.001, seconds - spent.clock)
            told = self.look(folder, answer, [*words, *tier, *steps], left, spent, request)
            if told.verdict == "found":
                found = told
                folder.keep(smaller=replace(told, sides="--sides" in words, facing=request is not None).kept())
                self.least[folder.path.name] = "{}x{} so far".format(*told.size)
            elif told.verdict != "none":
                break
        return found if found and told.verdict in ("late", "none") else told

    def look(self, folder, answer, words, seconds, spent, request=None):
        """Looks for a smaller layout once, with these words and for so many seconds."""
        with open(answer, "wb") as out:
            ended = self.program.run(["smallest", "--found", *words], [request or folder.design_file()], out, seconds)
        spent.add(ended)
        line = first_line(answer)
        if ended.late:
            return Smaller("late", f"the time was up after {self.limits.seconds:g} seconds by the clock")
        if ended.status == 0 and line:
            return self.keep_smaller(folder, answer)
        if ended.status == NOT_FOUND:
            return Smaller("none", "none was found, which says nothing of whether there is one")
        if ended.status == 4 and word_of(line, 1).isdigit():
            within = f"{word_of(line, 1)} steps" if self.limits.seconds is None else f"{self.limits.seconds:g} seconds"
            return Smaller("none", f"none was found in {within}")
        if ended.status in EXACT_STATUSES and line:
            return Smaller("refused", line)
        return Smaller("failed", line or how_it_ended(ended))

    def keep_smaller(self, folder, answer):
        """Keeps a smaller blueprint and its string, where its network has the sizes of the design's."""
        grid, _, blueprint = answer.read_bytes().partition(b"\n")
        size = GRID.fullmatch(grid)
        if size is None:
            return Smaller("failed", f"the program wrote no size of a grid: {first_line(answer)!r}")
        blueprint = with_words_of(folder.text(DESIGN_JSON), blueprint)
        asked = folder.file(f"{SMALLER_NETWORK}{files.UNDONE}")
        try:
            with open(asked, "wb") as out:
                ended = self.program.run(["recover"], [blueprint], out)
            shown = asked.read_text("ascii", "replace")
        finally:
            asked.unlink(missing_ok=True)
        if ended.status != 0 or sizes(shown) != sizes(folder.text(NETWORK)):
            return Smaller("failed", f"what was found shows another network: {shown[:LONGEST_LINE]!r}")
        return Smaller("found", size=[int(it) for it in size.groups()], digests=self.written(folder, blueprint))

    def written(self, folder, blueprint):
        """Writes a smaller blueprint and its string; the digests of both."""
        files.write(folder.file(SMALLER), blueprint)
        files.write(folder.file(SMALLER_STRING), strings.deflate(blueprint.rstrip(b"\n")) + "\n")
        return {name: files.digest_of_file(folder.file(name)) for name in (SMALLER, SMALLER_STRING)}

    def share(self, folder, leader, cells):
        """Gives a design of so many cells what was found for another with the same network and sides."""
        told, limits = leader.smaller(), self.limits.told_to_find()
        if told is None or not told.stands(self.limits):
            return self.shrink(folder)
        for name in (SMALLER, SMALLER_STRING):
            folder.file(name).unlink(missing_ok=True)
        told = replace(told, processor=0.0, clock=0.0, limits=limits)
        if told.verdict == "found" and (told.facing or told.size[0] * told.size[1] < cells):
            blueprint = with_words_of(folder.text(DESIGN_JSON), leader.file(SMALLER).read_bytes())
            told = replace(told, digests=self.written(folder, blueprint))
        elif told.verdict == "found":
            told = Smaller("none", OF_SEARCHES["shared"], processor=0.0, clock=0.0, limits=limits)
        folder.keep(smaller=told.kept())
        return told


def all_of(worker, folder):
    """Does all work on one folder, one thing after the other; gives what failed, in words."""
    network = worker.recover(folder)
    if network.status == FAILED:
        return [network.line]
    judged = network.is_judged()
    answers = [worker.decide(folder, prop) for prop in worker.properties] if judged else []
    if worker.smaller and judged and not network.choices and folder.judged_file() == folder.file(DESIGN_JSON):
        answers.append(worker.shrink(folder))
    return [it.why for it in answers if it.verdict == "failed"]
