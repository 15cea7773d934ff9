"""What became of a design, as a record keeps it: of reading it, of each property, and of looking for a smaller
layout."""

from dataclasses import asdict, dataclass, field, fields, replace

from .ends import UNJUDGED
from .words import OF_ENDS

SETTLED = ("yes", "no")
OF_HALVES = "halves"
"""What is told of a property on which the choices of bare halves don't agree, or of which nothing is decided."""
UNKNOWN = "unknown"
"""What is told of a property that the program doesn't know."""
GAVE_UP = ("spent", "pivots", "wide", "late", "unaccepted", UNKNOWN)
ANSWERS = {"yes": "yes", "no": "not"}
"""How the name of a file begins that holds a certificate, or a breaking state."""
FOUND = ("found", "none", "refused", "late")
"""What looking for a smaller layout may come to, but for failures."""


class Kept:
    """What a record keeps as an object of JSON."""

    def kept(self):
        return asdict(self)

    @classmethod
    def of(cls, kept):
        """What an object of JSON tells, or None where it has other members, or members of another kind."""
        try:
            found = cls(**kept)
        except TypeError:
            return None
        return found if all(isinstance(getattr(found, it.name), it.type) for it in fields(cls)) else None


@dataclass(frozen=True)
class Limits:
    """What a decision may take: seconds by the clock, the steps of a log, and the turns for a choice of rows."""

    seconds: float | None = None
    learnt: int | None = None
    pivots: int | None = None
    width: int | None = None
    """How many tiles wide a smaller layout is at most."""
    facing: bool = False
    """Whether ends are to stand side by side in a smaller layout, inputs at one side and outputs at the other."""

    def words(self):
        """The words that tell the program of them."""
        given = (("--learnt", self.learnt), ("--pivots", self.pivots))
        return [word for name, value in given if value is not None for word in (name, str(value))]

    def told(self):
        return [self.seconds, self.learnt, self.pivots]

    def words_to_find(self):
        """The words that tell the program of them where it looks for layouts, which takes no turns."""
        return ["--learnt", str(self.learnt)] if self.learnt is not None else []

    def told_to_find(self):
        return self.told() + ([self.width] if self.width else []) + (["facing"] if self.facing else [])


@dataclass(frozen=True)
class Network(Kept):
    """What became of reading a design: a network, or the program's line where it refuses it; how it was asked for; and
    of its bare halves and what was left out."""

    status: int
    line: str = ""
    digest: str = ""
    """That of the network's file."""
    asked: list = field(default_factory=list)
    notes: list = field(default_factory=list)
    belts: int = 0
    opened: list = field(default_factory=list)
    unopened: list = field(default_factory=list)
    before: list | tuple | None = None
    after: list | tuple | None = None
    would: list | tuple | None = None
    ends: str = ""
    """What the rule of ends tells of it."""
    gaps: list = field(default_factory=list)
    is_marked: bool = False
    """Whether what is judged is the network, in which ends are marked, and not the design's text."""
    lacking: list | tuple | None = None
    """Of one of several choices the tile at which it lacks room to be led out by belts, or None."""
    choices: int = 0
    """How many choices of bare halves there are, each with a folder of its own."""

    def is_judged(self):
        """Whether properties are decided of it: of the network, or of those of the choices."""
        return self.choices > 0 or self.status == 0 and self.ends not in UNJUDGED


@dataclass(frozen=True)
class Answer(Kept):
    """What became of a property: a verdict with its file, or why there is none; what it took, in seconds of a
    processor and by the clock; and under which limits."""

    verdict: str = "open"
    why: str = ""
    steps: int = 0
    processor: float | int | None = None
    clock: float | int | None = None
    file: str = ""
    digest: str = ""
    limits: list | None = None

    def is_of(self, prop):
        """Whether it is an answer to keep, and its file has the name that it has to have."""
        names = [f"{it}-{prop}.txt" for verdict, it in ANSWERS.items() if self.verdict in (verdict, "unaccepted")]
        return self.verdict in SETTLED + GAVE_UP and (self.file in names or not (self.file or names))

    def stands(self, limits):
        """Whether it needs no second run: a verdict, which was checked, or the same limits once more."""
        return self.verdict in (*SETTLED, OF_HALVES) or self.verdict in GAVE_UP and self.limits == limits.told()


UNDECIDED = Answer(why="not decided yet")


def together(answers):
    """What several choices of bare halves tell of a property: what all agree on, whichever halves are meant; None where
    one isn't decided yet."""
    if None in answers:
        return None
    verdicts = [it.verdict for it in answers]
    spent = {it: round(sum(getattr(answer, it) or 0 for answer in answers), 3) for it in ("processor", "clock")}
    settled = {it for it in verdicts if it in SETTLED}
    if len(settled) == 1 and set(verdicts) == settled:
        return Answer(verdicts[0], OF_ENDS["whichever"], max(it.steps for it in answers), **spent)
    if len(settled) == 1:
        return replace(next(it for it in answers if it.verdict not in SETTLED), file="", digest="", steps=0, **spent)
    told = ", ".join(f"{it} for {verdicts.count(it)} of {len(verdicts)}" for it in SETTLED if it in settled)
    return Answer(OF_HALVES, OF_ENDS["differ"].format(told), **spent) if settled else replace(answers[0], **spent)


@dataclass(frozen=True)
class Smaller(Kept):
    """What became of looking for a smaller layout: its width and height, where its ends are, and the digests of its
    files, or why there is none; what it took, in seconds of a processor and by the clock; and under which limits."""

    verdict: str
    why: str = ""
    size: list | None = None
    sides: bool = False
    facing: bool = False
    """Whether its inputs stand side by side at one side, and its outputs at the other."""
    processor: float | int | None = None
    clock: float | int | None = None
    digests: dict = field(default_factory=dict)
    limits: list | None = None

    def stands(self, limits):
        """Whether it needs no second run: a refusal, or the same limits once more."""
        return self.verdict == "refused" or self.verdict in FOUND and self.limits == limits.told_to_find()
