"""Each sentence that states a verdict rests on an answer of the program: the table lists all of them, of the page and
of the report, and this goes through it."""

import ast
import json
import re
import unittest
from itertools import product

from . import TOP, needs_node, run_scripts, sheet

TABLE = json.loads((sheet.HERE / "sentences.json").read_text("utf-8"))
ENDINGS = ("stopped", "late", "fault")
STATUSES = {
    "recover": ("3",),
    "build": ("0", "12"),
    "decide": ("0", "1", "3", "4", "5", "10"),
    "check": ("0", "1", "3", "5", "9"),
    "same": ("0", "1", "3", "4", "5", "10"),
    "check-same": ("0", "1", "3", "5", "9"),
    **dict.fromkeys(
        ("smallest", "smallest sides", "smallest facing", "smallest text"), ("0", "3", "4 fewer", "4 all", "12")
    ),
}
"""Of each command what it may answer with a sentence, besides ending without an answer."""

PLACES = {
    "recover": ("recover",),
    "build": ("build",),
    "decide": ("decide",),
    "check": ("check",),
    "saved": ("check",),
    "same": ("same",),
    "check-same": ("check-same",),
    "saved-same": ("check-same",),
    "smaller": ("smallest", "smallest sides", "smallest facing", "smallest text"),
}
"""In which places which commands' answers are told."""

MEANT = {f"{command} 0": "yes" for command in ("decide", "check", "same", "check-same")}
MEANT |= {f"{command} 1": "no" for command in ("decide", "check", "same", "check-same")}
MEANT |= {f"{command} 3": "refused" for command in ("recover", "decide", "same")}
MEANT["build 0"] = "found"
for command in PLACES["smaller"]:
    MEANT |= {f"{command} 0": "found", f"{command} 3": "refused", f"{command} 4 fewer": "none"}
"""What each answer means, as docs/ANSWERS.md says it; all others leave it open."""

OF_HALVES = "halves"
"""The kind of what is said where verdicts depend on which bare halves are ends."""

VERDICTS = {
    "yes": r"✓|in every (?:two )?steady state|shows? that (?:they behave|the design is\s)|accepts the certificate",
    "no": r"✕|isn't [{$]|they differ|carries more|accepts the state",
    "none": r"there is none|no (?:such )?layout of this network",
}
"""Words that state a verdict, by the kind of sentence that may have them."""

WORDED = re.compile("|".join(VERDICTS.values()), re.I)
SPOKEN = re.compile(
    r"✓|✕|every (?:two )?steady state|a steady state in|none was found|there is none|breaking state$|certificate of |"
    r"isn’t |should all |accepted each|, accepted|another network$|doesn't accept|is at that side",
    re.I,
)
"""Words of the report that state a verdict."""

STRING = re.compile(r'"(?:[^"\\\n]|\\.)*"|`(?:[^`\\]|\\.)*`')
QUESTIONS = ("Do two designs behave the same",)
"""What has such words and states nothing."""

DRIVER = """
const cases = JSON.parse(require("fs").readFileSync(0, "utf8"));
const told = cases.map(({ place, parts, ...ended }) => {
  const written = ended.line === undefined ? undefined : new TextEncoder().encode(ended.line + "\\n");
  const whole = { seconds: 1, ...ended, written };
  return [answerOf(whole), sentenceOf(place, whole, parts)];
});
require("fs").writeSync(1, JSON.stringify(told));
"""
ASKING = """
const bytes = (text) => new TextEncoder().encode(text);
const preferring = bytes("net 1 2 1\\nedge i0 s0\\nedge s0 o0\\nedge s0 o1\\ngive s0 1\\nend\\n");
const asked = [
  toldOfPairs("refused 27 Special 2 input_priority", bytes("{}")),
  toldOfPairs("refused 40 NetLine 2", preferring),
  toldOfLayouts("refused 27 Special 2 filter", bytes("{}")),
];
require("fs").writeSync(1, JSON.stringify(asked));
"""
PARTS = (
    "differ promise state refusal name property claim count width height tiles without own tier most rows splitters"
).split()
LEARNT = 500


def rows_of(place):
    return [it for it in TABLE["page"] if it["place"] == place]


def ended_of(answer):
    """How a run ended that is called so."""
    *command, how = answer.removesuffix(" fewer").removesuffix(" all").split(" ")
    words = [command[0], "--learnt", str(LEARNT)] if command[0] == "smallest" else [command[0], "full"]
    ended = {"words": words, **({"asked": command[1]} if command[1:] else {})}
    if how in ENDINGS:
        return ended | ({"status": 8} if how == "fault" else {"trouble": how})
    steps = LEARNT if answer.endswith("all") else LEARNT - 1
    lines = {"4": f"spent {steps}", "10": "pivots 7", "3": "refused 32 SideLoad 1", "9": "refused 52 NoVerdict"}
    return ended | {"status": int(how), "line": lines.get(how, "yes full")}


class Sentences(unittest.TestCase):
    def test_each_answer_has_one_sentence_in_each_place(self):
        for place, commands in PLACES.items():
            for command in commands:
                for how in (*STATUSES[command], *ENDINGS):
                    found = [it for it in rows_of(place) if f"{command} {how}" in it["rests"]]
                    self.assertEqual(len(found), 1, f"{place}: {command} {how}")

    def test_no_sentence_rests_on_what_the_program_doesnt_answer(self):
        known = {f"{command} {how}" for command, them in STATUSES.items() for how in (*them, *ENDINGS)}
        for it in TABLE["page"]:
            self.assertTrue(it["rests"] and set(it["rests"]) <= known, it["says"])

    def test_the_kind_is_what_the_answer_means(self):
        for it in TABLE["page"]:
            for answer in it["rests"] if it["kind"] != OF_HALVES else ():
                self.assertEqual(it["kind"], MEANT.get(answer, "open"), f"{answer}: {it['says']}")

    def test_words_of_verdicts_stand_in_sentences_of_their_kind_alone(self):
        for it, (kind, words) in product(TABLE["page"], VERDICTS.items()):
            said = f"{it.get('badge', '')} {it['says']}"
            if it["kind"] != kind and not (it["place"] == "claim" and kind == "no"):
                self.assertIsNone(re.search(words, said, re.I), said)

    def test_where_it_is_open_whether_there_is_a_layout_this_is_said(self):
        for it in rows_of("smaller"):
            if it["kind"] == "open":
                self.assertIn("That says nothing of whether there is one", it["says"])
        for asked in ("sides", "facing"):
            (found,) = (it for it in rows_of("smaller") if it["rests"] == [f"smallest {asked} 4 fewer"])
            self.assertIn("there may be one", found["says"])

    @needs_node
    def test_the_page_says_of_each_answer_just_its_sentence(self):
        asked = [(it, answer) for it in TABLE["page"] for answer in it["rests"]]
        parts = {name: f"<{name}>" for name in PARTS}
        cases = [ended_of(answer) | {"place": it["place"], "parts": parts} for it, answer in asked]
        told = json.loads(run_scripts(
            ["strings", "words", "books", "runs", "entities", "sentences"], DRIVER, json.dumps(cases).encode()
        ))
        for (it, answer), (called, said) in zip(asked, told, strict=True):
            self.assertEqual(called, answer)
            self.assertEqual(said["kind"], it["kind"])
            frame = re.escape(re.sub(r"\{\w+\}", "\0", it["says"])).replace("\0", ".*")
            self.assertRegex(said["says"], f"^{frame}$")
            self.assertNotRegex(said["says"], r"\{\w+\}|undefined")

    @needs_node
    def test_a_preferred_side_is_no_condition(self):
        names = ["strings", "words", "books", "design", "trace", "picture", "states", "refusals"]
        told = json.loads(run_scripts(names, ASKING))
        wanted = ("prefers a side, and designs are compared", "line 2 may not stand", "a condition or a filter")
        for said, words in zip(told, wanted, strict=True):
            self.assertIn(words, said)

    def test_no_script_states_a_verdict_besides(self):
        for path in sorted(sheet.HERE.glob("*.js")):
            for found in STRING.findall(sheet.stripped(path.read_text("utf-8"))):
                if WORDED.search(found) and not any(it in found for it in QUESTIONS):
                    self.fail(f"{path.name}: {found}")

    def test_the_report_says_what_the_table_lists(self):
        for it in TABLE["report"]:
            self.assertIn(it["says"], (TOP / it["file"]).read_text("utf-8"), it["file"])
            self.assertTrue(it["rests"])

    def test_no_file_of_the_report_states_a_verdict_besides(self):
        for path in sorted((TOP / "collection").glob("*.py")):
            listed = [it["says"] for it in TABLE["report"] if it["file"] == f"collection/{path.name}"]
            source = path.read_text("utf-8")
            for number, said in spoken(source):
                if SPOKEN.search(said):
                    line = source.splitlines()[number - 1]
                    self.assertTrue(any(it in line for it in listed), f"{path.name}: {line.strip()}")


def spoken(source):
    """The strings of a module that aren't its explanations, each with its line."""
    tree = ast.parse(source)
    explained = {id(it.value) for it in ast.walk(tree) if isinstance(it, ast.Expr)}
    for it in ast.walk(tree):
        if isinstance(it, ast.Constant) and isinstance(it.value, str) and id(it) not in explained:
            yield it.lineno, it.value


if __name__ == "__main__":
    unittest.main()
