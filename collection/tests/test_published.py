"""Designs as they are published: trimmed to their splitters, they are judged as with their belts, or it is told why
not."""

import json

from .. import states
from . import EXAMPLES, Case, run, test_ends, trimming
from .test_openings import text_of


def book(designs):
    """The text of a book of these designs, each with its label."""
    listed = [{"index": k, **json.loads(text)} for k, (_, text) in enumerate(designs)]
    for it, (label, _) in zip(listed, designs):
        it["blueprint"]["label"] = label
    return json.dumps({"blueprint_book": {"item": "blueprint-book", "blueprints": listed}})


SEVERAL = {"lossless-loop-1-to-3", "universal-1-to-3-in-10x12", "universal-3-to-3-in-13x15"}
"""The examples with halves that lead nowhere, so that several choices of halves make the ends that the label tells."""


class Trimmed(Case):
    def judged(self, designs):
        """The verdicts on each design, and what is said of it."""
        self.write("book.json", book(designs))
        run(self.folder / "book.json", "-o", self.report)
        verdicts, said = {}, {}
        for line in self.results():
            verdicts.setdefault(line["design"], []).append((line["property"], line["verdict"], line["ends"]))
            said[line["design"]] = line["remarks"]
        return verdicts, said

    def test_each_is_judged_as_it_is_with_its_belts(self):
        found = [(name.split("/")[-1] + f", {k}", name, text) for k, (name, text) in enumerate(trimming.designs())]
        whole, _ = self.judged([(label, text) for label, _, text in found])
        self.report = self.folder / "trimmed"
        trimmed, _ = self.judged([(label, trimming.trimmed(text)) for label, _, text in found])
        for label, name, _ in found:
            with self.subTest(name=name):
                told = zip(trimmed[label], whole[label], strict=True)
                open_ = {(one, other) for one, other in told if one != other}
                halves = {((prop, "halves", ends), (prop, verdict, ends)) for prop, verdict, ends in whole[label]}
                self.assertLessEqual(open_, halves if name in SEVERAL else set())
                self.assertEqual(len(whole[label]), len(states.PROPERTIES))
        self.assertEqual(len(found), 46)

    def test_what_holds_of_all_choices_is_told_and_the_rest_is_open(self):
        case = next(it for it in test_ends.CASES if it["expected"]["status"] == "several")
        root = json.loads(text_of(test_ends.parts_of(case["parts"])))
        root["blueprint"]["label"] = case["label"]
        self.write("in.json", json.dumps(root))
        for words in ([], ["--gather"]):
            status, _, wrong = run(self.folder / "in.json", "-o", self.report, "--jobs", "4", *words)
            self.assertEqual(status, 0)
            self.assertIn("choices of bare halves that make other networks", wrong)
            told = {it["property"]: it for it in self.results()}
            (folder,) = (self.report / "designs").iterdir()
            choices = sorted(folder.glob("choice-*"))
            self.assertEqual(len(choices), len(case["expected"]["choices"]))
            for prop, it in told.items():
                verdicts = {"yes" if (one / f"yes-{prop}.txt").exists() else "no" for one in choices}
                self.assertTrue(
                    all((one / f"not-{prop}.txt").exists() != (one / f"yes-{prop}.txt").exists() for one in choices)
                )
                self.assertEqual(it["verdict"], verdicts.pop() if len(verdicts) == 1 else "halves")
                said = "whichever halves are meant" if it[
                    "verdict"
                ] != "halves" else "it depends on which halves are meant"
                self.assertIn(said, it["why"])
            self.assertIn("Which halves are meant?", self.page())
            self.assertEqual(self.page().count('class="choice"'), len(choices))
        before = [(it, it.stat().st_mtime_ns) for one in choices for it in sorted(one.iterdir())]
        run(self.folder / "in.json", "-o", self.report, "--jobs", "1")
        self.assertEqual([(it, it.stat().st_mtime_ns) for it, _ in before], before)

    def test_of_what_is_not_clear_nothing_is_decided(self):
        text = trimming.trimmed((EXAMPLES / "tree-1-to-4.json").read_text())
        for label, said in (
            ("3 to 7", "its label says 3 to 7, but its network is 0 to 0"), ("1 to 1", "no choice of bare halves")
        ):
            root = json.loads(text)
            root["blueprint"]["label"] = label
            self.write("in.json", json.dumps(root))
            status, out, wrong = run(self.folder / "in.json", "-o", self.folder / label, "--jobs", "1")
            self.assertIn(said, (self.folder / label / "results.tsv").read_text())
            self.assertNotIn(" no", out)
            self.assertFalse(list((self.folder / label).rglob("yes-*.txt")))

    def test_another_label_is_another_question(self):
        text = trimming.trimmed((EXAMPLES / "tree-1-to-4.json").read_text())
        for name, ends in (("1 to 4", "1 to 4"), ("2 to 4", "2 to 4"), ("1 to 4 again", "1 to 4")):
            for it in self.folder.glob("in/*"):
                it.unlink()
            self.write(f"in/{name}.json", text)
            run(self.folder / "in", "-o", self.report, "--jobs", "1")
            self.assertEqual({it["ends"] for it in self.results()}, {ends})
            self.assertEqual(len(list((self.report / "designs").iterdir())), 1)
