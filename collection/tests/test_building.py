"""What others build on: results as JSON, two reports compared, what is expected of designs, and the tools for one
design."""

import json
import subprocess

from .. import compare, results, strings
from . import BOOK, EXAMPLES, TOP, Case, belt, blueprint, program_path, run, trimming


class Building(Case):
    def report_of(self, name, *designs, words=()):
        """A report of these designs; its status, and what was said."""
        for at, text in enumerate(designs):
            self.write(f"{name}/{at}.json", text)
        return run(self.folder / name, "-o", self.folder / f"{name} report", "--jobs", "1", *words)


class Results(Building):
    def test_its_members_are_those_that_are_told(self):
        tree = trimming.trimmed((EXAMPLES / "tree-1-to-4.json").read_text())
        filtered = '{"blueprint":{"entities":[{"name":"inserter","position":{"x":1,"y":1}}]}}'
        run(BOOK, "-o", self.report, "--learnt", "200")
        self.report_of("in", tree, filtered, '{"blueprint_book":{"blueprints":[{"upgrade_planner":{}},{}]}}')
        told = (TOP / "docs" / "COLLECTIONS.md").read_text()
        for folder in (self.report, self.folder / "in report"):
            found = json.loads((folder / "results.json").read_text())
            self.assertEqual(list(found), ["format", "program_digest", "designs"])
            for it in found["designs"]:
                self.assertEqual(list(it), results.MEMBERS)
                for prop in it["properties"]:
                    self.assertTrue(prop["file"] is None or (folder / prop["file"]).is_file())
        for word in (*results.MEMBERS, "processor_seconds", "clock_seconds", "accepted", "known_as", "format"):
            self.assertIn(f"`{word}`", told)
        statuses = {it["status"] for it in found["designs"]}
        self.assertEqual(statuses, {"judged", "refused", "passed"} if "judged" in statuses else statuses)
        (passed,) = [it for it in found["designs"] if it["status"] == "passed"]
        self.assertEqual(passed["reason"], "passed over: 1 planner and 1 empty slot")


class Compared(Building):
    def test_each_kind_of_change(self):
        first, moved, gone = (blueprint(*them, label=it) for them, it in (
            ([belt(0, 0), belt(0, 1)], "first"), ([belt(0, 0), belt(1, 0)], "moved"), ([belt(0, 0, 2)], "gone")
        ))
        longer = blueprint(belt(0, 0), belt(0, 1), belt(0, 2), label="first")
        self.report_of("old", first, moved, gone)
        self.report_of("new", longer, moved.replace("moved", "moved here"), blueprint(*(belt(x, 0) for x in range(3))))
        status, out, _ = run("--compare", self.folder / "old report", self.folder / "new report", "-o", self.report)
        self.assertEqual(status, 0)
        self.assertIn("1 new, 1 gone, 1 moved, 1 larger", out)
        lines = [line.split("\t") for line in (self.report / "changes.tsv").read_text().splitlines()]
        self.assertEqual(lines[0], list(compare.COLUMNS))
        self.assertEqual([it[0] for it in lines[1:]], ["new", "gone", "moved", "larger"])
        self.assertIn("1 × 2 before, 1 × 3 now", (self.report / "index.html").read_text())
        status, out, _ = run("--compare", self.folder / "old report", self.folder / "old report", "-o", self.report)
        self.assertIn("nothing has changed", out)

    def test_what_is_no_report(self):
        self.write("bad/results.json", "{")
        self.write("other/results.json", '{"format": 99}')
        for name, why in (("none", "has no results.json"), ("bad", "damaged"), ("other", "of another form")):
            status, _, wrong = run("--compare", self.folder / name, self.folder / name, "-o", self.report)
            self.assertEqual(status, 1)
            self.assertIn(why, wrong)


class Expected(Building):
    FOUR = (EXAMPLES / "balancer-4-to-4.json").read_text()

    def labelled(self, label, text=None):
        root = json.loads(text or self.FOUR)
        root["blueprint"]["label"] = label
        return json.dumps(root)

    def test_what_labels_claim_is_a_warning(self):
        status, _, wrong = self.report_of("in", self.labelled("4 to 4 TU"), self.labelled("4-4 balanced, lanes"))
        self.assertEqual(status, 0)
        self.assertIn("4 to 4 TU: label says TU, and it isn't throughput unlimited (TU)\n", wrong)
        self.assertIn("4-4 balanced, lanes: label speaks of lanes", wrong)
        self.assertNotIn("label says balanced", wrong)
        page = (self.folder / "in report" / "index.html").read_text()
        self.assertIn("abel says TU, and it isn&#x27;t throughput unlimited", page)

    def test_a_status_of_their_own(self):
        cases = (
            (["--expect", "balanced,full"], "4 to 4", 0, None),
            (
                ["--expect", "unlimited"],
                "4 to 4",
                3,
                "not as expected: 4 to 4: expected: unlimited, and the verdict is no",
            ),
            (["--expect-labels"], "4 to 4 TU", 3, "its label says TU: unlimited, and the verdict is no"),
            (["--expect-labels"], "4 to 4, balanced", 0, None),
            (["--expect-labels"], "3 to 9", 3, "its label says 3 to 9, but its network is 4 to 4"),
        )
        for words, label, expected, said in cases:
            with self.subTest(words=words, label=label):
                self.write("in/0.json", self.labelled(label))
                status, _, wrong = run(self.folder / "in", "-o", self.report, "--jobs", "1", *words)
                self.assertEqual(status, expected)
                self.assertIn(said or "", wrong)
        with self.assertRaises(SystemExit):
            run(BOOK, "-o", self.report, "--expect", "balance")


class OneDesign(Building):
    def started(self, tool, *words, text=""):
        told = subprocess.run([TOP / "bin" / tool, *words], input=text.encode(), capture_output=True, check=False)
        return told.returncode, told.stdout.decode(), told.stderr.decode()

    def test_a_string_is_unpacked_and_nothing_changed(self):
        odd = '{ "blueprint" : {"entities":[ ], "label":"1.50e2"} }'
        self.assertEqual(self.started("blueprint-json", text=strings.deflate(odd.encode())), (0, odd + "\n", ""))
        status, out, _ = self.started("blueprint-json", BOOK, "--at", "1.2")
        self.assertEqual((status, json.loads(out)["blueprint"]["label"]), (0, "4 to 4"))
        status, out, wrong = self.started("blueprint-json", BOOK)
        self.assertEqual((status, out), (1, ""))
        self.assertIn("blueprint-json: 1.2 Balancers/4 to 4\n", wrong)

    def test_ends_are_chosen_as_in_a_report(self):
        tree = json.loads(trimming.trimmed((EXAMPLES / "tree-1-to-4.json").read_text()))
        program = ["--program", program_path()]
        for label, words, ends in (
            ("1 to 4", [], "1 to 4"), ("", [], "4 to 4"), ("1 to 4", ["--ends", "always"], "4 to 4")
        ):
            tree["blueprint"]["label"] = label
            status, out, wrong = self.started("bare-ends", *program, *words, text=json.dumps(tree))
            self.assertEqual(status, 0, wrong)
            self.assertIn(f"bare-ends: {ends}, and 0 to 0 before\n", wrong)
        tree["blueprint"]["label"] = "3 to 7"
        status, out, wrong = self.started("bare-ends", *program, text=json.dumps(tree))
        self.assertEqual((status, out), (1, ""))
        self.assertIn("its label says 3 to 7, but its network is 0 to 0", wrong)


class Smaller(Building):
    def test_one_search_serves_designs_with_the_same_network_and_sides(self):
        small = json.loads(blueprint(belt(0, 0), belt(0, 1), belt(0, 2), label="a", icons=[1], description="d"))
        other = json.loads(blueprint(belt(5, 0), belt(5, 1), label="b"))
        status, out, _ = self.report_of(
            "in", json.dumps(small), json.dumps(other), words=["--smaller", "--program", self.fake("small")]
        )
        self.assertEqual(status, 0)
        self.assertIn("2 with a smaller layout", out)
        self.assertEqual(sum(line.startswith("smallest") for line in self.log()), 1)
        folder = self.folder / "in report" / "designs"
        for name, label in (("a", "a (smaller)"), ("b", "b (smaller)")):
            told = json.loads((folder / name / "smaller.json").read_text())["blueprint"]
            self.assertEqual(told["label"], label)
            self.assertEqual(told.get("description"), "d" if name == "a" else None)
