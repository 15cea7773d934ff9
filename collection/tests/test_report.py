"""The report, from the real program's answers."""

import json
from html.parser import HTMLParser

from .. import files, refusals, states
from . import BOOK, EXAMPLES, Case, belt, blueprint, run, trimming

VOID = {"br", "meta", "input"}


class Tags(HTMLParser):
    """Whether each element is closed where it is to be; the elements' names and members."""

    def __init__(self):
        super().__init__()
        self.open, self.wrong, self.seen, self.links, self.ids = [], [], set(), set(), []

    def handle_starttag(self, tag, attrs):
        self.seen.add(tag)
        told = dict(attrs)
        self.links.update(told[it] for it in ("href", "src") if it in told)
        self.ids += [told["id"]] if "id" in told else []
        self.wrong += [tag] if any(name.startswith("on") for name in told) else []
        if tag not in VOID:
            self.open.append(tag)

    def handle_startendtag(self, tag, attrs):
        self.handle_starttag(tag, attrs)
        self.open.pop()

    def handle_endtag(self, tag):
        if not self.open or self.open.pop() != tag:
            self.wrong.append(tag)


class Page(Case):
    """A test that reads the page."""

    def tags(self):
        found = Tags()
        found.feed(self.page())
        self.assertEqual((found.wrong, found.open), ([], []))
        self.assertEqual(len(found.ids), len(set(found.ids)))
        for link in found.links:
            there = link[1:] in found.ids if link.startswith("#") else (self.report / link).is_file()
            self.assertTrue(there, link)
        return found


class Report(Page):
    def listed(self, design):
        """The verdicts that the table of examples has for a design."""
        lines = [line[2:-2].split(" | ") for line in (EXAMPLES / "README.md").read_text().splitlines()]
        (row,) = [it for it in lines if it[0] == design]
        return dict(zip(("balanced", "drawn-evenly", "unlimited", "full"), row[4:]))

    def test_the_book_of_examples(self):
        status, out, _ = run(BOOK, "-o", self.report, "--jobs", "2", "--learnt", "1600")
        self.assertEqual(status, 0)
        self.assertIn("18 found, 16 with a network", out)
        found = self.tags()
        self.assertNotIn("://", self.page())
        self.assertLessEqual({"svg", "use", "path", "table", "article", "script"}, found.seen)
        told = {(it["design"], it["property"]): it for it in self.results()}
        self.assertEqual(len(told), 16 * len(states.PROPERTIES) + 2)
        expected = {
            ("Balancers/4 to 4, throughput unlimited", "unlimited"): "yes",
            ("Balancers/8 to 8", "unlimited"): "no",
            ("Balancers/16 to 16", "full"): None,
            ("Splitting and merging/1 to 3, chain", "balanced"): "no",
            ("Broken on purpose/4 to 4, a belt is missing", "balanced"): "halves",
            ("Broken on purpose/4 to 4, with a filter", "-"): "refused",
        }
        for place, verdict in expected.items():
            self.assertIn(told[place]["verdict"], [verdict] if verdict else ["yes", "spent"])
        for it in told.values():
            self.assertEqual(it["accepted"], "yes" if it["verdict"] in ("yes", "no") else "")
            self.assertTrue(it["file"] == "" or (self.report / it["file"]).is_file())
        why = told["Broken on purpose/4 to 4, with a filter", "-"]["why"]
        self.assertIn("entity 5 (splitter at tiles (0, 1) and (1, 1))", why)
        for (design, prop), it in told.items():
            if it["verdict"] in ("yes", "no"):
                self.assertEqual(self.listed(design).get(prop, it["verdict"]), it["verdict"])
            elif prop == "-":
                self.assertEqual(self.listed(design)["balanced"], f"`{it['why'].split(':')[0]}`")
        self.assertEqual(self.page().count('class="breaking"'), sum(it["verdict"] == "no" for it in told.values()))

    def test_what_is_universal_is_told_everywhere(self):
        for name in ("splitter-2-to-2.net", "butterfly-4-to-4.net", "merge-3-to-1.net"):
            self.write(f"in/{name}", (EXAMPLES / name).read_bytes())
        self.write("in/claimed universal.net", (EXAMPLES / "butterfly-4-to-4.net").read_text() + "\n")
        status, _, wrong = run(self.folder / "in", "-o", self.report, "--jobs", "1")
        self.assertEqual(status, 0)
        fails = "output balanced whichever outputs are blocked, input balanced whichever inputs run dry and throughput "
        fails += "unlimited"
        self.assertIn(f"claimed universal: label says universal, and it isn't {fails}", wrong)
        told = {it["design"]: it["universal"] for it in self.results()}
        self.assertEqual([told[it] for it in ("splitter-2-to-2", "butterfly-4-to-4")], ["yes", "no"])
        found = {
            it["name"]: it["universal"] for it in json.loads((self.report / "results.json").read_text())["designs"]
        }
        self.assertEqual(found["splitter-2-to-2"], {"verdict": "yes", "fails": []})
        self.assertEqual(found["butterfly-4-to-4"], {"verdict": "no", "fails": ["fair", "drawn-fairly", "unlimited"]})
        page = self.page()
        self.tags()
        for words in (
            "✓ universal", "✕ not universal: not fair, drawn-fairly and unlimited", "universal:yes", ">universal</th>"
        ):
            self.assertIn(words, page)

    def test_properties_are_chosen(self):
        words = EXAMPLES / "butterfly-4-to-4.net", "-o", self.report, "--jobs", "1"
        self.assertEqual(run(*words, "--properties", "full,balanced")[0], 0)
        self.assertEqual([it["property"] for it in self.results()], ["balanced", "full"])
        for told in ("universal", "drawn-fairly"):
            self.assertNotIn(told, self.page())
        # What has to hold is decided too.
        self.assertEqual(run(*words, "--properties", "balanced", "--expect", "fair")[0], 3)
        self.assertEqual([it["property"] for it in self.results()], ["balanced", "fair"])
        self.assertEqual(run(*words, "--gather", "--properties", "fair")[0], 0)
        self.assertEqual([it["verdict"] for it in self.results()], ["no"])
        with self.assertRaises(SystemExit):
            run(*words, "--properties", "fairness")

    def test_names_are_only_text(self):
        name = '"><script>alert(1)</script>&amp;\u202e\x07'
        self.write("in/a.json", blueprint(belt(0, 0), label=name))
        self.write("in/b.json", blueprint(belt(0, 0), {"name": name, "position": {"x": 1.5, "y": 0.5}}, label=name))
        run(self.folder / "in", "-o", self.report, "--jobs", "1")
        self.tags()
        self.assertEqual(self.page().count("<script>"), 1)
        self.assertNotIn("\u202e", self.page())
        self.assertEqual({line.count("\t") for line in (self.report / "results.tsv").read_text().splitlines()}, {19})

    def test_a_network_text_has_no_picture_and_a_state_in_words(self):
        run(EXAMPLES / "chain-1-to-3.net", "-o", self.report, "--jobs", "1")
        self.tags()
        self.assertIn("A network text has no parts", self.page())
        self.assertIn(
            "The outputs carry 1/2, 1/4, 1/4 belts, and should all carry the same: input i0 full; ", self.page()
        )

    def test_an_empty_collection(self):
        self.write("in/none", "")
        status, _, wrong = run(self.folder / "in", "-o", self.report, "--jobs", "1")
        self.assertEqual(status, 1)
        self.assertIn("none: it is no blueprint string, no JSON and no network text\n", wrong)
        self.assertIn("there is no design in what was given", wrong)
        self.tags()


class Published(Case):
    """Designs that end at their splitters."""

    def setUp(self):
        super().setUp()
        texts = dict(trimming.designs())
        self.tree = trimming.trimmed(texts["tree-1-to-4"])
        self.one_missing = next(trimming.with_one_missing(texts["balancer-4-to-4"]))

    def told(self, *words, prop="unlimited"):
        """The status, what was said, and the lines of a property by their designs."""
        status, _, wrong = run(self.folder / "in", "-o", self.report, "--jobs", "1", *words)
        return status, wrong, {it["design"]: it for it in self.results() if it["property"] in (prop, "-")}

    def kept(self, name):
        return self.report / "designs" / name

    def test_what_is_opened_is_marked_everywhere(self):
        self.write("in/tree 1 to 4.json", self.tree)
        self.write("in/4 to 4.json", self.one_missing)
        status, wrong, lines = self.told()
        self.assertEqual(status, 0)
        self.assertIn("collection: 4 to 4: opened by 2 belts: output at (0, 1)\n", wrong)
        said = "3 bare halves stay shut: inputs at (0, 1), (3, 1), (2, 3)"
        self.assertIn(f"collection: tree 1 to 4: {said}\n", wrong)
        tree, other = lines["tree 1 to 4"], lines["4 to 4"]
        self.assertEqual((other["ends"], other["opened"], other["bare"]), ("4 to 4", "output at (0, 1)", ""))
        self.assertEqual((tree["ends"], tree["opened"].count("(")), ("1 to 4", 5))
        self.assertIn(said, tree["remarks"])
        self.assertEqual(tree["known_as"], "throughput unlimited (TU)")
        self.assertIn('<path class="rim added basic"', self.page())
        self.assertIn("dashed rims: belts that were added", self.page())
        kept = self.kept("tree-1-to-4")
        self.assertEqual((kept / "original.json").read_text(), self.tree)
        self.assertEqual(tree["design_digest"], files.digest((kept / "design.json").read_bytes()))
        self.assertIn("original.json", self.page())

    def test_another_way_to_read_makes_it_anew(self):
        self.write("in/tree 1 to 4.json", self.tree)
        kept = self.kept("tree-1-to-4")
        for words, ends in (([], "1 to 4"), (["--bare-ends", "never"], ""), (["--bare-ends", "always"], "4 to 4")):
            status, _, lines = self.told(*words)
            self.assertEqual((status, lines["tree 1 to 4"]["ends"]), (0, ends))
            self.assertEqual((kept / "original.json").exists(), ends != "")
            self.assertEqual(len(list(kept.glob("*-*.txt"))), 6 if ends else 0)
        page, changed = self.page(), (kept / "record.json").stat().st_mtime_ns
        self.told("--bare-ends", "always")
        self.assertEqual((self.page(), (kept / "record.json").stat().st_mtime_ns), (page, changed))
        _, _, lines = self.told("--gather")
        self.assertEqual(lines["tree 1 to 4"]["ends"], "4 to 4")

    def test_what_is_bare_is_named(self):
        self.write("in/tree.json", (EXAMPLES / "tree-1-to-4.json").read_text())
        _, wrong, lines = self.told()
        self.assertEqual(wrong, "collection: tree: 3 bare halves stay shut: inputs at (0, 1), (3, 1), (2, 3)\n")
        self.assertEqual(lines["tree"]["bare"], "inputs at (0, 1), (3, 1), (2, 3)")
        for text in (
            "3 bare halves stay shut: inputs at (0, 1)", '<path class="hole"', "hollow: a half to which no belt leads"
        ):
            self.assertIn(text, self.page())

    def test_a_belt_that_was_forgotten_is_a_warning(self):
        name = "Broken on purpose/4 to 4, a belt is missing"
        status, _, wrong = run(BOOK, "-o", self.report, "--jobs", "2", "--learnt", "200")
        self.assertEqual(status, 0)
        said = "is a belt missing at tile (0, 3)? The way from one half to another breaks off there"
        self.assertIn(f"collection: {name}: {said}; so nothing is decided", wrong)
        self.assertEqual([it for it in wrong.splitlines() if "missing at tile" in it][1:], [])

    def test_which_splitters_want_a_belt(self):
        self.write("in/tree.json", self.tree)
        _, _, lines = self.told("--bare-ends", "never")
        self.assertIn("belts are wanted at halves of splitters: inputs at (0, 1), (3, 1)", lines["tree"]["why"])
        self.assertEqual(self.page().count('<rect class="frame"'), 8)

    def test_what_is_left_out_is_told(self):
        lamp = {"name": "small-lamp", "position": {"x": 1.5, "y": 0.5}}
        self.write("in/one.json", blueprint(lamp, belt(0, 0, name="my-belt", control_behavior={})))
        _, _, lines = self.told()
        self.assertEqual(lines["one"]["verdict"], "refused")
        status, wrong, lines = self.told("--treat-as", "my-belt=fast")
        self.assertEqual((status, lines["one"]["verdict"], lines["one"]["ends"]), (0, "yes", "1 to 1"))
        notes = (
            "left out, since it can't touch a belt: 1 × small-lamp",
            "left out, since it only reads: control_behavior of 1 × transport belt",
            "taken for another: 1 × my-belt as fast-transport-belt",
        )
        for note in notes:
            self.assertIn(f"collection: one: {note}\n", wrong)
        self.assertEqual(lines["one"]["remarks"], "; ".join(notes))
        self.assertIn('<rect class="bystander" x="26" y="2" width="20" height="20" rx="3"/>', self.page())
        plan = run(self.folder / "in", "-o", self.report, "--plan", "--treat-as", "my-belt=fast", "--learnt", "1")[1]
        self.assertEqual(plan, "")

    def test_it_is_read_so_elsewhere(self):
        self.write("in/tree 1 to 4.json", self.tree)
        words = self.folder / "in", "-o", self.report
        _, plan, _ = run(*words, "--plan", "--bare-ends", "always", "--treat-as", "a-belt=fast")
        self.assertIn(" --bare-ends always --treat-as a-belt=fast --one ", plan)
        self.assertEqual(run(*plan.split()[1:]), (0, "", ""))
        run(*words, "--gather")
        self.assertEqual({it["ends"] for it in self.results()}, {"4 to 4"})

    def test_each_property_has_its_name_in_the_field(self):
        run(EXAMPLES / "one-belt.net", "-o", self.report, "--jobs", "1")
        for words in states.KNOWN_AS.values():
            self.assertGreaterEqual(self.page().count(words), 3)
        self.assertEqual([it["known_as"] for it in self.results()], list(states.KNOWN_AS.values()))
        self.assertIn("A certificate is good for this", self.page())


class Refusals(Case):
    TEXT = blueprint(belt(0, 0), {"name": "inserter", "position": {"x": 1.5, "y": 0.5}})

    def test_each_is_told_in_words(self):
        cases = {
            "refused 10 Json 7": "refused 10 Json: the text is no JSON from byte 7 on",
            "refused 23 Unsupported 1": "refused 23 Unsupported: entity 2 (inserter at tile (1, 0)) is no belt, "
            "underground belt or splitter",
            "refused 27 Special 0 filter": "refused 27 Special: entity 1 (transport-belt at tile (0, 0)) has a "
            "condition or a filter, in its member filter",
            "refused 30 Overlap 0 9": "refused 30 Overlap: entity 1 (transport-belt at tile (0, 0)) and entity 10 "
            "(no name) stand on the same tile",
            "refused 42 NoEnds": "refused 42 NoEnds: there is no input, or no output",
            "refused 99 Other 1": "refused 99 Other 1",
            "too long": "too long",
        }
        for line, words in cases.items():
            self.assertEqual(refusals.told(line, self.TEXT), words)
        found = refusals.refusal("refused 30 Overlap 0 9", self.TEXT)
        self.assertEqual([cells for cells, _ in found.places], [((0, 0),)])
