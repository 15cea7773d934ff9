"""Balancers that are built, and the book of them."""

import contextlib
import io
import json
import os
import subprocess

from .. import balancers, built, design, files, known, networks, states, strings, trace
from ..program import find
from ..words import PROPERTIES
from . import EXAMPLES, Case, belt, blueprint, program_path, run

ONE = "net 1 1 0\nedge i0 o0\nend\n"
TWO = "net 2 2 0\nedge i0 o0\nedge i1 o1\nend\n"
FAKE = '''#!/bin/sh
# Builds belts alone, and lays out one in a rectangle of three tiles, and then of one; notes each run.
echo "$@" >>"{log}"
read first
cat >/dev/null
case "$1 $2 $3 $4" in
  build*' 1 1') printf '{one}' ;;
  build*' 2 2') printf '{two}' ;;
  build*' 3 3') echo usage; exit 2 ;;
  build*) echo 'not found'; exit 12 ;;
  'layout --grid 1x1 --learnt' | 'layout --grid 1x3 --learnt')
    case $first in
      'net 1 1 0') printf '%s\\n' '{belt}' ;;
      *) printf 'none\\nend\\n'; exit 1 ;;
    esac ;;
  layout* | smallest*) printf 'spent 7\\nend\\n'; exit 4 ;;
  recover*) case $first in *'"y":9'*) printf '{two}' ;; *) printf '{one}' ;; esac ;;
  check*) echo "yes $2" ;;
  *) printf 'yes %s\\nr 0 1 0\\nend\\n' "$2" ;;
esac
'''


class Made(Case):
    def program(self):
        escaped = {"one": ONE.replace("\n", "\\n"), "two": TWO.replace("\n", "\\n")}
        text = FAKE.format(log=self.folder / "log", belt=blueprint(belt(0, 0)), **escaped)
        path = self.write("fake", text)
        os.chmod(path, 0o755)
        return path

    def make(self, *more):
        words = [str(it) for it in ("-o", self.report, "--program", self.program(), "--seconds", "2", *more)]
        with contextlib.redirect_stdout(io.StringIO()), contextlib.redirect_stderr(io.StringIO()):
            return balancers.main(words)

    def test_a_book_with_its_report_goes_on(self):
        self.assertEqual(self.make("--most", "2"), 0)
        book = json.loads(strings.inflate((self.report / "book.txt").read_text()))["blueprint_book"]
        (one,) = book["blueprints"]
        self.assertEqual(one["blueprint"]["label"], "1 to 1 balanced, TU, universal")
        self.assertIn("0 splitters in 1 x 1 tiles", one["blueprint"]["description"])
        self.assertEqual(json.loads((self.report / "book.json").read_text())["blueprint_book"], book)
        head, *lines = [it.split("\t") for it in (self.report / "table.tsv").read_text().splitlines()]
        told = {tuple(it[:3]): it[3:] for it in lines}
        self.assertEqual(head, balancers.COLUMNS)
        self.assertEqual(told["output", "1", "1"], ["0", "1", "1", "1", "rows", "none smaller"])
        self.assertEqual(told["output", "1", "2"][0], "none known")
        self.assertEqual(told["output", "2", "2"], ["0", "", "", "", "", ""])
        self.assertNotIn(("balanced", "1", "1"), told)
        table = (self.report / "report" / "results.tsv").read_text()
        self.assertEqual(table.count("\tyes\t"), 2 * len(PROPERTIES))
        count = len(self.log())
        # What is found isn't built or looked for again; of what isn't, so far as there is time.
        self.assertEqual(self.make("--most", "1"), 0)
        self.assertEqual(len(self.log()), count)
        self.assertEqual(len(json.loads((self.report / "balancers.json").read_text())["balancers"]), 16)

    def test_kinds_are_chosen_and_words_can_be_wrong(self):
        self.assertEqual(self.make("--most", "1", "--kinds", "universal"), 0)
        lines = (self.report / "table.tsv").read_text().splitlines()
        self.assertEqual([it.split("\t")[0] for it in lines], ["kind", "universal"])
        for words in (["--kinds", "b"], ["--most", "0"], ["--seconds", "-1"]):
            with self.assertRaises(SystemExit):
                self.make(*words)
        self.assertEqual(self.make("--most", "3"), 1)

    def test_a_record_of_anything_is_none(self):
        for text in ("{", "[]", '{"program": 1}', '{"program": "", "balancers": [{"kind": 1}]}'):
            self.write("report/balancers.json", text)
            self.assertEqual(self.make("--most", "1"), 0)
            self.assertTrue((self.report / "book.txt").is_file())

    def test_one_is_built_for_a_report(self):
        words = ["-o", self.report, "--program", self.program(), "--jobs", "1"]
        status, out, _ = run("--build", "balanced,full", 1, 1, *words)
        self.assertEqual((status, "1 found, 1 with a network: 6 yes" in out), (0, True), out)
        self.assertEqual({it["source"] for it in self.results()}, {"built: balanced, full"})
        self.assertIn("Blueprint string", self.page())
        # Without a layout its network stands there.
        self.assertEqual(run("--build", "balanced", 2, 2, "--seconds", 0.05, *words)[0], 0)
        self.assertIn("A network text has no parts", self.page())
        status, _, wrong = run("--build", "balanced", 1, 2, *words)
        self.assertEqual((status, wrong), (1, "collection: no balancer from 1 to 2 is known that is balanced\n"))
        for wish in (("fairness", 1, 1), ("balanced", 0, 1), ("balanced", "x", 1)):
            with self.assertRaises(SystemExit):
                run("--build", *wish, *words)


class Asked(built.Maker):
    """A program that lays out two belts, in 16x16, in 4x2 by `smallest` and nowhere else, where the ends may stand so;
    each run takes half a second."""

    def __init__(self, forms):
        super().__init__(None, "", 0)
        self.forms = forms

    def ask(self, words, text="", seconds=None):
        if words[0] == "recover":
            return 0, TWO, 0
        form = "rows" if "row " in text else "sides" if "side " in text or "--sides" in words else "anywhere"
        if form in self.forms and words[0] == "smallest":
            return 0, "grid 4x2\n{}\n", 0.5
        return (0, "{}\n", 0.5) if form in self.forms and "16x16" in words else (4, "spent 7\nend\n", 0.5)


class Ended(Case):
    def laid(self, *forms, before=None):
        balancer = before or built.Balancer("balanced", 2, 2, [built.Laid(TWO)], True)
        Asked(forms).lay(balancer, balancer.seconds + 40)
        return balancer

    def test_ends_stand_in_rows_where_that_is_found_and_else_at_sides_and_else_anywhere(self):
        for forms in (["rows", "sides", "anywhere"], ["sides", "anywhere"], ["anywhere"]):
            it = self.laid(*forms)
            self.assertEqual((it.form, it.size), (forms[0], [4, 2]))
            self.assertLessEqual(it.seconds, 40.5)
        self.assertIsNone(self.laid().size)

    def test_rows_are_better_than_fewer_cells(self):
        it = self.laid("anywhere")
        it.size, it.steps = [2, 1], built.FIRST_STEPS
        it.laid[0].tried.clear()
        self.laid("rows", before=it)
        self.assertEqual((it.form, it.size), ("rows", [4, 2]))
        self.laid("sides", before=it)
        self.assertEqual((it.form, it.size), ("rows", [4, 2]))


class Kept(Case):
    def told(self, *words, text):
        return subprocess.run(
            [program_path(), *words], input=text.encode(), capture_output=True, check=False
        ).stdout.decode()

    def test_each_certificate_of_the_book_of_examples_is_accepted(self):
        folder = EXAMPLES / "balancers"
        found = sorted(folder.glob("*.yes-*"))
        self.assertGreater(len(found), 30)
        self.assertLessEqual(sum(it.stat().st_size for it in found), balancers.MOST_KEPT)
        for path in found:
            prop = path.suffix.removeprefix(".yes-")
            text = path.with_suffix(".net").read_text() + path.read_text()
            self.assertEqual(self.told("check", prop, text=text), f"yes {prop}\n", path.name)

    def test_each_design_of_the_book_of_examples_is_its_network_with_its_ends_as_the_table_says(self):
        folder = EXAMPLES / "balancers"
        book = json.loads(strings.inflate((folder / "book.txt").read_text()))["blueprint_book"]["blueprints"]
        rows = [
            line for line in (folder / "README.md").read_text().splitlines() if line.startswith("| ") and " to " in line
        ]
        self.assertEqual(len(book), len(rows))
        for it, line in zip(book, rows):
            label = it["blueprint"]["label"]
            self.assertTrue(line.startswith(f"| {label} |"))
            text = self.told("recover", text=json.dumps(it))
            self.assertEqual(text, (folder / f"{files.slug(label)}.net").read_text())
            parts = design.read(json.dumps(it)).parts
            network = trace.Layout(parts).network()
            for halves, border in ((network.inputs, max), (network.outputs, min)):
                cells = [parts[half.part].cells[half.half] for half in halves]
                xs, ys = sorted(x for x, _ in cells), {y for _, y in cells}
                at_border = ys == {border(y for part in parts for _, y in part.cells)}
                side_by_side = xs == list(range(xs[0], xs[0] + len(xs)))
                ends = ["rows"] * (at_border and side_by_side) + ["sides"] * at_border + ["anywhere"]
                self.assertIn(line.split(" | ")[4], ends, label)


class Taken(Case):
    """Layouts that are known, and the same turned round."""

    def drawn(self, text):
        """The letters of its parts, row by row."""
        found = design.read(text)
        left, top, right, bottom = found.box()
        letters = {cell: "^>v<"[it.direction] for it in found.parts for cell in it.cells}
        rows = (range(left, right + 1), range(top, bottom + 1))
        return ["".join(letters.get((x, y), ".") for x in rows[0]) for y in rows[1]]

    def test_a_belt_that_is_turned_round_leads_to_where_its_items_came_from(self):
        bent = blueprint(belt(0, 2), belt(0, 1, 2), belt(1, 1))
        other = known.turned_round(bent)
        # The output turned on its last belt, so the input gets a belt more.
        self.assertEqual(self.drawn(bent), [">^", "^."])
        self.assertEqual(self.drawn(other), [".^", ">^", "^."])

    def test_ends_stand_in_rows_where_they_go_north_side_by_side(self):
        for text, rows in (
            (blueprint(belt(0, 0), belt(1, 0)), True),
            (blueprint(belt(0, 0), belt(2, 0)), False),
            (blueprint(belt(0, 0, 4), belt(1, 0, 4)), False),
            (blueprint(belt(0, 0), belt(1, 0), belt(1, 1)), False),
            (blueprint(belt(0, 0, 4), belt(0, 1)), False),
            ("{}", False),
        ):
            self.assertEqual(known.stand_in_rows(text), rows, text)

    def test_what_is_better_takes_the_place_of_a_balancer(self):
        maker = built.Maker(find(program_path()), self.folder, 0)
        ends = [(n, m) for n in range(1, 5) for m in range(1, 5)]
        them = [built.Balancer(kind, *it, [], True) for kind in built.KINDS for it in ends]
        book = balancers.designed_in([str(EXAMPLES / "balancers" / "book.txt")])
        label = "2 to 4 balanced"
        [two_to_four] = [it for it in book if json.loads(it)["blueprint"]["label"] == label]
        taken = [(it.kind, it.inputs, it.outputs) for it in known.take_all(maker, them, [two_to_four])]
        self.assertEqual(taken, [(kind, *ends) for ends in ((2, 4), (4, 2)) for kind in ("output", "balanced")])
        self.assertEqual(list(known.take_all(maker, them, [two_to_four])), [])
        one = next(it for it in them if (it.kind, it.inputs, it.outputs) == ("balanced", 4, 2))
        self.assertTrue(built.Maker.shows(maker, one.blueprint, one.laid[one.which]))


class Mirrored(Case):
    def verdicts(self, text):
        asked = (
            subprocess.run([program_path(), "decide", it], input=text.encode(), capture_output=True, check=False)
            for it in PROPERTIES
        )
        return {it: told.returncode for it, told in zip(PROPERTIES, asked)}

    def test_what_is_turned_around_has_the_other_properties(self):
        names = (
            "chain-1-to-3 merge-3-to-1 universal-2-to-2 universal-1-to-3 overflow-1-to-2 butterfly-4-to-4"
            " lossless-loop-1-to-3"
        ).split()
        for name in names:
            text = (EXAMPLES / f"{name}.net").read_text()
            other = built.mirrored(text)
            self.assertEqual(built.mirrored(other).splitlines()[0], text.splitlines()[0])
            self.assertTrue(built.same(built.mirrored(other), text), name)
            ours, theirs = self.verdicts(text), self.verdicts(other)
            self.assertNotIn(3, theirs.values())
            self.assertEqual({it: theirs[built.turned([it])[0]] for it in ours}, ours, name)

    def test_which_networks_are_the_same(self):
        texts = [(EXAMPLES / f"{it}.net").read_text() for it in ("chain-1-to-3", "loop-1-to-3", "tree-1-to-4")]
        for at, one in enumerate(texts):
            self.assertEqual([built.same(one, it) for it in texts], [it is one for it in texts])
            net = states.read_net(one)
            self.assertTrue(networks.is_plain(one) and net.splitters)
