"""What others wrote, or left half done, spoils neither the page nor the rest of the report."""

import io
import json
import os
import random
import re
import subprocess
import sys

from .. import answers, books, files, inputs, labels, picture, progress, refusals, report
from ..design import read
from ..rows import Row
from ..work import Folder
from . import BOOK, EXAMPLES, TOP, Case, belt, blueprint, many, run
from .test_report import Page

PIECES = (b'"', b"}", b"]", b"{", b"9e999", b"null")
HOSTILE = "\"><script>alert(1)<"


class Hostile(Page):
    def test_a_folder_with_another_name_is_no_design_s(self):
        text = blueprint(belt(0, 0), label="one")
        for name in (HOSTILE, "..evil", "UPPER", "all"):
            self.write(f"report/designs/{name}/design.json", text)
        self.write("in/all.json", blueprint(belt(0, 1), label="designs"))
        self.write("in/one.json", text)
        run(self.folder / "in", "-o", self.report, "--program", self.fake())
        self.tags()
        self.assertEqual(self.page().count("<script>"), 1)
        self.assertIn(' href="designs/all/design.json"', self.page())
        self.assertIn(' id="d-designs"', self.page())

    def test_the_page_runs_its_own_script_alone(self):
        rows = [Row(it) for it in inputs.from_bytes(blueprint(belt(0, 0)).encode(), HOSTILE, HOSTILE)]
        self.report.mkdir()
        report.write(self.report, rows, HOSTILE)
        self.tags()
        self.assertIn("default-src &#x27;none&#x27;", self.page())
        self.assertIn("script-src &#x27;sha256-", self.page())

    def test_a_text_that_looks_like_a_formula_is_none(self):
        for label, cell in (("=1+1", "'=1+1"), ("@a", "'@a"), ("-2", "'-2"), ("+x", "'+x"), ("-", "-"), ("1-2", "1-2")):
            self.assertEqual(report.cell(label), cell)
        (row,) = [Row(it) for it in inputs.from_bytes(blueprint(belt(0, 0), label="=A1").encode(), "n", "s")]
        self.assertTrue(report.table(report.lines_of(row, "")).splitlines()[1].startswith("'=A1\t"))

    def test_what_spoils_one_design_is_told_of_this_one(self):
        for k in range(3):
            self.write(f"in/{k}.json", blueprint(belt(0, k), label=f"number {k}"))
        self.write("in/twice.json", blueprint(belt(0, 1), label="number 1"))
        words = [self.folder / "in", "-o", self.report]
        run(*words, "--program", self.fake())
        kept = self.report / "designs" / "number-1"
        record = json.loads((kept / "record.json").read_text())
        (kept / "network.net").write_text("net 1 1\n")
        record["network"]["digest"] = files.digest(b"net 1 1\n")
        (kept / "record.json").write_text(json.dumps(record))
        status, _, wrong = run(*words, "--gather")
        self.assertEqual((status, wrong.count("what is kept of it can't be shown")), (1, 2))
        told = [(it["design"], it["verdict"]) for it in self.results()]
        self.assertEqual([told.count((f"number {k}", "yes")) for k in range(3)], [6, 0, 6])
        self.assertEqual(told.count(("number 1", "failed")), 2)
        self.tags()

    def test_a_record_of_anything_is_no_answer(self):
        sound = answers.Answer("yes", file="yes-full.txt", digest="d").kept()
        self.assertTrue(answers.Answer.of(sound).is_of("full"))
        odd = ({}, [], None, {"verdict": 7}, sound | {"file": "../x"}, sound | {"more": 1}, sound | {"steps": "1"})
        told = [answers.Answer.of(it) for it in odd]
        self.assertFalse(any(it and it.is_of("full") for it in told))
        self.assertFalse(answers.Answer.of(sound).is_of("balanced"))
        for record in ('{"design": []}', '{"decided": []}', '{"name": 7}', '{"network": {"status": "0"}}', "[" * 9999):
            self.write("kept/record.json", record)
            folder = Folder(self.folder / "kept")
            self.assertIsNone(folder.digest())
            self.assertEqual((folder.network(), folder.decided("full"), folder.smaller()), (None, None, None))


class Places(Case):
    ENTRY = blueprint(belt(0, 0))

    def test_a_design_is_the_same_at_another_place(self):
        alone = inputs.design_digest(self.ENTRY.encode())
        for text in (self.ENTRY[:-1] + ', "index":7}', '{"index": 3 ,' + self.ENTRY[1:], " " + self.ENTRY):
            self.assertEqual(inputs.design_digest(text.encode()) == alone, text[0] == "{", text)
        twice = '{"index":1,"index":1,' + self.ENTRY[1:]
        others = [inputs.design_digest(it.encode()) for it in (twice, "{", '{"index":1', "net", "{}", '{"index":1}')]
        self.assertEqual(len({alone, *others}), 6)

    def test_places_are_those_of_the_game(self):
        entries = '{"index":4,%s,{"blueprint_book":{"blueprints":[{"index":2,%s]},"index":9},{"index":-1,%s,'
        entries += '{"index":true,%s'
        text = '{"blueprint_book":{"blueprints":[' + entries.replace("%s", self.ENTRY[1:]) + "]}}"
        found, fault = books.entries(text)
        self.assertEqual((fault, [it.place() for it in found]), (None, [[4], [9, 2], [3], [4]]))

    def test_a_design_that_moves_in_its_book_is_not_decided_again(self):
        book = '{"blueprint_book":{"blueprints":[{"index":%d,%s,{"index":%d,%s]}}'
        one, two = (blueprint(belt(0, k), label=f"d{k}")[1:] for k in (0, 1))
        words = self.folder / "book.json", "-o", self.report, "--program", self.fake()
        self.write("book.json", book % (0, one, 5, two))
        run(*words)
        before = len(self.log())
        self.write("book.json", book % (3, two, 4, one))
        run(*words)
        self.assertEqual(len(self.log()), before)
        self.assertEqual([(it["design"], it["place"]) for it in self.results()[::6]], [("d1", "3"), ("d0", "4")])


class Folders(Case):
    def test_reports_and_answers_in_a_folder_are_passed_over(self):
        self.write("in/a.json", blueprint(belt(0, 0)))
        for name in ("index.html", "results.tsv", "designs/a/design.json"):
            self.write(f"in/old/{name}", blueprint(belt(0, 1)))
        self.write("in/.git/b.json", blueprint(belt(0, 2)))
        for name in ("balancer-4-to-4.yes-full", "balancer-4-to-4.not-unlimited", "balancers-4-to-4.yes-same"):
            self.write(f"in/{name}", (EXAMPLES / name).read_bytes())
        found = inputs.designs_of([str(self.folder / "in")])
        self.assertEqual([it.source for it in found], ["in/a.json"])
        named = inputs.designs_of([str(self.folder / "in/balancer-4-to-4.yes-full")])
        self.assertIn("no blueprint string", named[0].trouble)

    def test_files_are_under_the_umask(self):
        for mask, mode in ((0o077, 0o600), (0o022, 0o644), (0o002, 0o664)):
            before = os.umask(mask)
            self.addCleanup(os.umask, before)
            files.write(self.folder / "file", "text")
            self.assertEqual((self.folder / "file").stat().st_mode & 0o777, mode)


class Programs(Case):
    def program(self, text):
        path = self.write("program", "#!/bin/sh\ncat >/dev/null\n" + text)
        os.chmod(path, 0o755)
        return path

    def told(self, text, *more):
        self.write("in/one.json", blueprint(belt(0, 0)))
        words = [self.folder / "in", "-o", self.report, "--jobs", "1", "--program", self.program(text), *more]
        return run(*words)[0], [(it["verdict"], it["why"]) for it in self.results()]

    def test_one_that_writes_nothing(self):
        nothing = "the program wrote no answer, and ended with status {}"
        self.assertEqual(self.told("exit 0"), (1, [("failed", nothing.format(0))]))
        begin = 'case $1 in recover) printf "net 1 1 0\\nedge i0 o0\\nend\\n";; *) exit %d;; esac'
        for status in (0, 4, 10):
            with self.subTest(status=status):
                told = self.told(begin % status, "--smaller")
                self.assertEqual(told, (1, [("failed", nothing.format(status))] * 7))

    def test_times_are_told_apart(self):
        slow = 'case $1 in recover) printf "net 1 1 0\\nedge i0 o0\\nend\\n";; '
        slow += "*) sleep 1.5; echo spent 1; exit 4;; esac"
        self.told(slow)
        for it in self.results():
            self.assertLess(float(it["processor_seconds"]), 1)
            self.assertGreater(float(it["clock_seconds"]), 1.4)
        self.assertIn("s by the clock", self.page())

    def test_what_was_found_stands_when_the_time_is_up(self):
        small = blueprint(belt(0, 0))
        net = 'case $1$6$7 in recover) printf "net 1 1 0\\nedge i0 o0\\nend\\n";; '
        found = "printf 'grid 1x1\\n%s\\n' '" + small + "';; smallest*) exec sleep 60;; *) exit 4;; esac"
        cases = {"500": "ends at any side", "--learnt500": "each end at its own side"}
        for words, sides in cases.items():
            with self.subTest(sides=sides):
                self.told(
                    f"{net} smallest{words} | smallest{words.replace('500', '2000')}) {found}",
                    "--smaller",
                    "--seconds",
                    4,
                )
                (line,) = [it for it in self.results() if it["property"] == "smaller"]
                self.assertEqual((line["verdict"], line["why"]), ("found", f"1 x 1, {sides}"))
                self.assertGreater(float(line["clock_seconds"]), 1)

    def test_progress_is_told_where_there_is_no_terminal(self):
        now, told = [0.0], io.StringIO()
        line = progress.Progress(4, told, lambda: now[0])
        line.running[1] = "a\x1b[1m full"
        for now[0] in (0.5, 9.9, 10, 15, 19.9, 20.5):
            line.done = int(now[0]) // 10
            line.draw()
        line.end()
        lines = ["0:10: 1 done, 3 to do, some 0:30 left", "0:20: 2 done, 2 to do, some 0:20 left"]
        self.assertEqual(told.getvalue(), "".join(f"collection: {it}: a\\u001b[1m full\n" for it in lines))

    def test_a_plan_of_which_only_a_part_is_read(self):
        for k in range(300):
            self.write(f"in/{k}.json", blueprint(belt(0, k), label="x" * 80))
        command = [sys.executable, "-B", "-m", "collection", self.folder / "in", "-o", self.report, "--plan"]
        command += ["--program", self.fake()]
        environment = {**os.environ, "PYTHONPATH": str(TOP)}
        pipes = {"stdout": subprocess.PIPE, "stderr": subprocess.PIPE}
        with subprocess.Popen([str(it) for it in command], env=environment, **pipes) as planned:
            planned.stdout.readline()
            planned.stdout.close()
            wrong = planned.stderr.read()
        self.assertEqual((planned.returncode, wrong), (141, b""))


class Marks(Case):
    def test_a_frame_is_around_all_tiles(self):
        text = blueprint(belt(0, 0), {"name": "substation", "position": {"x": 3, "y": 2}})
        (cells, words), = refusals.refusal("refused 23 Unsupported 1", text).places
        self.assertEqual(cells, ((2, 1), (3, 1), (2, 2), (3, 2)))
        drawn = picture.Picture(read(text), marks=picture.Marks(refused=((cells, words),))).parts("w")
        self.assertIn('<rect class="frame" x="46" y="22" width="52" height="52" rx="5"/>', drawn)


class Mutated(Case):
    def test_damaged_books_are_told_of(self):
        names = ("express-tap-1-to-3", "overflow-1-to-2", "splitter-on-splitter-2-to-3")
        entries = [{"index": k, **json.loads((EXAMPLES / f"{it}.json").read_text())} for k, it in enumerate(names)]
        chance, whole = random.Random(49), json.dumps(
            {"blueprint_book": {"blueprints": entries, "label": "b"}}
        ).encode()
        for number in range(350):
            data = bytearray(whole)
            for _ in range(chance.choice((1, 2, 8))):
                at, size = chance.randrange(len(data)), chance.choice((0, 1, 1, 9))
                data[at : at + size] = chance.choice((b"", *PIECES, bytes([chance.randrange(256)])))
            found = inputs.from_bytes(bytes(data), "book", "book")
            made = [report.guarded(Row(it), True, "", set()) for it in found]
            self.assertFalse([it.row.trouble for it, *_ in made if "can't be shown" in (it.row.trouble or "")], number)


class Found(Page):
    """By what the page's script finds, filters and names designs."""

    def test_marks_of_the_game_are_words(self):
        cases = {
            "[item=iron-plate] 4 to 4": "iron-plate 4 to 4",
            "[color=1,0,0]red[/color] [font=default-bold]b[/font]": "red b",
            "[virtual-signal=signal-A][entity=splitter]": "signal-A splitter",
            "[train=1] a [b] c": "1 a [b] c",
            "plain": "plain",
        }
        for text, words in cases.items():
            self.assertEqual(labels.in_words(text), words)

    def test_a_design_s_own_words_stand_apart_from_those_around_it(self):
        entry = blueprint(belt(0, 0), label="[item=belt] one", description="About <b>it</b>")
        self.write("in/4 to 4.json", '{"blueprint_book":{"label":"Eight","blueprints":[%s]}}' % entry)
        run(self.folder / "in", "-o", self.report, "--program", self.fake())
        self.tags()
        words = "[item=belt] one basic balanced:yes drawn-evenly:yes unlimited:yes full:yes fair:yes drawn-fairly:yes "
        words += "universal:yes output-balanced:yes input-balanced:yes equal-drain:yes tu:yes throughput-unlimited:yes"
        told = f'<tr data-words="{words}" data-around=" in/4 to 4.json, eight" data-ends="1-1" data-tiers="basic"'
        for text in (told, ">belt one<", "About &lt;b&gt;it&lt;/b&gt;", ' data-page="d-item-belt-one"'):
            self.assertIn(text, self.page())

    def test_columns_are_there_where_a_design_has_something_in_them(self):
        self.write("in/a.json", blueprint(belt(0, 0)))
        run(self.folder / "in", "-o", self.report, "--program", self.fake())
        for name in ("bare", "same network", "smaller"):
            self.assertNotIn(f">{name}</th>", self.page())
        run(self.folder / "in", "-o", self.report, "--program", self.fake("small"), "--smaller")
        self.assertIn(">smaller</th>", self.page())
        self.assertIn("1 → 1", self.page())

    def test_rows_far_down_are_laid_out_later(self):
        self.write("book.json", json.dumps(many.book(90)))
        run(self.folder / "book.json", "-o", self.report, "--program", self.fake())
        page = (self.report / "index.html").read_text()
        first, later = re.findall("<tbody.*?</tbody>", page.partition('id="designs"')[2])[:2]
        self.assertEqual((first.count("<tr "), later.count("<tr ")), (40, 50))
        self.assertIn('<tbody class="later">', later)

    def test_the_page_keeps_designs_compressed(self):
        run(BOOK, "-o", self.report, "--program", self.fake())
        self.assertLess((self.report / "index.html").stat().st_size, len(self.page().encode()) * 2 / 3)
