"""Runs of the program, what is kept of them, and the command."""

import os
import resource
import signal
import subprocess
import sys
import time
from unittest import mock

from .. import program, progress, running, states, strings
from ..files import replacing
from . import EXAMPLES, TOP, Case, belt, blueprint, run, test_report

DECISIONS = {f"decide {prop}" for prop in states.PROPERTIES}
ALL = len(DECISIONS)


class Files(Case):
    def test_a_file_is_whole_or_not_there(self):
        path = self.write("file", "old")
        with self.assertRaises(ValueError), replacing(path) as file:
            file.write(b"half")
            raise ValueError
        self.assertEqual([(it.name, it.read_text()) for it in self.folder.iterdir()], [("file", "old")])


class Resuming(Case):
    def setUp(self):
        super().setUp()
        self.design = self.write("one.json", blueprint(belt(0, 0)))

    def decisions(self):
        return sorted(it for it in self.log() if it.startswith("decide"))

    def words(self, *more, how=""):
        return [self.design, "-o", self.report, "--jobs", "2", "--program", self.fake(how), *more]

    def test_what_is_done_is_not_done_again(self):
        self.assertEqual(run(*self.words())[0], 0)
        self.assertEqual(set(self.decisions()), DECISIONS)
        page, table, count = self.page(), self.results(), len(self.log())
        self.assertEqual(run(*self.words())[0], 0)
        self.assertEqual((self.page(), self.results(), len(self.log())), (page, table, count))

    def test_a_lost_or_changed_file_is_made_again(self):
        run(*self.words())
        kept = self.report / "designs" / "one"
        (kept / "yes-full.txt").unlink()
        (kept / "yes-balanced.txt").write_text("yes balanced\nend\n")
        (kept / "network.net").write_text("net 2 2 0\n")
        before = len(self.log())
        run(*self.words())
        again = self.log()[before:]
        self.assertEqual(sorted(again), ["check balanced", "check full", "decide balanced", "decide full", "recover"])

    def test_a_damaged_record_is_made_again(self):
        run(*self.words())
        record = self.report / "designs" / "one" / "record.json"
        for text in ("{", "[]", '{"decided": []}', "{}", record.read_text().replace('"yes"', '"sure"')):
            record.write_text(text)
            self.assertEqual(run(*self.words())[0], 0)
            self.assertEqual([it["verdict"] for it in self.results()], ["yes"] * ALL)
            self.assertEqual([it.name for it in (self.report / "designs").iterdir()], ["one"])

    def test_another_design_or_program_is_another_thing(self):
        run(*self.words())
        self.design.write_text(blueprint(belt(0, 1)))
        run(*self.words())
        self.assertEqual(len(self.decisions()), 2 * ALL)
        run(*self.words(how="another"))
        self.assertEqual(len(self.decisions()), 3 * ALL)

    def test_giving_up_stands_until_the_limits_are_others(self):
        run(*self.words(how="spent"))
        told = {(it["verdict"], it["why"], it["steps"]) for it in self.results()}
        self.assertEqual(told, {("spent", "the log is full: 1 steps", "1")})
        run(*self.words(how="spent"))
        self.assertEqual(len(self.decisions()), ALL)
        run(*self.words("--learnt", 5, "--pivots", 6, how="spent"))
        self.assertEqual(len(self.decisions()), 2 * ALL)
        self.assertIn("decide full --learnt 5 --pivots 6", self.decisions())

    def test_what_an_earlier_program_doesnt_know_is_told_and_no_failure(self):
        status, out, wrong = run(*self.words(how="earlier"))
        self.assertEqual((status, "4 yes, 2 not known" in out), (0, True), out)
        self.assertIn("collection: the program doesn't know fair, drawn-fairly\n", wrong)
        told = {it["property"]: (it["verdict"], it["why"]) for it in self.results()}
        self.assertEqual(told["fair"], ("unknown", "the program doesn't know this property"))
        for column in ("fair", "drawn-fairly", "universal"):
            self.assertNotIn(f">{column}<", self.page())

    def test_a_renamed_design_keeps_its_folder(self):
        run(*self.words())
        self.design = self.design.rename(self.folder / "other.json")
        run(*self.words())
        self.assertEqual([it.name for it in (self.report / "designs").iterdir()], ["one"])
        self.assertEqual((len(self.decisions()), self.results()[0]["design"]), (ALL, "other"))

    def test_two_designs_of_one_name_and_one_design_twice(self):
        self.write("in/a/4 to 4.json", blueprint(belt(0, 0), label="<b>same</b>"))
        self.write("in/b/4 to 4.json", blueprint(belt(0, 1), label="<b>same</b>"))
        self.write("in/c/copy.json", blueprint(belt(0, 0), label="<b>same</b>"))
        self.design = self.folder / "in"
        run(*self.words())
        self.assertEqual(sorted(it.name for it in (self.report / "designs").iterdir()), ["b-same-b", "b-same-b-2"])
        self.assertEqual((len(self.decisions()), len(self.results())), (2 * ALL, 3 * ALL))
        self.assertNotIn("<b>same", self.page())
        self.assertIn("the same design as", self.page())

    def test_a_killed_program_is_a_line_and_is_run_again(self):
        status, _, _ = run(*self.words(how="killed"))
        self.assertEqual(status, 1)
        told = {it["property"]: (it["verdict"], it["why"]) for it in self.results()}
        self.assertEqual(told["full"], ("failed", "the program was ended by signal 9"))
        self.assertEqual(
            [verdict for verdict, _ in told.values()], ["failed" if it == "full" else "yes" for it in states.PROPERTIES]
        )
        before = len(self.log())
        run(*self.words(how="killed"))
        self.assertEqual([it for it in self.log()[before:] if it.startswith("decide")], ["decide full"])

    def test_an_answer_that_check_refuses_is_no_verdict(self):
        run(*self.words(how="unaccepted"))
        self.assertEqual({(it["verdict"], it["accepted"]) for it in self.results()}, {("unaccepted", "no")})
        self.assertIn("yes, but check doesn't accept it: refused 52 NoVerdict", self.results()[0]["why"])

    def test_the_time_is_kept(self):
        begin = time.monotonic()
        status, _, _ = run(*self.words("--seconds", 0.3, how="slow"))
        self.assertLess(time.monotonic() - begin, 20)
        told = {(it["verdict"], it["why"]) for it in self.results()}
        self.assertEqual(told, {("late", "the time was up after 0.3 seconds by the clock")})
        self.assertEqual((status, self.left_undone()), (0, []))

    def start(self, *words, interrupt=signal.SIG_DFL):
        """Starts the tool, with interrupts heeded or ignored however the tests were started."""
        environment = {**os.environ, "PYTHONPATH": str(TOP)}
        return subprocess.Popen(
            [sys.executable, "-B", "-m", "collection", *map(str, words)],
            env=environment,
            stdin=subprocess.PIPE,
            stdout=subprocess.PIPE,
            stderr=subprocess.PIPE,
            preexec_fn=lambda: signal.signal(signal.SIGINT, interrupt),
        )

    def stop(self, tool, number):
        """Sends the tool a signal, and sees to it that it stops soon."""
        tool.send_signal(number)
        _, wrong = tool.communicate(timeout=50)
        self.assertEqual((tool.returncode, b"goes on from here" in wrong), (130, True), wrong)
        self.assertEqual(self.left_undone(), [])

    def wait_for(self, count):
        end = time.monotonic() + 20
        while len(self.decisions()) < count and time.monotonic() < end:
            time.sleep(0.02)

    def test_a_stopped_tool_goes_on(self):
        for number in (signal.SIGTERM, signal.SIGINT):
            (self.folder / "log").unlink(missing_ok=True)
            tool = self.start(*self.words(how="slow"))
            self.wait_for(2)
            self.stop(tool, number)
            self.assertFalse((self.report / "index.html").exists())
        (self.folder / "log").unlink()
        self.assertEqual(run(*self.words())[0], 0)
        self.assertEqual({it["verdict"] for it in self.results()}, {"yes"})

    def test_it_is_stopped_wherever_it_is_though_interrupts_are_ignored(self):
        tool = self.start(*self.words(how="slow"), interrupt=signal.SIG_IGN)
        self.wait_for(2)
        tool.send_signal(signal.SIGINT)
        self.stop(tool, signal.SIGTERM)
        (self.folder / "log").unlink()
        tool = self.start("--one", self.report / "designs" / "one", *self.words()[3:], interrupt=signal.SIG_IGN)
        self.wait_for(1)
        self.stop(tool, signal.SIGTERM)
        tool = self.start("-", *self.words()[1:], interrupt=signal.SIG_IGN)
        tool.stdin.write(b" " * 1_000_000)
        self.stop(tool, signal.SIGTERM)

    def test_a_stop_after_the_last_task_is_heeded(self):
        late = mock.patch.object(progress.Progress, "end", lambda _: signal.raise_signal(signal.SIGTERM))
        with late, self.assertRaises(KeyboardInterrupt):
            running.run_all([("one", (lambda: None,))], 1, program.Program(self.fake()))

    def test_a_killed_tool_leaves_nothing_half_done(self):
        tool = self.start(*self.words(how="slow"))
        self.wait_for(2)
        tool.kill()
        tool.communicate()
        self.assertNotEqual(self.left_undone(), [])
        self.assertEqual(run(*self.words())[0], 0)
        self.assertEqual((self.left_undone(), {it["verdict"] for it in self.results()}), ([], {"yes"}))

    def test_a_full_disk_loses_nothing(self):
        self.assertEqual(run(*self.words())[0], 0)
        page, table = self.page(), self.results()
        self.write("in/one.json", blueprint(belt(0, 0)))
        self.write("in/two.json", blueprint(*(belt(0, y) for y in range(100))))
        self.design = self.folder / "in"
        words = [str(it) for it in self.words()]
        environment = {**os.environ, "PYTHONPATH": str(TOP)}
        full = subprocess.run(
            [sys.executable, "-B", "-m", "collection", *words],
            env=environment,
            capture_output=True,
            text=True,
            preexec_fn=lambda: resource.setrlimit(resource.RLIMIT_FSIZE, (3000, 3000)),
        )
        self.assertEqual((full.returncode, "the report can't be written" in full.stderr), (1, True), full.stderr)
        self.assertEqual((self.page(), self.results(), self.left_undone()), (page, table, []))
        self.assertEqual(run(*self.words())[0], 0)
        self.assertEqual([it["verdict"] for it in self.results()], ["yes"] * 2 * ALL)

    def test_nothing_is_written_elsewhere(self):
        names = ("../../up", "/etc/x", "a\x00b", "..", "<i>")
        texts = [blueprint(belt(0, k), label=it) for k, it in enumerate(names)]
        self.design = self.write("in/book.json", '{"blueprint_book":{"blueprints":[%s]}}' % ",".join(texts))
        program = self.fake()
        before = {it for it in self.folder.rglob("*")}
        run(self.design, "-o", self.report, "--program", program)
        new = {it for it in self.folder.rglob("*")} - before - {self.folder / "log"}
        self.assertTrue(all(it == self.report or self.report in it.parents for it in new))
        self.assertEqual(len(list((self.report / "designs").iterdir())), len(names))
        self.assertEqual(len(self.results()), ALL * len(names))


class Smaller(Case):
    def setUp(self):
        super().setUp()
        belts = (belt(0, y, name="fast-transport-belt") for y in (0, 1))
        self.write("in/one.json", blueprint(*belts))
        self.kept = self.report / "designs" / "one"

    def run_on(self, *more, how="small"):
        words = [self.folder / "in", "-o", self.report, "--jobs", "2", "--smaller", "--program", self.fake(how), *more]
        return run(*words)[0]

    def searches(self):
        return [it for it in self.log() if it.startswith("smallest")]

    def told(self):
        (line,) = [it for it in self.results() if it["property"] == "smaller"]
        return line["verdict"], line["why"], line["file"]

    def test_it_is_kept_as_json_and_as_a_string(self):
        self.assertEqual(self.run_on(), 0)
        self.assertEqual(self.searches(), ["smallest --found --sides --tier fast"])
        self.assertEqual(self.told(), ("found", "1 x 1, each end at its own side", "designs/one/smaller.json"))
        json, string = (self.kept / name for name in ("smaller.json", "smaller.txt"))
        self.assertEqual(strings.inflate(string.read_text()), json.read_bytes().rstrip(b"\n"))
        said = "1 × 1, 1 cell, where the design has 1 × 2, 2 cells"
        sides = "Each input and output that is at a side of the design is at that side here too."
        for text in ("A smaller layout", said, sides, string.read_text().strip()):
            self.assertIn(text, self.page())
        page, found = self.page(), test_report.Tags()
        found.feed(page)
        self.assertEqual((found.wrong, found.open, len(found.ids)), ([], [], len(set(found.ids))))
        self.assertEqual([it for it in found.links if it[0] != "#" and not (self.report / it).is_file()], [])
        self.assertEqual((self.run_on(), len(self.searches()), self.page()), (0, 1, page))

    def test_where_none_has_its_ends_at_their_sides_any_will_do(self):
        self.assertEqual(self.run_on(how="sideless"), 0)
        self.assertEqual(self.searches(), ["smallest --found --sides --tier fast", "smallest --found --tier fast"])
        self.assertEqual(self.told(), ("found", "1 x 1, ends at any side", "designs/one/smaller.json"))
        self.assertIn("Its inputs and outputs may be at other sides", self.page())
        self.assertEqual((self.run_on(how="sideless"), len(self.searches())), (0, 2))

    def test_a_lost_or_changed_file_or_another_limit_looks_again(self):
        self.run_on()
        (self.kept / "smaller.json").write_text("{}")
        self.run_on()
        (self.kept / "smaller.txt").unlink()
        self.run_on()
        self.run_on("--learnt", 5)
        words = "smallest --found --sides --tier fast"
        self.assertEqual(self.searches()[1:], [words, words, f"{words} --learnt 5"])

    def test_it_is_looked_for_where_it_is_asked_and_a_design_is_laid_out(self):
        self.write("in/two.net", "net 1 1 0\nedge i0 o0\nend\n")
        run(self.folder / "in", "-o", self.report, "--program", self.fake("small"))
        self.assertEqual(self.searches(), [])
        self.run_on()
        self.assertEqual(len(self.searches()), 1)

    def test_ends_are_laid_out_side_by_side_where_this_is_asked_for(self):
        self.assertEqual(self.run_on("--side-by-side"), 0)
        searches = [it for it in self.searches() if "160" not in it]
        self.assertEqual(searches, ["smallest --found --most 1x16 --tier fast"])
        self.assertEqual(self.told(), ("found", "1 x 1, ends side by side", "designs/one/smaller.json"))
        for text in (
            "A layout with ends side by side",
            "Its inputs stand side by side at the south, and its outputs at the north.",
        ):
            self.assertIn(text, self.page())
        count = len(self.searches())
        self.assertEqual((self.run_on("--side-by-side"), len(self.searches())), (0, count))
        self.assertEqual(self.run_on("--side-by-side", "--width", 3), 0)
        self.assertEqual(self.searches()[-1], "smallest --found --most 3x160 --tier fast")
        self.run_on("--side-by-side", how="")
        self.assertEqual(
            [it for it in self.searches() if "x16 " in it][-2:],
            [f"smallest --found --most {it}x16 --tier fast" for it in (1, 16)],
        )

    def test_each_failure_is_a_line(self):
        cases = {
            "": (
                0,
                "none",
                "none was found in 7 steps with each end at its own side, and none was found in 7 steps with ends at "
                "any",
            ),
            "refused": (
                0,
                "refused",
                "refused 45 Cap: a layout is looked for of networks in which each edge carries one full belt, and of "
                "this one an edge doesn't",
            ),
            "killed": (1, "failed", "the program was ended by signal 9"),
            "other": (1, "failed", "what was found shows another network: 'net 2 2 0\\n'"),
        }
        for how, (status, verdict, why) in cases.items():
            with self.subTest(how=how):
                self.assertEqual((self.run_on(how=how), self.told()), (status, (verdict, why, "")))
                self.assertIn("A smaller layout", self.page())
                self.assertEqual(list(self.kept.glob("smaller*")), [])

    def test_the_time_is_kept(self):
        self.assertEqual(self.run_on("--seconds", 0.3, how="slow"), 0)
        self.assertEqual(self.told(), ("late", "the time was up after 0.3 seconds by the clock", ""))
        self.assertEqual(self.left_undone(), [])

    def test_it_is_planned_and_done_elsewhere(self):
        words = [self.folder / "in", "-o", self.report]
        _, plan, _ = run(*words, "--plan", "--smaller", "--program", self.fake("small"))
        self.assertIn(" --smaller --one ", plan)
        self.assertEqual(run(*plan.split()[1:]), (0, "", ""))
        self.assertEqual(run(*words, "--gather")[0], 0)
        self.assertEqual(self.told()[0], "found")


class Elsewhere(Case):
    def test_plan_one_and_gather_make_the_same_report(self):
        design = [EXAMPLES / "splitter-2-to-2.json", EXAMPLES / "chain-1-to-3.net", EXAMPLES / "README.md"]
        self.assertEqual(run(*design, "-o", self.report, "--jobs", "1")[0], 0)
        together = [{**it, "processor_seconds": "", "clock_seconds": ""} for it in self.results()]
        self.report = self.folder / "other"
        status, plan, _ = run(*design, "-o", self.report, "--plan", "--learnt", 9999)
        self.assertEqual((status, plan.count("\n")), (0, 2))
        self.assertFalse((self.report / "index.html").exists())
        run(*design, "-o", self.report, "--gather")
        self.assertEqual([it["verdict"] for it in self.results()], ["unread"] * 3)
        for line in plan.splitlines():
            command, *words = line.split(" ")
            self.assertTrue(command.endswith("bin/collection"))
            self.assertEqual(words[:3], ["--learnt", "9999", "--one"])
            self.assertEqual(run(*words), (0, "", ""))
        self.assertEqual(run(*design, "-o", self.report, "--gather")[0], 0)
        self.assertEqual([{**it, "processor_seconds": "", "clock_seconds": ""} for it in self.results()], together)
        self.assertEqual(run(*design, "-o", self.report, "--plan", "--learnt", 9999)[1], "")

    def test_wrong_words(self):
        cases = ("", "x", "-o x", "x -o y --jobs 0", "x -o y --plan --gather", "x -o y --job 1", "x -o y --seconds inf")
        cases += "x -o y --bare-ends sometimes", "x -o y --treat-as belt", "x -o y --treat-as splitter=fast"
        for words in map(str.split, cases):
            with self.subTest(words=words), self.assertRaises(SystemExit) as ended:
                run(*words)
            self.assertEqual(ended.exception.code, 2)
        self.assertEqual(run("--one", self.folder)[0], 1)
        self.assertEqual(run(EXAMPLES / "one-belt.net", "-o", self.report, "--program", self.folder / "none")[0], 1)
