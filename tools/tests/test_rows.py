#!/usr/bin/env python3
"""Tests of tools/rows, by tables and a program of their own."""

import sys

sys.dont_write_bytecode = True

import contextlib
import io
import os
import subprocess
import tempfile
import unittest
from importlib.machinery import SourceFileLoader
from importlib.util import module_from_spec, spec_from_loader
from pathlib import Path

ROWS = Path(__file__).resolve().parent.parent / "rows"
loader = SourceFileLoader("rows", str(ROWS))
rows = module_from_spec(spec_from_loader("rows", loader))
loader.exec_module(rows)
# A program that does what its first word says.
PROGRAM = r"""#!/bin/sh
case "$1" in
  give) cat ;;
  say) shift; printf '%s\n' "$@" ;;
  count) wc -c ;;
  end) exit "$2" ;;
  fault) echo why >&2 ;;
  signal) kill -9 $$ ;;
  hang) sleep 60 ;;
  chatter) yes ;;
  parts) printf 'grid 1x1\nnone\nr 0\ngrid 1x2\n{}' ;;
esac
"""


class Rows(unittest.TestCase):
    def setUp(self):
        held = tempfile.TemporaryDirectory()
        self.addCleanup(held.cleanup)
        self.folder = Path(held.name)
        self.program = self.folder / "program"
        self.program.write_text(PROGRAM)
        self.program.chmod(0o755)

    def run_rows(self, tables, *words):
        """The status, and what is written, of the runner over these tables."""
        for name, text in tables.items():
            path = self.folder / f"{name}.rows"
            path.write_bytes(text if isinstance(text, bytes) else text.encode())
        told = io.StringIO()
        with contextlib.redirect_stdout(told), contextlib.redirect_stderr(told):
            status = rows.main(["--program", str(self.program), "--rows", str(self.folder), *words])
        return status, told.getvalue()

    def passes(self, table):
        self.assertEqual(self.run_rows({"table": table}), (0, "1 passed, 0 failed\n"))

    def fails(self, table, *told, words=()):
        """The runner fails the one row of a table, and tells these."""
        status, text = self.run_rows({"table": table}, *words)
        self.assertEqual((status, text.splitlines()[-1]), (1, "0 passed, 1 failed"))
        for it in ("table.rows:2: table/a:", *told):
            self.assertIn(it, text)

    def is_malformed(self, table, line, why):
        status, text = self.run_rows({"table": table})
        self.assertEqual(status, 2, text)
        self.assertRegex(text, rf"^\S*table\.rows:{line}: .*{why}")

    def test_passes_what_is_answered(self):
        for table in (
            "row a\n$ give\n< x\n<\n< é\n= 0\n> x\n>\n> é\n",
            "# A comment.\n\nrow a\n\n$ end 7\n= 7\n",
            "row a\n$ say a b\n= 0\n> a\n> b\n",
            "row a\n$ say\n$: a\\x20b\n$:\n= 0\n> a b\n>\n",
            "row a\n$ give\n<: \\x00\\xff\\r\\t\\\\\n= 0\n>: \\x00\\xff\\r\\t\\\\\n",
            "row a\n$ give\n<* 3 e#,\n= 0\n>: e0,e1,e2,\n",
            "row a\n$ count\n<: ab\n<* 300000000 \\x00\n<: c\n= 0\n> 300000003\n",
            "row a\n$ give\n<* 3000000 ab\n= 0\n>* 1500000 abab\n",
            "row a\n$ say a b c\n= 0\n> a\n>...\n",
            "row a\n$ say a b c\n= 0\n> a\n>... 2\n",
            "row a\n$ say a\n= 0\n>...\n",
        ):
            with self.subTest(table):
                self.passes(table)

    def test_passes_named_texts(self):
        for table in (
            "text t\n| x\n|: y\n|* 2 z\nrow a\n$ give\n<@ t\n= 0\n> x\n>: yzz\n",
            "text t\n| x\ntext u\n|@ t\n|@ t\nrow a\n$ give\n<@ first 3 u\n= 0\n> x\n>: x\n",
            "map m fast\n| ^.\n| []\nrow a\n$ give\n<@ m\n= 0\n"
            '>: {"blueprint":{"entities":[{"name":"fast-transport-belt","direction":0,"position":{"x":0.5,"y":0.5}},\n'
            '>: {"name":"fast-splitter","direction":0,"position":{"x":1,"y":1.5}}]}}\n',
            "map m\n| ^.\n| .^\nrow a\n$ give\n<@ blocks m\n= 0\n> block 1 0\n> block 0 1\n",
            "row a\n$ give\n<@ file rows/README.md\n= 0\n>@ file rows/README.md\n",
        ):
            with self.subTest(table):
                self.passes(table)

    def test_passes_chains(self):
        self.passes("row a\n$ say b\n< c\n= 0\n> b\n$ give\n<@ input 1\n<@ answer 1\n= 0\n> c\n> b\n")
        self.passes(
            "row a\n$ parts\n= 0\nparts grid 1x1 1x2\n% 1x1 1x2\n$ give\n<: %\n<@ part %\n= 0\n>: %\n>...\n"
            "$ give\n<@ part 1x1\n= 0\n> none\n> r 0\n$ give\n<@ part 1x2\n= 0\n>: {}\n"
        )
        self.passes("row a\n$ say from\n$: grid\\x201x1\n= 0\n> from\nparts grid 1x1\n$ give\n<@ part 1x1\n= 0\n")
        self.passes("text t\n| abc\nrow a\n% 1..3\n$ give\n<@ first % t\n= 0\n>@ first % t\n")

    def test_shares_texts(self):
        tables = {"shared": "text t\n| x\n", "b": "row a\n$ give\n<@ t\n= 0\n> x\n"}
        self.assertEqual(self.run_rows(tables), (0, "1 passed, 0 failed\n"))

    def test_fails_other_statuses_and_texts(self):
        for row, *told in (
            ("$ end 3\n= 0\n", "status 3 in place of 0"),
            ("$ say a\n= 1\n> a\n", "status 0 in place of 1"),
            ("$ say a b c\n= 0\n> a\n> x\n> c\n", "another text", "-x\n", "+b\n"),
            ("$ say a b\n= 0\n> a\n", "another text", "+b\n"),
            ("$ say a\n= 0\n> a\n> b\n", "another text", "-b\n"),
            ("$ say a\n= 0\n", "another text", "+a\n"),
            ("$ give\n<: a\n= 0\n> a\n", "another text", "+(no line feed)"),
            ("$ give\n<: a\\r\\xff\\n\n= 0\n> a\n", "+a\\r\\xff\n"),
            ("$ give\n<* 999 a\n<: b\\n\n= 0\n>* 999 a\n>: c\\n\n", "from line 1, column 920", "aac\n", "aab\n"),
            ("$ say a b\n= 0\n> b\n>...\n", "begins otherwise"),
            ("$ say a b\n= 0\n> a\n>... 2\n", "1 line feeds follow in place of 2"),
            ("$ give\n<: a\\nb\\nc\n= 0\n> a\n>... 1\n", "line feeds follow"),
            ("$ fault\n= 0\n", "on standard error:", "why"),
            ("$ signal\n= 0\n", "ended by signal 9"),
            ("$ chatter\n= 0\n", "a text of over"),
        ):
            with self.subTest(row):
                self.fails("row a\n" + row, *told)

    def test_fails_what_takes_too_long(self):
        self.fails("row a\n$ hang\n= 0\n", "no answer in 0.5 seconds", words=["--limit", "0.5"])

    def test_fails_other_parts(self):
        for names in ("1x1", "1x2 1x1", "1x1 1x2 1x3", "1x1 2x1"):
            with self.subTest(names):
                self.fails(f"row a\n$ parts\n= 0\nparts grid {names}\n", "other parts")
        for front in ("", "> grid\n", "> from 1x2\n"):
            with self.subTest(front):
                self.fails(f"row a\n$ say from\n$: grid\\x201x1\n= 0\n{front}parts grid 1x1\n", "other parts")

    def test_fails_a_later_step(self):
        status, text = self.run_rows({"table": "row a\n$ say a\n= 0\n> a\n% b c\n$ say %\n= 0\n> b\n"})
        self.assertEqual(status, 1)
        self.assertIn("table.rows:6: table/a: `say c`: another text", text)

    def test_goes_on_after_a_failure(self):
        status, text = self.run_rows({"table": "row a\n$ end 1\n= 0\nrow b\n$ end 1\n= 1\nrow c\n$ end 2\n= 2\n"})
        self.assertEqual((status, text.splitlines()[-1]), (1, "2 passed, 1 failed"))

    def test_runs_rows_by_name(self):
        one, two = "row a\n$ end 1\n= 1\nrow b\n$ end 1\n= 0\n", "row b\n$ end 1\n= 1\nrow c\n$ end 1\n= 1\n"
        tables = {"one": one, "two": two}
        for words, told in (
            (["a"], (0, "1 passed, 0 failed\n")), (["two"], (0, "2 passed, 0 failed\n")),
            (["two/b", "a"], (0, "2 passed, 0 failed\n")), (["--list"], (0, "one/a\none/b\ntwo/b\ntwo/c\n")),
            (["d"], (2, "no row and no table is named d\n")), (["one/c"], (2, "no row and no table is named one/c\n")),
        ):
            with self.subTest(words):
                self.assertEqual(self.run_rows(tables, *words), told)
        self.assertIn("2 passed, 1 failed", self.run_rows(tables, "two", "one/b")[1])

    def test_refuses_malformed_tables(self):
        for table, line, why in (
            ("row a\n$ end 0\n= 0", 3, "no line feed"),
            (b"row a\n$ give\n< \xff\n= 0\n", 3, "UTF-8"),
            ("row a\n$ give\n< x \n= 0\n", 3, "blank at the end"),
            ("row a\n$ give\n< x\r\n= 0\n", 3, "control character"),
            ("row A\n$ end 0\n= 0\n", 1, "a name of small letters"),
            ("row a b\n$ end 0\n= 0\n", 1, "a name of small letters"),
            ("row a\n$ end 0\n= 0\nrow a\n$ end 0\n= 0\n", 4, "there is a row a already"),
            ("row a\nrow b\n$ end 0\n= 0\n", 2, "without a step"),
            ("row a\n", 2, "without a step"),
            ("$ end 0\n= 0\n", 1, "no row is open"),
            ("row a\n< x\n$ end 0\n= 0\n", 2, "may not stand here"),
            ("row a\n$ end 0\n> x\n= 0\n", 3, "may not stand here"),
            ("row a\n$ end 0\n= 0\n= 0\n", 4, "may not stand here"),
            ("row a\n$ end 0\n= 0\n< x\n", 4, "may not stand here"),
            ("row a\n$ end 0\n= 0\n>...\n> x\n", 5, "may not stand here"),
            ("row a\n$ end 0\n= 0\nparts grid 1x1\n> x\n", 5, "may not stand here"),
            ("row a\n$ end 0\n= 0\nwhat\n", 4, "may not stand here"),
            ("row a\n$ end 0\n= x\n", 3, "'x' is no number"),
            ("row a\n$ end 0\n= 0\nparts grid\n", 4, "the word that heads them"),
            ("row a\n$ end 0\nrow b\n$ end 0\n= 0\n", 2, "without its status"),
            ("row a\n% 1 2\nrow b\n$ end 0\n= 0\n", 3, "values, but no step"),
            ("row a\n$ give\n<: \\q\n= 0\n", 3, "is no escape"),
            ("row a\n$ give\n<: \\x4\n= 0\n", 3, "is no escape"),
            ("row a\n$ give\n<: \\\n= 0\n", 3, "is no escape"),
            ("row a\n$ give\n$: \\x00\n= 0\n", 3, "no word has a byte 0"),
            ("row a\n$ give\n<* x y\n= 0\n", 3, "'x' is no number"),
            ("row a\n$ give\n<? x\n= 0\n", 3, "is no kind of piece"),
            ("row a\n$ give\n<@ t\n= 0\ntext t\n| x\n", 3, "there is no text t"),
            ("text t\n|@ t\nrow a\n$ give\n<@ t\n= 0\n", 2, "there is no text t"),
            ("text t\n| x\ntext t\n| x\n", 3, "there is a text t already"),
            ("text t\n| x\nrow a\n$ give\n<@ blocks t\n= 0\n", 5, "t is no map"),
            ("text t\n| x\nrow a\n$ end 0\n= 0\n", 1, "no row needs t"),
            ("map m\n| ?\n", 2, "none but these symbols"),
            ("| x\n", 1, "no text is open"),
            ("row a\n$ give\n<@ answer 1\n= 0\n", 3, "is no text that is there"),
            ("row a\n$ give\n<@ input 0\n= 0\n", 3, "is no text that is there"),
            ("row a\n$ give\n<@ part x\n= 0\n", 3, "no step before has a part x"),
            ("row a\n$ give\n<@ file rows/none\n= 0\n", 3, "there is no file rows/none"),
        ):
            with self.subTest(table):
                self.is_malformed(table, line, why)

    def test_ends_with_a_status_whatever_the_locale(self):
        for table, status, told in (
            ("row a\n$ end 1\n= 1\n", 0, "1 passed, 0 failed\n"), ("row a\n$ say é\n= 0\n", 1, "+é\n"),
            ("row a\n$ give\n<@ é\n= 0\n", 2, "there is no text é yet\n"),
        ):
            (self.folder / "table.rows").write_text(table, encoding="utf-8")
            command = [ROWS, "--program", self.program, "--rows", self.folder]
            names = os.environ | {"PYTHONIOENCODING": "ascii"}
            run = subprocess.run(command, stdout=subprocess.PIPE, stderr=subprocess.STDOUT, env=names, check=False)
            self.assertEqual(run.returncode, status)
            self.assertIn(told.encode(), run.stdout)

    def test_refuses_a_folder_without_tables(self):
        self.assertEqual(self.run_rows({}), (2, f"{self.folder} has no tables\n"))


if __name__ == "__main__":
    unittest.main()
