"""Tests of the tool for collections. python3 -B -m unittest discover -s collection/tests -t . runs them."""

import contextlib
import io
import json
import os
import re
import tempfile
import unittest
import zlib
from base64 import b64decode
from pathlib import Path

from .. import program
from ..command import main

TOP = program.TOP
EXAMPLES = TOP / "examples"
BOOK = EXAMPLES / "collection" / "book.txt"


def program_path():
    """The program that bin/beltproof starts."""
    if not hasattr(program_path, "found"):
        program_path.found = program.find().path
    return program_path.found


def run(*words):
    """Runs the command in this process: its status, and what it printed."""
    out, wrong = io.StringIO(), io.StringIO()
    with contextlib.redirect_stdout(out), contextlib.redirect_stderr(wrong):
        status = main([str(word) for word in words])
    return status, out.getvalue(), wrong.getvalue()


def blueprint(*entities, label=None, **more):
    """The text of a blueprint."""
    numbered = [{"entity_number": number, **it} for number, it in enumerate(entities, 1)]
    told = {"item": "blueprint", "entities": numbered, **({"label": label} if label else {}), **more}
    return json.dumps({"blueprint": told})


def belt(x, y, direction=0, name="transport-belt", **more):
    return {"name": name, "position": {"x": x + 0.5, "y": y + 0.5}, "direction": direction, **more}


FAKE = '''#!/bin/sh
# Answers as the program does of one belt, and notes each run; {how} is what else it does.
echo "$@" >>"{log}"
cat >/dev/null
case "$3 {how}" in
  '--sides sideless') printf 'spent 7\nend\n'; exit 4 ;;
esac
case "$1 $2 {how}" in
  'smallest --found small' | 'smallest --found sideless') printf 'grid 1x1\n%s\n' '{small}' ;;
  'smallest --found other') touch "{log}.asked"; printf 'grid 1x1\n%s\n' '{small}' ;;
  'smallest --found refused') echo 'refused 45 Cap 0'; exit 3 ;;
  'smallest --found killed') kill -9 $$ ;;
  'smallest --found slow') exec sleep 60 ;;
  smallest*) printf 'spent 7\nend\n'; exit 4 ;;
  recover*other) [ -e "{log}.asked" ] && printf 'net 2 2 0\n' || printf 'net 1 1 0\nedge i0 o0\nend\n' ;;
  recover*) printf 'net 1 1 0\\nedge i0 o0\\nend\\n' ;;
  check*unaccepted) echo 'refused 52 NoVerdict'; exit 9 ;;
  check*) echo "yes $2" ;;
  'decide full killed') kill -9 $$ ;;
  'decide fair earlier' | 'decide drawn-fairly earlier') echo usage; exit 2 ;;
  decide*slow) exec sleep 60 ;;
  decide*spent) printf 'spent 1\\nr 0 1 0\\nend\\n'; exit 4 ;;
  *) printf 'yes %s\\nr 0 1 0\\nend\\n' "$2" ;;
esac
'''


class Case(unittest.TestCase):
    """A test with a folder of its own."""

    def setUp(self):
        place = tempfile.TemporaryDirectory()
        self.addCleanup(place.cleanup)
        self.folder = Path(place.name)
        self.report = self.folder / "report"

    def write(self, name, content):
        path = self.folder / name
        path.parent.mkdir(parents=True, exist_ok=True)
        path.write_bytes(content if isinstance(content, bytes) else content.encode())
        return path

    def fake(self, how=""):
        """A program that answers at once, or else as told."""
        path = self.write("fake", FAKE.format(log=self.folder / "log", how=how, small=blueprint(belt(0, 0))))
        os.chmod(path, 0o755)
        return path

    def log(self):
        """The runs of the fake program so far."""
        path = self.folder / "log"
        return path.read_text().splitlines() if path.exists() else []

    def results(self):
        """The lines of the table, as the report has it."""
        head, *lines = (self.report / "results.tsv").read_text().splitlines()
        return [dict(zip(head.split("\t"), line.split("\t"))) for line in lines]

    def page(self):
        """The report's page, with all that it keeps compressed in its place."""
        text = (self.report / "index.html").read_text()
        return re.sub(r' data-kept="([^"]*)">', lambda it: ">" + zlib.decompress(b64decode(it[1])).decode(), text)

    def left_undone(self):
        return [it for it in self.report.rglob("*") if it.name.endswith(".part")]
