"""Tests of the page. python3 -B -m unittest discover -s page/tests -t . runs them; those that run its scripts want
node, and are skipped where it isn't there. None of them needs a browser: page/look does."""

import os
import shutil
import subprocess
import sys
import tempfile
import unittest
from pathlib import Path

from collection.tests import program_path

from .. import sheet

TOP = sheet.TOP
EXAMPLES = sheet.EXAMPLES
NODE = shutil.which("node") or shutil.which("nodejs")
if not NODE:
    print("the command node isn't there: tests that run the page's scripts are skipped", file=sys.stderr)
needs_node = unittest.skipUnless(NODE, "the command node isn't there, so the page's scripts were not run")


def page_path():
    """The page that is tested: the one beside the program that bin/beltproof starts, or beside the same one in out/, or
    none."""
    if told := os.environ.get("BELTPROOF_PAGE"):
        return Path(told)
    program = Path(program_path())
    others = [
        it for it in (program, TOP / "out" / program.name) if it.is_file() and it.read_bytes() == program.read_bytes()
    ]
    return next((it.with_name("beltproof.html") for it in others if it.with_name("beltproof.html").is_file()), None)


def run_scripts(names, driver, data=b"", seconds=600):
    """What a script writes, run behind these scripts of the page."""
    with tempfile.TemporaryDirectory() as folder:
        path = Path(folder, "driver.cjs")
        path.write_text(f"{sheet.scripts(names)}\n{driver}", "utf-8")
        ended = subprocess.run(
            [NODE, path], input=data, stdout=subprocess.PIPE, stderr=subprocess.PIPE, timeout=seconds, check=False
        )
    if ended.returncode:
        raise AssertionError(ended.stderr.decode("utf-8", "replace")[-3000:])
    return ended.stdout
