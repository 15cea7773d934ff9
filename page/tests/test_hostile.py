"""Files that nobody would publish: the page tells or refuses each within seconds of a processor, and nothing is thrown
in it."""

import base64
import json
import random
import tempfile
import unittest
from pathlib import Path

from collection.tests import fuzz, program_path

from . import needs_node, run_scripts
from .test_book import NAMES

SEEDS, LARGE_SECONDS = 300, 10
LARGE = (
    "dashes in a label",
    "books in one another",
    "empty objects",
    "brackets",
    "many designs",
    "entities of 3 MB",
    "beginnings of strings",
    "a bomb",
    "thirty bombs",
    "belts",
    "a description",
    "members",
    "a net",
)
"""The large files of the fuzzer that the gate throws at the page."""

DRIVER = """
const fs = require("fs");
const { spawnSync } = require("child_process");
const { path, files, small } = JSON.parse(fs.readFileSync(0, "utf8"));
const run = async (words, input) => {
  const { status, stdout } = spawnSync(path, words, { input, maxBuffer: 2 ** 28 });
  return { words, status, written: new Uint8Array(stdout), seconds: 0 };
};
const FEW = 20;
const judge = async (bytes) => {
  const began = process.cpuUsage();
  const found = await designsIn(bytes, "pasted");
  const rows = found.map((it, at) => new Entry(it, at + 1));
  for (const row of rows.slice(0, FEW)) {
    if (!row.found.bytes) continue;
    row.judged = new Judged(row.found);
    try {
      await row.judged.read(run);
    } catch (fault) {
      if (!(fault instanceof NoAnswer)) throw fault;
      continue;
    }
    [row.reason(), row.remarks(), row.judged.warnings, row.judged.places, row.judged.size, row.judged.bare];
  }
  await tableOf(rows, "p");
  rows.filter((it) => it.fits(askedFor("4 to 4 tu:yes x"), {}));
  const longest = Math.max(0, ...found.map((it) => it.name.length + it.books.join("/").length));
  const [seconds, memory] = [process.cpuUsage(began).user / 1e6, process.memoryUsage().rss];
  return { designs: found.length, longest, seconds, memory };
};
const main = async () => {
  const told = [];
  for (const it of small) {
    try {
      told.push(await judge(new Uint8Array(Buffer.from(it, "base64"))));
    } catch (fault) {
      told.push({ fault: String(fault.stack) });
    }
  }
  for (const it of files) {
    try {
      told.push({ file: it, ...(await judge(new Uint8Array(fs.readFileSync(it)))) });
    } catch (fault) {
      told.push({ file: it, fault: String(fault.stack) });
    }
  }
  fs.writeSync(1, JSON.stringify(told));
};
main();
"""


@needs_node
class Hostile(unittest.TestCase):
    def throw(self, small=(), large=()):
        with tempfile.TemporaryDirectory() as folder:
            files = []
            for number, data in enumerate(large):
                files.append(str(Path(folder, str(number))))
                Path(files[-1]).write_bytes(data)
            asked = {
                "path": str(program_path()), "files": files, "small": [base64.b64encode(it).decode() for it in small]
            }
            return json.loads(run_scripts(NAMES, DRIVER, json.dumps(asked).encode()))

    def test_what_is_thrown_is_told(self):
        told = self.throw([fuzz.file(random.Random(seed)) for seed in range(SEEDS)])
        for seed, it in enumerate(told):
            self.assertNotIn("fault", it, f"seed {seed}: {it.get('fault')}")
            self.assertLess(it["longest"], 4000, seed)
        self.assertGreater(sum(it["designs"] > 1 for it in told), SEEDS // 10)

    def test_large_files_are_told_in_time(self):
        them = {name: data for name, data in fuzz.large() if name in LARGE}
        self.assertEqual(set(them), set(LARGE))
        for name, it in zip(them, self.throw(large=them.values()), strict=True):
            with self.subTest(name=name):
                self.assertNotIn("fault", it)
                self.assertLess(it["seconds"], LARGE_SECONDS)


if __name__ == "__main__":
    unittest.main()
