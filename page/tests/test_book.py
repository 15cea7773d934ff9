"""A whole book, decided in lanes as the page does it: the same table as the report's, certificates that the program
wrote, a stop after which it goes on, and a time that ends."""

import csv
import io
import json
import subprocess
import sys
import tempfile
import unittest
import zipfile
from pathlib import Path

from collection import labels, report
from collection.tests import program_path

from . import EXAMPLES, TOP, needs_node, run_scripts

NAMES = (
    "strings words books design trace picture states refusals entities links rigs cleaning labels ends leading openings"
    " inputs runs sentences judging networks saving lanes"
).split()
DRIVER = """
const fs = require("fs");
const { spawn } = require("child_process");
const { path, book, folder } = JSON.parse(fs.readFileSync(0, "utf8"));
let [begun, widest, now] = [0, 0, 0];
const program = {
  run(words, input) {
    const began = performance.now();
    begun += 1;
    now += 1;
    widest = Math.max(widest, now);
    const child = spawn(path, words);
    const parts = [];
    let trouble = null;
    child.stdout.on("data", (it) => parts.push(it));
    child.stdin.on("error", () => {});
    child.stdin.end(input);
    const told = new Promise((resolve) => {
      child.on("close", (status) => {
        now -= 1;
        const seconds = (performance.now() - began) / 1000;
        if (trouble) resolve({ words, trouble, seconds });
        else resolve({ words, status, written: new Uint8Array(Buffer.concat(parts)), seconds });
      });
    });
    const stop = (why = "stopped") => {
      trouble = why;
      child.kill();
    };
    return { told, stop };
  },
};
const main = async () => {
  const rowsOf = async () => {
    const designs = await designsIn(new TextEncoder().encode(book), "book");
    return designs.map((it, at) => new Entry(it, at + 1));
  };
  const rows = await rowsOf();
  await new Lanes(program, rows, { lanes: 3 }).go();
  const asked = begun;
  fs.writeFileSync(`${folder}/results.tsv`, await tableOf(rows, "p"));
  fs.writeFileSync(`${folder}/all.zip`, Buffer.concat(zipOf(await certificatesOf(rows, "p"))));
  // Nothing is asked again.
  await new Lanes(program, rows, { lanes: 3 }).go();
  const again = begun - asked;
  // Stopped in its midst, and gone on with.
  const others = await rowsOf();
  let first = null;
  let tells = 0;
  first = new Lanes(program, others, { lanes: 2, told: () => (tells += 1) === 5 && first.stop() });
  await first.go();
  const half = others.filter((it) => it.isDone(Infinity)).length;
  await new Lanes(program, others, { lanes: 2 }).go();
  fs.writeFileSync(`${folder}/others.tsv`, await tableOf(others, "p"));
  // A time that ends at once, and then a longer one.
  const late = (await rowsOf()).slice(0, 2);
  await new Lanes(program, late, { lanes: 1, seconds: 0.0001 }).go();
  const words = late.map((it) => PROPERTIES.map((property) => verdictWord(it.judged, property)));
  const left = late.map((it) => [it.isDone(0.0001), it.isDone(100)]);
  await new Lanes(program, late, { lanes: 1, seconds: 100 }).go();
  const after = late.map((it) => PROPERTIES.map((property) => verdictWord(it.judged, property)));
  const seek = (words) => rows.filter((it) => it.fits(askedFor(words), {})).map((it) => it.number);
  const sought = ["tu:yes", "unlimited:no 4 to 4", "4-4", "balancers", "turbo", "nothing like this"].map(seek);
  fs.writeSync(1, JSON.stringify({ again, widest, half, words, left, after, sought }));
};
main();
"""
GUARD = """
const { cells, marked } = JSON.parse(require("fs").readFileSync(0, "utf8"));
require("fs").writeSync(1, JSON.stringify([cells.map(cellText), marked.map(inWords)]));
"""
COMPARED = "place property verdict steps known_as ends bare opened design_digest".split()


def told(text):
    return list(csv.DictReader(io.StringIO(text), delimiter="\t", quoting=csv.QUOTE_NONE))


@needs_node
class Book(unittest.TestCase):
    @classmethod
    def setUpClass(cls):
        cls.book = (EXAMPLES / "collection" / "book.txt").read_text("utf-8")
        with tempfile.TemporaryDirectory() as folder:
            asked = {"path": str(program_path()), "book": cls.book, "folder": folder}
            cls.told = json.loads(run_scripts(NAMES, DRIVER, json.dumps(asked).encode()))
            cls.table, cls.others = (Path(folder, it).read_text("utf-8") for it in ("results.tsv", "others.tsv"))
            cls.archive = Path(folder, "all.zip").read_bytes()

    def test_the_table_is_that_of_the_report(self):
        with tempfile.TemporaryDirectory() as folder:
            words = [
                sys.executable,
                "-B",
                "-m",
                "collection",
                str(EXAMPLES / "collection" / "book.txt"),
                "-o",
                folder,
                "--program",
                str(program_path()),
            ]
            subprocess.run(words, cwd=TOP, check=True, stderr=subprocess.DEVNULL)
            theirs = told(Path(folder, "results.tsv").read_text("utf-8"))
        ours = told(self.table)
        self.assertEqual(list(ours[0]), report.COLUMNS)

        def rows(them):
            return sorted(
                [it[name] for name in COMPARED]
                for it in them if it["property"] != "smaller" and it["verdict"] != "refused"
            )

        self.assertEqual(rows(ours), rows(theirs))
        self.assertEqual({it["accepted"] for it in ours if it["verdict"] in ("yes", "no")}, {"yes"})
        self.assertEqual(
            sum(it["verdict"] == "refused" for it in ours), sum(it["verdict"] == "refused" for it in theirs)
        )

    def test_certificates_are_what_the_program_writes(self):
        archive = zipfile.ZipFile(io.BytesIO(self.archive))
        self.assertIsNone(archive.testzip())
        names = archive.namelist()
        self.assertEqual(archive.read("results.tsv").decode(), self.table)
        shown = [it for it in told(self.table) if it["file"]]
        self.assertGreater(len(shown), 40)
        for it in shown:
            design = next(name for name in names if name.startswith(it["file"].rpartition("/")[0] + "/design."))
            asked = subprocess.run(
                [program_path(), "decide", it["property"]],
                input=archive.read(design),
                stdout=subprocess.PIPE,
                check=False,
            )
            self.assertEqual(archive.read(it["file"]), asked.stdout, it["file"])

    def test_it_stops_and_goes_on(self):
        self.assertEqual(self.told["again"], 0)
        self.assertLess(self.told["half"], len({it["place"] for it in told(self.table)}))
        timeless = [{name: it[name] for name in it if name != "clock_seconds"} for it in told(self.table)]
        self.assertEqual(
            [{name: it[name] for name in it if name != "clock_seconds"} for it in told(self.others)], timeless
        )
        self.assertEqual(self.told["widest"], 3)

    def test_time_ends(self):
        verdicts = {it for them in self.told["words"] for it in them}
        self.assertLessEqual(verdicts, {"late", "open"})
        self.assertEqual({it for them in self.told["after"] for it in them} - {"yes", "no"}, set())

    def test_what_is_searched_is_found(self):
        unlimited, failed, four, named, turbo, none = self.told["sought"]
        rows = told(self.table)
        places = list(dict.fromkeys(it["place"] for it in rows))

        def placed(those):
            return sorted(places.index(it["place"]) + 1 for it in rows if those(it))

        self.assertEqual(unlimited, placed(lambda it: it["property"] == "unlimited" and it["verdict"] == "yes"))
        self.assertLessEqual(
            set(failed), set(placed(lambda it: it["property"] == "unlimited" and it["verdict"] == "no"))
        )
        self.assertLessEqual(
            set(placed(lambda it: it["property"] == "unlimited" and it["verdict"] == "no" and it["ends"] == "4 to 4")),
            set(failed),
        )
        self.assertTrue(set(failed) <= set(four) and named and turbo)
        self.assertEqual(none, [])

    def test_no_cell_is_a_formula(self):
        texts = [
            "=1+1",
            " =1",
            "'=1",
            '"=1"',
            "＝1",
            "+1",
            "-",
            "-1",
            "@a",
            "＠a",
            "－1",
            "a=1",
            "",
            "\u200b=1",
            "\t=2",
            "−3",
            "4 to 4",
        ]
        marks = [
            "[item=iron-plate] 4 to 4",
            "[color=red]red[/color] [font=default-bold]b[/font]",
            "[virtual-signal=signal-1]",
            "plain [x",
            "[img=item/belt]",
        ]
        ours, words = json.loads(run_scripts(NAMES, GUARD, json.dumps({"cells": texts, "marked": marks}).encode()))
        self.assertEqual(words, [labels.in_words(it) for it in marks])
        self.assertEqual(ours, [report.cell(it) for it in texts])
        for cell in ours:
            self.assertTrue(cell in ("-", "") or cell[0] not in "=+-@＝＋－＠\t\"", cell)


if __name__ == "__main__":
    unittest.main()
