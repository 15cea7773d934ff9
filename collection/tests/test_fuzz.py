"""Files that nobody would publish: each is told or refused, with a report."""

import time

from .. import files, report, strings
from ..books import entries
from . import Case, blueprint, belt, fuzz, run

SEEDS = range(24)


class Hostile(Case):
    def test_each_seed(self):
        self.assertEqual(list(fuzz.throw(self.fake(), SEEDS)), [])

    def test_a_long_label_is_cut_and_so_is_said(self):
        self.write("in.json", blueprint(belt(0, 0), label="4" + "-" * 60_000))
        begin = time.monotonic()
        run(self.folder / "in.json", "-o", self.report, "--program", self.fake())
        self.assertLess(time.monotonic() - begin, 10)
        (name,) = {it["design"] for it in self.results()}
        self.assertEqual(name, "4" + "-" * 199 + "… (59801 signs more)")
        self.assertLess(len((self.report / "index.html").read_text()), 200_000)

    def test_long_labels_of_books_are_told_as_their_numbers(self):
        text = '{"blueprint_book":{"label":"%s","blueprints":[' % ("b" * 150) * 8 + "{}" + "]}}" * 8
        (found,), fault = entries(text)
        self.assertEqual((found.path(), fault), (["1"] * 8, None))
        deep = '{"blueprint_book":{"blueprints":[' * 102 + "]}}" * 102
        self.assertIn("more than 100 books stand in one another", entries(deep)[1])

    def test_more_designs_than_are_read(self):
        text = '{"blueprint_book":{"blueprints":[%s]}}' % ",".join(["{}"] * 2001)
        found, fault = entries(text)
        self.assertEqual((len(found), fault), (2000, "more than 2000 designs stand here"))
        for most in (1999, 2000):
            found, fault = entries('{"blueprint_book":{"blueprints":[%s]}}' % ",".join(["{}"] * most))
            self.assertEqual((len(found), fault), (most, None))
        string = strings.deflate(b'{"blueprint":{}}')
        for count, told in ((2000, [None]), (2001, [None, "more than 2000 designs stand here"])):
            found = list(strings.find("\n".join([string] * count)))
            self.assertEqual((len(found), sorted({it.trouble for it in found}, key=str)), (count, told))
        self.assertEqual(len(list(strings.find("0e" + "A" * 30 + "! "))), 1)

    def test_what_a_spreadsheet_takes_for_a_formula(self):
        for text in ("=1", "+1", "-1", "@a", '"=1"', "'=1", "＝1", " =1", "＠a", "''=1", '"a"'):
            self.assertEqual(report.cell(text), f"'{text}")
        for text in ("-", "4-4", "a=1", "", 0, 1.5):
            self.assertEqual(report.cell(text), str(text))

    def test_many_names_are_found_soon(self):
        taken, counts, begin = set(), {}, time.monotonic()
        for _ in range(20_000):
            taken.add(files.free_name("4 to 4", taken, counts))
        self.assertEqual(len(taken), 20_000)
        self.assertLess(time.monotonic() - begin, 5)
