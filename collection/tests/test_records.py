"""What is said of designs that may be records, and the table of records."""

import json

from .. import balancers, built, inputs, known, records
from ..program import find
from . import Case, belt, blueprint, program_path


class Records(Case):
    def test_the_page_is_that_of_the_book(self):
        self.assertEqual(records.PAGE.read_text(), records.page_of(records.records_of(self.book())))

    def book(self):
        return inputs.designs_of([str(records.BOOK)])

    def test_labels_name_kinds(self):
        for label, kinds in (
            ("3 to 5 output balanced", ["output"]),
            ("3 to 5 balanced", ["output", "balanced"]),
            ("1 to 1 balanced, TU, universal", list(built.KINDS)),
        ):
            self.assertEqual(records.kinds_of(label), kinds)

    def test_a_design_beats_what_is_known_by_tiles_and_then_by_splitters(self):
        maker = built.Maker(find(program_path()), self.folder, 0)
        [design] = [it for it in balancers.designed_in([str(records.BOOK)]) if '"2 to 4 balanced' in it]
        cells = known.known_of(maker, design).cells
        for now, beats in (((cells, 4), True), ((cells, 3), False), ((cells + 1, 1), True), ((cells - 1, 9), False)):
            lines, is_record = records.lines_about(maker, design, {("output", 2, 4): now, ("balanced", 2, 4): (1, 1)})
            self.assertEqual(is_record, beats)
            self.assertIn(f"2 to 4 output balanced in {cells} tiles, 3 splitters; {now[0]} tiles", lines[0])
            self.assertEqual(lines[1].split(":")[0], "no record")

    def test_what_is_no_balancer_and_what_is_not_in_rows_is_no_record(self):
        maker = built.Maker(find(program_path()), self.folder, 0)
        apart = blueprint(belt(0, 0), belt(2, 0))
        self.assertIn("side by side", records.lines_about(maker, apart, {})[0][0])
        beside = blueprint(belt(0, 0), belt(1, 0))
        told = ["no record: it is no balancer of a kind of the book"]
        self.assertEqual(records.lines_about(maker, beside, {}), (told, False))
        self.assertEqual(json.loads(known.turned_round(beside))["blueprint"]["item"], "blueprint")
