"""Strings, books, files and names."""

import base64
import json
import os
import zlib
from importlib.machinery import SourceFileLoader
from importlib.util import module_from_spec, spec_from_loader

from .. import books, files, inputs, strings
from . import BOOK, Case, belt, blueprint


def book(*entries, label=None):
    members = {"blueprints": [json.loads(it) for it in entries], **({"label": label} if label else {})}
    return json.dumps({"blueprint_book": members})


class Strings(Case):
    def test_a_string_gives_what_it_was_made_of(self):
        data = blueprint(belt(0, 0)).encode()
        self.assertEqual(strings.inflate(strings.deflate(data)), data)
        self.assertEqual(strings.inflate("  " + strings.deflate(data) + "\r"), data)

    def test_damaged_strings_say_why(self):
        whole = strings.deflate(b'{"blueprint":{}}' * 40)
        packed = base64.b64decode(whole[1:])
        cases = {
            "": "version byte",
            "1" + whole[1:]: "version byte",
            "0%%%%": "no base64",
            "0é": "no base64",
            whole[:-3]: "no base64",
            "0" + base64.b64encode(b"no zlib").decode(): "doesn't inflate",
            "0" + base64.b64encode(packed[:-6]).decode(): "ends too early",
            "0" + base64.b64encode(packed[:-1] + b"!").decode(): "doesn't inflate",
            "0" + base64.b64encode(packed + b"more").decode(): "more follows",
        }
        for string, why in cases.items():
            with self.subTest(string=string[:20]), self.assertRaisesRegex(strings.Damaged, why):
                strings.inflate(string)

    def test_a_bomb_is_refused(self):
        pack = zlib.compressobj(9)
        bomb = b"".join(pack.compress(bytes(1 << 20)) for _ in range(80)) + pack.flush()
        with self.assertRaisesRegex(strings.Damaged, "past 32 MB"):
            strings.inflate("0" + base64.b64encode(bomb).decode())


class Books(Case):
    def test_names_are_places(self):
        text = book(
            blueprint(label="one"),
            book(blueprint(), blueprint(label="two"), label="inner"),
            book(blueprint(label="three")),
            '{"upgrade_planner": {"label": "plan"}}',
            label="outer",
        )
        found, fault = books.entries(text)
        self.assertIsNone(fault)
        names = [("/".join(it.path()), ".".join(map(str, it.place())), it.title()) for it in found]
        self.assertEqual(
            names,
            [
                ("one", "1", "outer"),
                ("inner/1", "2.1", "outer"),
                ("inner/two", "2.2", "outer"),
                ("3/three", "3.1", "outer"),
                ("plan", "4", "outer"),
            ],
        )

    def test_texts_stay_byte_for_byte(self):
        odd = '{ "blueprint" : {"entities":[ ], "entities":[1.50e2], "version":1 } ,"index": 7}'
        found, fault = books.entries('{"blueprint_book":{"label":"é","blueprints":[' + odd + ' , {}\n]}}')
        self.assertIsNone(fault)
        self.assertEqual([it.text for it in found], [odd, "{}"])

    def test_depth_is_no_matter(self):
        depth = 100
        text = '{"blueprint_book":{"blueprints":[' * depth + "{}" + "]}}" * depth
        found, fault = books.entries(text)
        self.assertIsNone(fault)
        self.assertEqual((len(found), len(found[0].place())), (1, depth))

    def test_what_stands_before_a_fault_is_kept(self):
        whole = book(blueprint(label="a"), blueprint(label="b"), blueprint(label="c"))
        found, fault = books.entries(whole[: whole.index('"label": "c"')])
        self.assertEqual([it.label for it in found], ["a", "b"])
        self.assertIn("damaged", fault)
        cases = {
            whole + "x": "more follows",
            "[" * 100000: "nested too deep",
            '{"blueprint_book":{"blueprints":[{}': "expected",
        }
        for text, why in cases.items():
            self.assertIn(why, books.entries(text)[1])


class Files(Case):
    def found(self, *paths):
        return [(it.name, it.source, it.trouble) for it in inputs.designs_of(list(map(str, paths)), self.report)]

    def test_a_folder_is_read_whole(self):
        self.write("in/a.json", blueprint(belt(0, 0)))
        self.write("in/deep/er/b.net", "net 1 1 0\nedge i0 o0\nend\n")
        self.write("in/deep/c.txt", "\n" + strings.deflate(blueprint(label="named").encode()) + "\n\n0broken\n")
        self.write("in/d.md", "# words")
        self.write("in/e", b"")
        self.write("in/f.json", b'\xef\xbb\xbf  {"a"')
        os.mkfifo(self.folder / "in" / "pipe")
        told = self.found(self.folder / "in")
        none = "it is no blueprint string, no JSON and no network text"
        self.assertEqual(
            [(name, source) for name, source, _ in told],
            [
                ("a", "in/a.json"),
                ("d", "in/d.md"),
                ("e", "in/e"),
                ("f", "in/f.json"),
                ("pipe", "in/pipe"),
                ("named", "in/deep/c.txt"),
                ("deep/c, line 4", "in/deep/c.txt"),
                ("deep/er/b", "in/deep/er/b.net"),
            ],
        )
        troubles = [trouble for _, _, trouble in told]
        self.assertEqual(troubles[:6], [None, none, none, None, "it can't be read: it is no file", None])
        self.assertIn("doesn't inflate", troubles[6])
        with self.assertRaisesRegex(inputs.NotThere, "missing.txt: there is no such file or folder"):
            self.found(self.folder / "in", self.folder / "missing.txt")

    def test_a_book_in_which_nothing_stands_is_told_of(self):
        for inside in ('"blueprints":[]', '"label":"b"', '"blueprints":[{"blueprint_book":{}}]'):
            path = self.write("book.json", '{"blueprint_book":{%s}}' % inside)
            self.assertEqual(self.found(path), [("book", "book.json", "it is a book in which nothing stands")])

    def test_the_report_is_not_read(self):
        self.write("in/a.net", "net")
        self.write("in/report/designs/b/design.net", "net")
        self.report = self.folder / "in" / "report"
        self.assertEqual([it[0] for it in self.found(self.folder / "in")], ["a"])

    def test_the_book_of_examples_is_what_its_maps_show(self):
        loader = SourceFileLoader("make_book", str(BOOK.parent / "make_book"))
        made = module_from_spec(spec_from_loader("make_book", loader))
        loader.exec_module(made)
        self.assertEqual(json.loads(strings.inflate(BOOK.read_text())), made.book())


class Names(Case):
    NAMES = {
        "../../etc/passwd": "etc-passwd",
        "..": "design",
        "": "design",
        "a/b\\c": "a-b-c",
        "<script>alert(1)</script>": "script-alert-1-script",
        "tab\tand\nline\x00": "tab-and-line",
        "Ünïcode 4→4": "unicode-4-4",
        "x" * 500: "x" * 80,
        "CON.": "con",
    }

    def test_folders_are_named_plainly(self):
        for name, word in self.NAMES.items():
            self.assertEqual(files.slug(name), word)

    def test_no_two_folders_have_one_name(self):
        taken = set()
        for name in ("4 to 4", "4-to-4", "4 TO 4"):
            taken.add(files.free_name(name, taken))
        self.assertEqual(taken, {"4-to-4", "4-to-4-2", "4-to-4-3"})

    def test_what_steers_a_terminal_or_a_page_is_told_as_numbers(self):
        self.assertEqual(files.plain("a\x1b[31m\n\u202eb\ud800"), "a\\u001b[31m\\u000a\\u202eb\\ud800")
