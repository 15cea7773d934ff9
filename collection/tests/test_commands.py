"""The commands as they are started: each way to paste, and what is wrong with what is given."""

import json
import os
import shutil
import subprocess

from .. import inputs, strings
from . import BOOK, EXAMPLES, TOP, Case, belt, blueprint, program_path, run

WORDS = "Here is my balancer:"
TEXT = blueprint(belt(0, 0), label="Ü 1→1").encode()
LONG = json.dumps({"blueprint": {**json.loads(TEXT)["blueprint"], "description": "".join(map(chr, range(300, 2000)))}})


def wrapped(string, width=60, end="\n"):
    return end.join(string[at : at + width] for at in range(0, len(string), width))


class Pasting(Case):
    def found(self, text):
        data = text if isinstance(text, bytes) else text.encode()
        return inputs.from_bytes(data, "name", "source")

    def test_each_way(self):
        for whole in (TEXT, LONG.encode()):
            string = strings.deflate(whole)
            bare = string.rstrip("=")
            ways = {
                "as it is": string,
                "with blanks": f"  \n{string} \n\n",
                "with CRLF": f"{string}\r\n",
                "wrapped": wrapped(string),
                "wrapped with CRLF": wrapped(string, 76, "\r\n") + "\r\n",
                "indented": "    " + wrapped(string, 60, "\n    "),
                "without padding": bare,
                "without padding, wrapped": wrapped(bare) + "\n",
                "in a fence": f"```\n{string}\n```\n",
                "in a fence with a word": f"```text\n{wrapped(string)}\n```",
                "in a fence among words": f"{WORDS}\n\n```\n{wrapped(bare)}\n```\n\nThanks\n",
                "behind words": f"{WORDS} {string}",
                "among words": f"{WORDS}\n{wrapped(string)}\nThanks in advance\n",
                "in quotes": f'"{string}"',
                "in a mark of code": f"see `{bare}`, which is it.",
                "with a mark of the byte order": "\ufeff" + string,
            }
            for way, text in ways.items():
                with self.subTest(way=way, length=len(string)):
                    (design,) = self.found(text)
                    self.assertEqual((design.text, design.trouble, design.label()), (whole, None, "Ü 1→1"))

    def test_json_and_network_texts_among_words(self):
        net = "net 1 1 0\nedge i0 o0\nend\n"
        self.assertEqual(self.found(net.replace("\n", "\r\n"))[0].text, net.encode())
        self.assertEqual(self.found(f"```\n{net}```\n")[0].text, net.encode())
        for text in (f"```json\n{TEXT.decode()}\n```", f"{WORDS}\n{TEXT.decode()}\nThanks"):
            (design,) = self.found(text)
            self.assertEqual((json.loads(design.text), design.label()), (json.loads(TEXT), "Ü 1→1"))

    def test_several_strings(self):
        one, two = (strings.deflate(blueprint(belt(0, k), label=f"d{k}").encode()) for k in (1, 2))
        for text in (f"{one}\n{two}", f"{wrapped(one)}\n{wrapped(two)}\n", f"first {one} then {two}.", f"{one},{two}"):
            self.assertEqual([it.name for it in self.found(text)], ["d1", "d2"])
        broken = self.found(f"{one}\n0broken\n{two[:-9]}\n\nwords\n{two}")
        self.assertEqual([it.name for it in broken], ["d1", "name, line 2", "name, line 3", "d2"])
        self.assertEqual([it.text is None for it in broken], [False, True, True, False])

    def test_what_is_damaged_says_why(self):
        string = strings.deflate(LONG.encode())
        cases = {
            string[:-40]: "ends too early",
            wrapped(string[:-40]): "ends too early",
            string[:100] + "%" + string[100:]: "it is no base64 where '%' stands",
            string[:100] + "AAAA" + string[104:]: "doesn't inflate",
            string.rstrip("=") + "AAAA": "more follows",
            "1" + string[1:]: "version byte",
            "words alone": "it is no blueprint string",
            strings.deflate(b"[]"): "no object of JSON",
            "": "it is no blueprint string",
        }
        for text, why in cases.items():
            with self.subTest(why=why):
                self.assertIn(why, self.found(text)[0].trouble)


class Started(Case):
    """The commands, started as a user starts them, in a locale that knows no UTF-8."""

    def start(self, name, *words, given=b""):
        environment = {**os.environ, "LC_ALL": "C", "PYTHONUTF8": "0"}
        command = [TOP / "bin" / name, *map(str, words)]
        ended = subprocess.run(command, input=given, capture_output=True, env=environment, cwd=self.folder, check=False)
        return ended.returncode, ended.stdout.decode(), ended.stderr.decode()

    def test_a_collection_is_read_from_everywhere(self):
        file = self.write("Größe.txt", wrapped(strings.deflate(blueprint(belt(0, 2), label="→ file").encode())))
        word = strings.deflate(blueprint(belt(0, 1), label="Ü 1→1").encode())
        given = blueprint(belt(0, 0), label="über -").encode()
        status, out, wrong = self.start("collection", file, "-", word, "-o", "report", given=given)
        self.assertEqual((status, wrong), (0, ""))
        self.assertIn("3 found, 3 with a network: 18 yes", out)
        self.assertEqual({it["design"] for it in self.results()}, {"über -", "Ü 1→1", "→ file"})
        self.assertIn("Größe.txt", self.page())
        self.assertEqual({it["source"] for it in self.results()}, {"Größe.txt", "argument 3", "standard input"})

    def test_a_path_that_is_not_there(self):
        status, out, wrong = self.start("collection", "none.txt", "no/where", EXAMPLES, "-o", "report")
        told = "".join(f"collection: {it}: there is no such file or folder\n" for it in ("none.txt", "no/where"))
        self.assertEqual((status, out, wrong, list(self.folder.iterdir())), (1, "", told, []))

    def test_a_folder_that_can_t_be_written(self):
        self.write("file", "")
        belt_ = self.write("belt.json", blueprint(belt(0, 0)))
        status, out, wrong = run(belt_, "-o", self.folder / "file" / "report", "--program", self.fake())
        why = f"{self.folder}/file/report: Not a directory"
        self.assertEqual((status, out, wrong), (1, "", f"collection: the report can't be written: {why}\n"))

    def test_nothing_but_broken_input(self):
        for given in (b"", b"words", b"0broken", b"{", b'{"a":1}'):
            status, _, wrong = self.start("collection", "-", "-o", "report", given=given)
            self.assertEqual(status, 1, given)
            self.assertIn("collection: standard input: ", wrong)
            self.assertIn("there is no design in what was given", wrong)
        self.assertEqual([it.name for it in self.folder.iterdir()], ["report"])

    def test_bare_ends_opens_one_design(self):
        given = blueprint({"name": "splitter", "position": {"x": 1, "y": 0.5}}, belt(0, 1), label="é").encode()
        for words, text in (([], given), (["-"], strings.deflate(given).encode()), ([strings.deflate(given)], b"")):
            status, out, wrong = self.start("bare-ends", *words, given=text)
            told = json.loads(out)["blueprint"]
            self.assertEqual((status, len(told["entities"]), told["label"]), (0, 2 + 4, "é"))
            self.assertIn("bare-ends: opened by 1 belt: output at (0, 0)\n", wrong)
            self.assertIn("bare-ends: 2 to 2, and 1 to 0 before\n", wrong)
            self.assertEqual(self.start("beltproof", "recover", given=out.encode())[1].splitlines()[0], "net 2 2 1")
        whole = (EXAMPLES / "balancer-4-to-4.json").read_bytes()
        status, out, wrong = self.start("bare-ends", given=whole)
        told = "bare-ends: no half of a splitter is bare\nbare-ends: 4 to 4\n"
        self.assertEqual((status, out.encode(), wrong), (0, whole, told))

    def test_bare_ends_refuses_in_words(self):
        cases = (
            ([], b"", "it is no blueprint string"),
            ([], b"0broken", "the string is damaged"),
            ([], b"net 1 1 0\nedge i0 o0\nend\n", "a network text has no splitters"),
            ([], BOOK.read_bytes(), "one design is wanted, and there are 18"),
            ([], blueprint(belt(0, 0), belt(0, 0)).encode(), "refused 30 Overlap: entity 1 (transport-belt at tile "),
            ([], b'{"blueprint":', "refused 10 Json"),
            (["nowhere"], b"", "nowhere: there is no such file"),
            (["--program", "nowhere"], TEXT, "nowhere is no program"),
            (["--program", shutil.which("false")], TEXT, "the program wrote no answer, and ended with status 1"),
        )
        for words, given, why in cases:
            with self.subTest(why=why):
                status, out, wrong = self.start("bare-ends", *words, given=given)
                self.assertEqual((status, out, wrong.count("\n")), (1, "", 1))
                self.assertIn(f"bare-ends: {why}", wrong)
        for words in (["a", "b"], ["--treat-as", "x"], ["--bare"]):
            self.assertEqual(self.start("bare-ends", *words)[0], 2)
        self.assertEqual(list(self.folder.iterdir()), [])

    def test_wrong_words_name_the_fault(self):
        for words, told in (
            ([], "a command is wanted"),
            (["dcide"], "dcide is no command; did you mean decide?"),
            (["decide"], "a property is wanted: balanced, "),
            (["decide", "balence"], "balence is no property; did you mean balanced?"),
            (["decide", "balanced", "--no"], "--no is no option of decide"),
            (["decide", "balanced", "--learnt", "x"], "--learnt is a number up to 1000000000, and x is not"),
            (["build", "fair", "65", "65"], "N is from 1 to 64, and 65 is not"),
            (["build", "universal,tu", "3", "3"], "unlimited is wished twice"),
            (["layout"], "--grid WxH is wanted"),
            (["make", "0x"], "K is from 1 to 7, and 0x is not"),
        ):
            with self.subTest(words=words):
                status, out, wrong = self.start("beltproof", *words)
                self.assertEqual((status, out, wrong.count("\n")), (2, "usage\n", 2))
                self.assertIn(f"beltproof: {told}", wrong)
        for words in (["make", "2"], ["decide", "full"], ["recover"]):
            status, _, wrong = self.start("beltproof", *words, given=(EXAMPLES / "one-belt.net").read_bytes())
            self.assertEqual((status, wrong), (0, ""))

    def test_help_fits_a_screen_and_tells_of_one_command(self):
        for words in (["help"], ["--help"], ["help", "nothing"], ["help", "help"]):
            status, out, wrong = self.start("beltproof", *words)
            self.assertEqual((status, wrong, "\n  check-same " in out), (0, "", True))
            self.assertLessEqual(out.count("\n"), 24)
        for words in (["help", "decide"], ["--help", "decide"]):
            status, out, wrong = self.start("beltproof", *words)
            self.assertEqual((status, wrong, "check-same" in out), (0, "", False))
            self.assertIn("bin/beltproof decide PROPERTY [--learnt N] [--pivots N]\n", out)

    def test_the_page_of_commands_is_that_of_the_help_and_its_examples_run(self):
        page = subprocess.run([TOP / "tools" / "help", "--page"], capture_output=True, text=True, check=True).stdout
        self.assertEqual((TOP / "docs" / "COMMANDS.md").read_text(), page)
        examples = [it.strip() for it in page.splitlines() if it.startswith("    ") and "bin/beltproof" in it]
        self.assertEqual(len(examples), page.count("\n## "))
        for it in examples:
            with self.subTest(example=it):
                ended = subprocess.run(
                    ["bash", "-c", it], cwd=TOP, stdin=subprocess.DEVNULL, capture_output=True, check=False
                )
                self.assertIn(ended.returncode, (0, 1))

    def test_the_words_of_the_field_are_taken(self):
        text = (EXAMPLES / "splitter-2-to-2.net").read_bytes()
        for word, name in (("tu", "unlimited"), ("input-balanced", "drawn-evenly"), ("output-balanced", "balanced")):
            told = self.start("beltproof", "decide", word, given=text)
            self.assertEqual(told, self.start("beltproof", "decide", name, given=text))
        built = self.start("beltproof", "build", "universal", "2", "2")[1]
        status, out, _ = self.start("beltproof", "decide", "universal", given=built.encode())
        self.assertEqual(status, 0)
        status, told, _ = self.start("beltproof", "check", "universal", given=(built + out).encode())
        self.assertEqual((status, told), (0, "yes fair\nyes drawn-fairly\nyes unlimited\n"))
        without = out[: out.index("yes unlimited")]
        self.assertEqual(self.start("beltproof", "check", "universal", given=(built + without).encode())[0], 9)
        butterfly = (EXAMPLES / "butterfly-4-to-4.net").read_bytes()
        status, out, _ = self.start("beltproof", "decide", "universal", given=butterfly)
        self.assertEqual((status, out.split("\n")[0]), (1, "no fair"))
        status, out, _ = self.start("beltproof", "check", "universal", given=butterfly + out.encode())
        self.assertEqual((status, out), (1, "no fair\n"))

    def test_the_version_and_the_range_of_a_grid_are_told(self):
        status, out, _ = self.start("beltproof", "--version")
        self.assertEqual(status, 0)
        self.assertRegex(out, r"^beltproof [0-9]+\.[0-9.]+, sources [0-9a-f]{64}\n$")
        self.assertIn(f"\n## {out.split()[1].rstrip(',')}\n", (TOP / "docs" / "CHANGES.md").read_text())
        for grid, is_told in (("0x4", True), ("4x100000000", True), ("999x1", True), ("4x", True)):
            status, out, wrong = self.start("beltproof", "layout", "--grid", grid)
            self.assertEqual((status, out, f"and {grid} is not\n" in wrong), (2, "usage\n", is_told))

    def test_a_string_is_told_which_tool_takes_it(self):
        string, told = BOOK.read_text(), "bin/collection decides it"
        self.assertIn(told, self.start("beltproof", string[:2000])[2])
        status, out, wrong = self.start("beltproof", "decide", "full", given=string.encode())
        self.assertEqual((status, out, told in wrong), (3, "refused 40 NetLine 1\n", True))
        with open(BOOK, "rb") as file:
            ended = subprocess.run([TOP / "bin" / "beltproof", "recover"], stdin=file, capture_output=True, check=False)
        self.assertEqual((ended.returncode, told in ended.stderr.decode()), (3, True))

    def test_what_is_piped_comes_whole(self):
        net = (EXAMPLES / "one-belt.net").read_bytes()
        for given in (net, b"\0" + net, b"\xff", b"\\" + net, b"\n" + net, b"n", b"", b"{", net * 1000):
            ended = subprocess.run([program_path(), "recover"], input=given, capture_output=True, check=False)
            told = ended.returncode, ended.stdout.decode(), ""
            self.assertEqual(self.start("beltproof", "recover", given=given), told)
