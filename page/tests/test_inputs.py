"""What is pasted or dropped: strings however they are wrapped, books, JSON, network texts, and what is none of
these."""

import base64
import json
import time
import unittest
import zlib

from collection import inputs
from collection.strings import deflate
from collection.tests import BOOK, belt, blueprint

from . import EXAMPLES, needs_node, run_scripts

NAMES = ["strings", "words", "books", "design", "refusals", "inputs"]
DRIVER = """
const fs = require("fs");
const asked = JSON.parse(fs.readFileSync(0, "utf8"));
const main = async () => {
  const answers = [];
  for (const it of asked) {
    const bytes = new Uint8Array(Buffer.from(it, "base64"));
    const began = performance.now();
    const found = await designsIn(bytes, "pasted");
    const designs = found.map(({ name, books, place, bytes, trouble = null }) => {
      const text = bytes && Buffer.from(bytes).toString("base64");
      return { name, books: books.join("/"), place, text, trouble };
    });
    answers.push({ designs, seconds: (performance.now() - began) / 1000 });
  }
  const [{ seconds, designs }] = answers;
  const isShort = answers.length > 1 || designs.length < 2000;
  fs.writeSync(1, JSON.stringify(isShort ? answers : [{ seconds, count: designs.length }]));
};
main();
"""


def book(*designs, label="outer"):
    return {"blueprint_book": {
        "item": "blueprint-book", "label": label, "blueprints": [{"index": n, **it} for n, it in enumerate(designs)]
    }}


def wrapped(string, width=60, start=""):
    return "\n".join(start + string[at : at + width] for at in range(0, len(string), width))


def hostile():
    """Labels, books and members as one would write them who wants a program to hang, in moderate sizes."""
    long = "\u202f" + "[x" * 3000 + "😀"
    inner = {"blueprint": {"label": long}}
    for number in range(60):
        inner = {"blueprint_book": {"label": f"{number} " + "a" * 1000, "blueprints": [inner]}}
    yield json.dumps(inner)
    yield json.dumps(book(*({"blueprint": {"label": f" {it} "}} for it in range(2100))))
    yield json.dumps({"blueprint": {"label": long, "entities": []}})
    yield '{"blueprint_book":{"blueprints":[' * 99 + '{"blueprint":{}}' + "]}}" * 99
    yield '{"blueprint_book":{"blueprints":[' * 101 + '{"blueprint":{}}' + "]}}" * 101
    yield "[" * 1_000_001
    yield '{"blueprint":{"entities":[' + "," * 2_000_001
    yield '{"blueprint":{"label":"' + "a" * (4 << 20) + '"}}'


def given(texts):
    return json.dumps(
        [base64.b64encode(it if isinstance(it, bytes) else it.encode()).decode() for it in texts]
    ).encode()


@needs_node
class Inputs(unittest.TestCase):
    def ask(self, *texts):
        return json.loads(run_scripts(NAMES, DRIVER, given(texts)))

    def test_each_way_to_paste_gives_the_design(self):
        text = (EXAMPLES / "balancer-4-to-4.json").read_bytes()
        string = deflate(text)
        lines = {
            "as it is": string,
            "blanks around": f"  \n{string}\r\n\n",
            "wrapped": wrapped(string),
            "wrapped, CRLF": wrapped(string).replace("\n", "\r\n"),
            "quoted": wrapped(string, start="> "),
            "words around": f"Look at this balancer:\n\n{string}\n\nIsn't it fine? 0 to 4.",
            "in a line": f"my balancer is {string} and works",
            "fenced": f"```\n{string}\n```",
            "fenced and wrapped": f"here:\n```text\n{wrapped(string)}\n```\nbye",
            "no padding": string.rstrip("="),
            "mark of order": b"\xef\xbb\xbf" + string.encode(),
            "JSON": text,
            "JSON, fenced": b"```json\n" + text + b"```\n",
            "JSON with words": b"this is it: " + text + b" and that was it",
        }
        for name, it in zip(lines, self.ask(*lines.values()), strict=True):
            with self.subTest(name):
                self.assertEqual(len(it["designs"]), 1)
                self.assertEqual(json.loads(base64.b64decode(it["designs"][0]["text"])), json.loads(text))

    def test_books_are_those_of_the_report(self):
        deep = '{"blueprint_book":{"blueprints":[' * 5000 + '{"blueprint":{"label":"deep"}}' + "]}}" * 5000
        alone = blueprint(belt(0, 0))
        texts = [
            BOOK.read_bytes(),
            json.dumps(book(
                json.loads(blueprint(belt(0, 0), label="one")),
                {"upgrade_planner": {}},
                book({"blueprint": {"label": "\u202etwo"}}, label="in"),
            )),
            deep,
            json.dumps({"blueprint_book": {"blueprints": [
                {"index": it, **json.loads(alone)} for it in (0, 7, 7, -1, 1.0, True, "3", None, 10**30)
            ]}}),
            '{"blueprint_book":{"blueprints":[{"blueprint":{},"index":4},{"index":-0,"blueprint":{}},'
            '{"index":5,"blueprint":{},"index":[]}]}}',
            json.dumps(book(book(json.loads(alone), label=""), book(json.loads(alone), label=5))),
            '{"blueprint_book":{"blueprints":[{"blueprint_book":{"blueprints":[{"blueprint":{}}]},"index":9}]}}',
            '{"blueprint_book":{"blueprints":[{"blueprint":{"label":"a","label":5}},{"blueprint":{"label":" "}}]}}',
            '{"blueprint_book":{"blueprints":[{"blueprint":{"label":"a"}},{"blueprint":{"label":"b"},]}}',
            '{"blueprint_book":{"label":"x","blueprints":[]}}',
            '{"blueprint_book":{"blueprints":[{"blueprint":{"label":"a \\u00e9 \\" ]"}}]}} more',
            '{"blueprint":{"label":"alone"}}',
            '{"blueprint":',
            "[]",
            *hostile(),
        ]
        for text, it in zip(texts, self.ask(*texts), strict=True):
            data = text if isinstance(text, bytes) else text.encode()
            theirs = inputs.from_bytes(data, "pasted", "pasted")
            with self.subTest(text=text[:60]):
                self.assertEqual(len(it["designs"]), len(theirs))
                for ours, other in zip(it["designs"], theirs):
                    self.assertEqual((ours["text"] and base64.b64decode(ours["text"])), other.text)
                    if other.text is not None:
                        self.assertEqual(
                            (ours["name"], ours["books"], ours["place"]), (other.label(), other.books, other.place)
                        )
                    else:
                        self.assertTrue(ours["trouble"])

    def test_what_is_no_design_is_told(self):
        bomb = "0" + base64.b64encode(zlib.compress(b"[" * (65 << 20), 9)).decode()
        cases = {
            "what": "no blueprint string",
            "1eNqrVg": "version byte",
            "0eNq*": "damaged",
            "0" + "e" * 30: "damaged",
            deflate(b"{}")[:-12]: "damaged",
            deflate(b"[1]"): "no object of JSON",
            bomb: "past 32 MB",
        }
        began = time.monotonic()
        for (text, why), it in zip(cases.items(), self.ask(*cases), strict=True):
            with self.subTest(text=text[:40]):
                self.assertEqual([one["text"] for one in it["designs"]], [None])
                self.assertIn(why, it["designs"][0]["trouble"])
        self.assertLess(time.monotonic() - began, 60)
        self.assertEqual([it["designs"] for it in self.ask("", " \n ")], [[], []])

    def test_a_large_book_is_opened(self):
        text = (EXAMPLES / "splitter-2-to-2.json").read_text()
        most = inputs.NUMBERS["most_designs"]
        # Of more the fault stands behind those that are read.
        for count, told in ((3000, most + 1), (most + 1, most + 1), (most, most)):
            whole = json.dumps(book(*([json.loads(text)] * count)))
            found = self.ask(deflate(whole.encode()))
            self.assertEqual(found[0]["count"], told)


if __name__ == "__main__":
    unittest.main()
