"""The page as one file: the program, the examples, the scripts and the style in one text that loads nothing."""

import base64
import hashlib
import json
import lzma
import re
import struct
from pathlib import Path

HERE = Path(__file__).resolve().parent
TOP = HERE.parent
EXAMPLES = TOP / "examples"
FIRST = "strings unpacking boot".split()
"""What unpacks the rest, and is all that stands in the page as it is written here."""

SCRIPTS = (
    "words books design trace picture states refusals entities links rigs cleaning labels ends leading openings inputs"
    " reading runs sentences judging networks graph saving lanes dom drawing table asking wishes page"
).split()
"""What is packed with the program, and put into the page by its own text, whose digest the page's policy names."""

READER = "strings words books design refusals inputs reading".split()
"""What reads what was given, in a thread of its own."""

PICTURE_RULES = re.compile(r"^\.body\{.*?(?=^@media)", re.M | re.S)
COLORS = re.compile(r"^:root\{.*?\n(?=\*\{)", re.M | re.S)
MOST_BYTES = 650_000


COMMENT = re.compile(r"^\s*(?://.*|/\*\*(?:[^*]|\*(?!/))*\*/)$", re.M)
"""A comment that has its lines for itself."""


def stripped(script):
    """A script without such comments and without its indentation: in none of them a text goes over several lines."""
    return "\n".join(line.strip() for line in COMMENT.sub("", script).splitlines() if line.strip())


def data():
    """What the scripts read of data that others read too: what can't touch a belt, the words and numbers that the
    report has too, and the sentences that state a verdict."""
    tiles, words = (
        json.loads((TOP / "collection" / f"{it}.json").read_text("utf-8")) for it in ("bystanders", "words")
    )
    sentences = json.loads((HERE / "sentences.json").read_text("utf-8"))["page"]
    told = {
        "BYSTANDER_TILES": tiles["tiles"],
        "WORDS": {k: it for k, it in words.items() if k != "what"},
        "SENTENCES": sentences,
    }
    return [f"const {name} = {json.dumps(it, separators=(',', ':'), ensure_ascii=False)};" for name, it in told.items()]


def joined(names, listed):
    return "\n".join(
        ['"use strict";', *listed, *(stripped((HERE / f"{name}.js").read_text("utf-8")) for name in names)]
    )


def scripts(names):
    """These scripts, which share their names, as one, behind their data."""
    return joined(names, data())


def picture_style():
    """The colours of pictures and their rules, which are those of the report: a picture that is saved has them too."""
    report = (TOP / "collection" / "report.css").read_text("utf-8")
    shared = [COLORS.search(report), PICTURE_RULES.search(report)]
    if None in shared:
        raise ValueError("the colours or the rules of pictures aren't where they are sought in the report's style")
    return "".join([*(it.group() for it in shared), (HERE / "graph.css").read_text("utf-8")])


def samples():
    """The examples that can be chosen: each with its name and its text."""
    lines = (HERE / "samples.txt").read_text("utf-8").splitlines()
    named = [line.split(maxsplit=1) for line in lines]
    return [{"name": name, "text": (EXAMPLES / file).read_text("utf-8")} for file, name in named]


def spelled(data):
    """Bytes in base 85, four of them in five characters, none of which can end an element."""
    return base64.b85encode(data).decode().replace("<", ",")


def despelled(text):
    """The bytes that are spelled so."""
    return base64.b85decode(text.replace(b",", b"<"))


PACKING = [{"id": lzma.FILTER_LZMA1, "preset": 9 | lzma.PRESET_EXTREME, "lc": 4, "lp": 0, "pb": 0, "dict_size": 2**22}]
"""What unpacking.js knows: a raw stream, with four bits of the byte before as its context, and no place."""


def squeezed(data):
    """Bytes, packed: their length in four bytes, and the stream."""
    return spelled(struct.pack("<I", len(data)) + lzma.compress(data, lzma.FORMAT_RAW, filters=PACKING))


def unsqueezed(text):
    """The bytes that were packed so."""
    return lzma.decompress(despelled(text)[4:], lzma.FORMAT_RAW, filters=PACKING)


def packed(module, script):
    """The scripts, the examples and the program, packed: the length of the former in four bytes, their JSON, and the
    module."""
    texts = {"script": script, "reader": scripts(READER), "samples": samples()}
    told = json.dumps(texts, separators=(",", ":")).encode()
    return squeezed(struct.pack("<I", len(told)) + told + module)


def unpacked(page):
    """A page with what is packed in it as it was before: what compresses it may differ from machine to machine."""
    found = re.search(rb'(<script type="application/octet-stream" id="program">)([^<]*)', page)
    return page[: found.start(2)] + unsqueezed(found.group(2)) + page[found.end(2) :]


def hash_of(text):
    return f"'sha256-{base64.b64encode(hashlib.sha256(text.encode()).digest()).decode()}'"


def policy(script_texts, style_texts):
    """What the page may do: run its own scripts and its worker, and show its own styles; and load nothing."""
    rules = {
        "default-src": "'none'",
        "script-src": f"{' '.join(map(hash_of, script_texts))} 'wasm-unsafe-eval'",
        "style-src": " ".join(map(hash_of, style_texts)),
        "worker-src": "blob:",
        "img-src": "data:",
        "base-uri": "'none'",
        "form-action": "'none'",
    }
    return "; ".join(f"{name} {value}" for name, value in rules.items())


def page_of(module):
    """The whole page around this module."""
    written = (HERE / name for name in ("style.css", "worker.js"))
    style, worker = (it.read_text("utf-8") for it in written)
    texts = {"drawn": picture_style(), "style": style, "script": joined(FIRST, []), "worker": stripped(worker)}
    for name, text in texts.items():
        if re.search(r"</(?:script|style)|<!--", text):
            raise ValueError(f"the {name} holds a mark that would end it")
    rest = scripts(SCRIPTS)
    texts |= {"policy": policy([texts["script"], rest], [texts["drawn"], style]), "program": packed(module, rest)}
    template = (HERE / "template.html").read_text("utf-8")
    whole = re.sub(rf"\{{({'|'.join(texts)})\}}", lambda found: texts[found.group(1)], template)
    return whole.encode()


def module_of(page):
    """The program in a page."""
    found = re.search(rb'<script type="application/octet-stream" id="program">([^<]*)', page)
    whole = unsqueezed(found.group(1))
    (length,) = struct.unpack_from("<I", whole)
    return whole[4 + length :]
