"""Runs the page's program under node, as its worker runs it, many times in one process."""

import hashlib
import json
import subprocess
import tempfile
from pathlib import Path

from .. import lower, sheet
from . import NODE

GLOBALS = 6
"""The number of a module's section of globals."""

DRIVER = """
const fs = require("fs");
const crypto = require("crypto");
const [where, cases] = process.argv.slice(2, 4);
const program = new WebAssembly.Module(fs.readFileSync(where));
const all = fs.readFileSync(cases);
const asked = JSON.parse(process.argv[4] ? fs.readFileSync(process.argv[4], "utf8") : "[]");
const told = asked.map(({ words, at, length }) => {
  const ended = answer(program, { words, input: new Uint8Array(all.buffer, all.byteOffset + at, length) });
  const digest = ended.written ? crypto.createHash("sha256").update(ended.written).digest("hex") : "";
  const { status, trouble, why, seconds, memory } = ended;
  return { status, trouble, why, digest, seconds, memory };
});
fs.writeSync(1, JSON.stringify(told));
"""


def by_page(module, cases, seconds=1800):
    """How the page's program ends in each case, which is words and bytes: its status, the digest of what it wrote, or
    what went wrong."""
    with tempfile.TemporaryDirectory() as name:
        folder = Path(name)
        (folder / "module").write_bytes(module)
        told, at = [], 0
        with open(folder / "cases", "wb") as file:
            for words, data in cases:
                file.write(data)
                told.append({"words": words, "at": at, "length": len(data)})
                at += len(data)
        (folder / "asked").write_text(json.dumps(told))
        (folder / "driver.cjs").write_text((sheet.HERE / "worker.js").read_text("utf-8") + DRIVER, "utf-8")
        words = [NODE, "--stack-size=900", *(folder / it for it in ("driver.cjs", "module", "cases", "asked"))]
        ended = subprocess.run(words, stdout=subprocess.PIPE, stderr=subprocess.PIPE, timeout=seconds, check=False)
    if ended.returncode:
        raise AssertionError(ended.stderr.decode("utf-8", "replace")[-3000:])
    return json.loads(ended.stdout)


def by_program(program, words, data):
    """The same of the program on this machine: its status, and the digest of what it wrote."""
    ended = subprocess.run(
        [program, *words], input=data, stdout=subprocess.PIPE, stderr=subprocess.DEVNULL, check=False
    )
    return ended.returncode, hashlib.sha256(ended.stdout).hexdigest()


def with_memory(module, pages):
    """The module with memory that grows to so many pages of 64 KB at most."""
    parts = [lower.MAGIC]
    for number, data in lower.sections(module):
        if number == lower.MEMORIES:
            reader = lower.Reader(data)
            count, flags, least = reader.unsigned(), reader.byte(), reader.unsigned()
            assert (count, flags) == (1, 1)
            data = b"\1\1" + lower.unsigned(least) + lower.unsigned(max(least, pages))
        parts += [bytes([number]), lower.unsigned(len(data)), data]
    return b"".join(parts)


def with_stack(module, length):
    """The module with a stack of so many bytes: the first of its globals, a number of 64 bits, tells where it
    begins."""
    parts = [lower.MAGIC]
    for number, data in lower.sections(module):
        if number == GLOBALS:
            reader = lower.Reader(data)
            count, head = reader.unsigned(), reader.take(3)
            assert head == bytes([lower.I64, 1, lower.I64_CONST])
            reader.signed()
            data = lower.unsigned(count) + head + lower.signed(length) + data[reader.at :]
        parts += [bytes([number]), lower.unsigned(len(data)), data]
    return b"".join(parts)
