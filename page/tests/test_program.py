"""The page's program answers as the program does: bytes and statuses, on all examples with all commands, and on
mutants."""

import json
import random
import sys
import unittest

from collection.tests import program_path
from collection.words import PROPERTIES

from .. import sheet
from . import EXAMPLES, TOP, needs_node, page_path, run_scripts
from .programs import by_page, by_program, with_memory, with_stack

GRIDS = {
    "splitter-2-to-2": ("2x2", "2x3", "4x4"),
    "balancer-4-to-4": ("5x5", "5x8"),
    "one-belt": ("1x1", "3x2"),
    "tree-1-to-4": ("6x6",),
    "pinned-4-to-4": ("5x8",),
    "tunnel-1-to-1": ("3x1",),
    "balancer-8-to-8": ("9x11",),
}
MUTANTS, LONGEST = 3000, 12000

sys.path.insert(0, str(TOP / "second"))


def examples():
    """All cases of the examples: each command with all that it reads."""
    designs = [it for it in sorted(EXAMPLES.iterdir()) if it.suffix in (".json", ".net", ".request", ".pair")]
    for path in designs:
        data, name = path.read_bytes(), path.stem
        yield ["recover"], data
        yield from ((["same"], data) for _ in [0] if path.suffix == ".pair")
        yield from ((["layout", "--grid", grid], data) for grid in GRIDS.get(name, ()))
        yield from ((["formula", "--grid", grid], data) for grid in GRIDS.get(name, ())[:1])
        if path.suffix not in (".json", ".net"):
            continue
        for prop in PROPERTIES:
            yield ["decide", prop], data
            yield ["formula", prop], data
        yield ["decide", "balanced", "--learnt", "3"], data
        yield ["decide", "full", "--pivots", "2"], data
        for other in sorted(EXAMPLES.glob(f"{name}.*")):
            rest = other.suffix[1:].removeprefix("nearly-").partition("-")[2]
            whole = data + b"\n" + other.read_bytes()
            if other.suffix.startswith(".none-"):
                yield ["check-layout", "--grid", rest], whole
            elif rest in PROPERTIES:
                yield ["check", rest], whole
                yield ["flow-check", rest], whole
    for path in sorted(EXAMPLES.glob("*-same")):
        yield ["check-same"], path.with_suffix(".pair").read_bytes() + path.read_bytes()
    yield from ((["make", str(k), *more], b"") for k in (1, 2, 3) for more in ([], ["--chain"]))
    for name in ("splitter-2-to-2.net", "one-belt.net"):
        yield ["smallest", "--most", "3x3"], (EXAMPLES / name).read_bytes()
    for name in ("balancer-4-to-4.json", "balancer-4-to-4.net", "pinned-4-to-4.json", "tree-1-to-4.json"):
        yield ["smallest", "--found", "--learnt", "20000"], (EXAMPLES / name).read_bytes()
    yield from ((words, b"net 1 1 0\n") for words in ([], ["what"], ["decide"], ["layout", "--grid", "0x1"]))


def mutants(count):
    """Mutated designs and certificates, the same each time."""
    from differ import mutant

    chance = random.Random(48)
    texts = [it.read_bytes() for it in sorted(EXAMPLES.iterdir()) if it.is_file() and it.stat().st_size <= LONGEST]
    designs = [it for it in texts if it[:1] in b"{n" and not it.startswith(b"no ")]
    certificates = [
        (path, path.suffix.partition("-")[2])
        for path in sorted(EXAMPLES.glob("*.yes-*")) + sorted(EXAMPLES.glob("*.not-*"))
    ]
    certificates = [
        (path, prop) for path, prop in certificates if prop in PROPERTIES and path.stat().st_size <= LONGEST
    ]
    for number in range(count):
        if number % 2:
            path, prop = chance.choice(certificates)
            design = path.with_suffix(".net").read_bytes()
            yield ["check", prop], design + mutant(chance, path.read_bytes())
            continue
        words = chance.choice(
            (["recover"], ["decide", chance.choice(PROPERTIES), "--learnt", "2000"], ["formula", "full"], ["same"])
        )
        yield words, mutant(chance, chance.choice(designs))


@needs_node
class Programs(unittest.TestCase):
    @classmethod
    def setUpClass(cls):
        page = page_path()
        if page is None:
            raise unittest.SkipTest("there is no page beside the program: tools/page builds it")
        cls.module = sheet.module_of(page.read_bytes())

    def hold(self, cases):
        answers = by_page(self.module, cases)
        statuses = set()
        for (words, data), ours in zip(cases, answers, strict=True):
            status, digest = by_program(program_path(), words, data)
            statuses.add(status)
            if (ours["status"], ours["digest"]) != (status, digest):
                self.fail(f"{' '.join(words)} over {data[:60]!r}: {ours} and {status}")
        return statuses

    def test_all_examples_with_all_commands(self):
        cases = list(examples())
        self.assertGreater(len(cases), 350)
        self.assertLessEqual({0, 1, 2, 3, 4, 9, 10}, self.hold(cases))

    def test_mutants(self):
        cases = list(mutants(MUTANTS))
        self.assertLessEqual({0, 1, 3, 9}, self.hold(cases))

    def test_want_of_memory_is_a_status(self):
        design = (EXAMPLES / "balancer-16-to-16.json").read_bytes()
        found = {
            pages: by_page(with_memory(self.module, pages), [(["decide", "balanced"], design)])[0]
            for pages in (66, 70, 80, 2000)
        }
        self.assertEqual([it["status"] for it in found.values()], [8, 8, 8, 0])

    def test_a_stack_that_ends_is_told(self):
        design = (EXAMPLES / "balancer-16-to-16.json").read_bytes()
        told = [
            by_page(with_stack(self.module, length), [(["decide", "balanced"], design)])[0]
            for length in (4096, 65536, 4 << 20)
        ]
        self.assertEqual([it.get("trouble") for it in told], ["stack", "stack", None])
        self.assertEqual([it.get("digest") for it in told[:2]], ["", ""])

    def test_what_tells_nothing_of_a_design_is_told_in_words(self):
        ends = [{"trouble": it} for it in ("stack", "trap", "stopped")] + [{"trouble": "fault", "why": "no module"}]
        ends += [{"status": it} for it in (8, 6, 7, 11, 2, 0, 1, 3, 4, 5, 9, 10)]
        driver = f'require("fs").writeSync(1, JSON.stringify({json.dumps(ends)}.map(faultOf)));'
        told = json.loads(run_scripts(["runs"], driver))
        for it, words in zip(("stack ended", "trapped", "stopped", "(no module)", "too little memory"), told):
            self.assertIn(it, words)
        self.assertEqual([it is None for it in told[5:]], [False] * 4 + [True] * 7)

    def test_a_run_leaves_nothing_behind(self):
        design = (EXAMPLES / "balancer-4-to-4.net").read_bytes()
        case = (["decide", "unlimited"], design)
        answers = by_page(self.module, [case, (["decide", "full"], b"net"), case])
        self.assertEqual(answers[0]["digest"], answers[2]["digest"])


if __name__ == "__main__":
    unittest.main()
