"""Tests of tools/dear: whose a module is, what is counted to it, and what is listed."""

import subprocess
import sys
import tempfile
import unittest
from importlib.machinery import SourceFileLoader
from importlib.util import module_from_spec, spec_from_loader
from pathlib import Path

TOOL = Path(__file__).resolve().parent.parent / "dear"


def loaded():
    loader = SourceFileLoader("dear", str(TOOL))
    module = module_from_spec(spec_from_loader("dear", loader))
    loader.exec_module(module)
    return module


sys.dont_write_bytecode = True
dear = loaded()


class Owners(unittest.TestCase):
    def test_names(self):
        for module, owner in {
            "Rattle-bt_x-proofs.plans.model_by.Lts": ("plans.model_by", "Lts"),
            "Rattle-bt_x-proofs.plans.model_by.Code.Mir": ("plans.model_by", "Code.Mir"),
            "Rattle-bt_x-specs.contracts.plans.model_by": ("plans.model_by", "itself"),
            "Rattle-bt_x-proofs.plans.model_by.decls": ("plans.model_by", "decls"),
            "Rattle-bt_x-proofs.plans.model_by.Lts.decls": ("plans.model_by", "Lts"),
            "Rattle-bt_x.TheLink": ("(the crate's root)", "TheLink"),
            "Rattle-bt_x-specs.Nets": ("specs.Nets", "itself"),
            "Rattle.Syntax": ("Rattle.Syntax", "itself"),
        }.items():
            self.assertEqual(dear.owner_of(module, "bt_x"), owner, module)


class Costs(unittest.TestCase):
    stamps = [dear.Stamp(*it) for it in [(0, 0, 0), (1, 2, 10), (2, 5, 10), (3, 5.5, 30), (4, 7, 30)]]
    modules = [
        (2.9, "Rattle-bt_x-proofs.g"),
        (1, "Rattle-bt_x-proofs.f"),
        (2, "Rattle-bt_x-proofs.f.Lts"),
        (2, "Rattle-bt_x-proofs.f.Tie"),
    ]

    def test_each_module_has_what_was_spent_since_the_one_before(self):
        costs = dear.costs_of(self.stamps, self.modules, "bt_x")
        told = {function: (dict(cost.parts), cost.read) for function, cost in costs.items()}
        self.assertEqual(
            told,
            {
                "(the front end, and the first module)": ({"itself": 2}, 10),
                "f": ({"Lts": 3, "Tie": 0}, 0),
                "g": ({"itself": 0.5}, 20),
                "(after the last module)": ({"itself": 1.5}, 0),
            },
        )

    def test_lines(self):
        costs = dear.costs_of(self.stamps, self.modules, "bt_x")
        self.assertEqual(
            list(dear.lines_of(costs, 2, False)),
            [
                "    3.00  42.9%  f  reads 0 MB",
                "    2.00  28.6%  (the front end, and the first module)  reads 0 MB",
                "    2.00  28.6%  (2 that take less than 2 s)",
            ],
        )
        self.assertIn("    3.00  42.9%  f  reads 0 MB  Lts 3.0, Tie 0.0", list(dear.lines_of(costs, 2, True)))

    def test_of_nothing(self):
        costs = dear.costs_of([dear.Stamp(0, 0, 0)], [], "bt_x")
        self.assertEqual(list(dear.lines_of(costs, 1, False)), ["    0.00   0.0%  (1 that take less than 1 s)"])


class Watching(unittest.TestCase):
    def test_tells_what_a_command_used(self):
        with tempfile.TemporaryFile("w+", encoding="utf-8") as log, tempfile.TemporaryDirectory() as folder:
            code = "import time\nwhile time.process_time() < 0.5: pass\nprint('done')"
            stamps = dear.watched([sys.executable, "-c", code], folder, log)
            log.seek(0)
            self.assertEqual(log.read(), "done\n")
        self.assertEqual(stamps[0][1:], (0.0, 0))
        self.assertGreater(stamps[-1].spent, 0.2)
        self.assertEqual(stamps, sorted(stamps))


class Words(unittest.TestCase):
    def test_no_such_crate(self):
        ran = subprocess.run([sys.executable, TOOL, "bt_none"], capture_output=True, text=True, check=False)
        self.assertEqual((ran.returncode, ran.stdout, ran.stderr), (1, "", "tools/dear: there is no crate bt_none\n"))

    def test_no_kit(self):
        with tempfile.TemporaryDirectory() as empty:
            ran = subprocess.run(
                [sys.executable, TOOL, "bt_frac"], env={"PATH": empty}, capture_output=True, text=True, check=False
            )
        self.assertEqual((ran.returncode, ran.stderr), (1, "tools/dear: there is no kit: no rt on the PATH\n"))


if __name__ == "__main__":
    unittest.main()
