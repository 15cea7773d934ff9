"""Tests of tools/certify and tools/least. BELTPROOF_PROGRAM and CERTIFY_PROGRAM may name other programs than those of
these sources."""

import contextlib
import importlib.machinery
import importlib.util
import io
import json
import os
import resource
import subprocess
import tempfile
import unittest
from pathlib import Path

TOOLS = Path(__file__).resolve().parent.parent
EXAMPLES = TOOLS.parent / "examples"


def tool(name):
    """The tool of this name as a module."""
    loader = importlib.machinery.SourceFileLoader(f"tool_{name}", str(TOOLS / name))
    module = importlib.util.module_from_spec(importlib.util.spec_from_loader(loader.name, loader))
    loader.exec_module(module)
    return module


certify, least = tool("certify"), tool("least")

FORMULA = "c a comment\np cnf 2 4\n1 2 0\n-1 2 0\n1 -2 0\n-1 -2 0\n"
# All clauses of three variables.
CUBE = "p cnf 3 8\n" + "".join(f"{a}1 {b}2 {c}3 0\n" for a in ("", "-") for b in ("", "-") for c in ("", "-"))
MEGABYTE = 1 << 20


def program():
    """The path of the program of these sources, or of the one that BELTPROOF_PROGRAM names."""
    if told := os.environ.get("BELTPROOF_PROGRAM"):
        return told
    return subprocess.run([TOOLS / "program"], stdout=subprocess.PIPE, text=True, check=True).stdout.strip()


class CertifyTest(unittest.TestCase):
    def certified(self, formula, proof, kind="none"):
        """The certificate of a proof of a formula, both as texts or bytes."""
        with tempfile.TemporaryDirectory() as room:
            paths = Path(room, "formula"), Path(room, "proof")
            for path, text in zip(paths, (formula, proof)):
                path.write_bytes(text if isinstance(text, bytes) else text.encode())
            sink = io.BytesIO()
            certify.certify(*paths, kind, sink)
            return sink.getvalue().decode()

    def test_finds_hints_and_leaves_out_what_is_not_needed(self):
        self.assertEqual(self.certified(FORMULA, "2 0\n0\n"), "none\nr 2 0 1 2 0\nr 0 5 3 4 0\nend\n")
        self.assertEqual(self.certified(FORMULA, "1 0\nd 1 2 0\n2 0\n0\n").splitlines()[-2:], ["r 0 5 2 4 0", "end"])

    def test_takes_numbered_proofs_as_they_are(self):
        proof = "5 1 0 1 3 0\n6 2 0 1 2 0\n6 d 1 0\n7 0 6 3 4 0\n"
        self.assertEqual(self.certified(FORMULA, proof, "same"), "same\nr 2 0 1 2 0\nr 0 5 3 4 0\nend\n")

    def test_refuses_what_shows_nothing(self):
        for proof, reason in (
            ("", "the proof ends, and nothing false follows"),
            ("1 0\n", None),
            ("x\n", "step 1 is no clause"),
            ("3 0\n", "step 1 is no clause"),
            ("5 1 0 -1 3 0\n", "line 1 isn't shown by propagation"),
            ("5 1 0 1 3 0\n", "the proof ends, and nothing false follows"),
            ("5 1 0 1 3 0\n6 2 0 1", "line 2 is no step"),
            (b"a\x04\0a\0", "is a binary proof"),
        ):
            with self.subTest(proof=proof):
                if reason is None:
                    self.assertTrue(self.certified(FORMULA, proof).endswith("end\n"))
                    continue
                with self.assertRaises(certify.Refused) as caught:
                    self.certified(FORMULA, proof)
                self.assertIn(reason, str(caught.exception))
        with self.assertRaises(certify.Refused) as caught:
            self.certified("p cnf 2 2\n1 2 0\n-1 -2 0\n", "1 0\n0\n")
        self.assertEqual(str(caught.exception), "step 2 isn't shown by propagation")
        with self.assertRaises(certify.Refused):
            self.certified("no formula\n", "0\n")

    def test_refuses_proofs_of_others_cut_ones_and_what_propagation_alone_does_not_show(self):
        # Of the clauses of three variables the first literal is a RAT step, and the rest follows of it by propagation.
        for formula, proof, reason in (
            (CUBE, "2 0\n0\n", "step 2 isn't shown by propagation"),
            ("p cnf 1 1\n1 0\n", "2 0\n0\n", "step 1 is no clause"),
            (FORMULA, "2", "step 1 is no clause"),
            (CUBE, "1 2 0\n1 ", "step 2 is no clause"),
            (CUBE, "1 2 0\n", "the proof ends, and nothing false follows"),
            (CUBE, "1 0\n2 0\n0\n", "step 1 isn't shown by propagation"),
            (CUBE, "d 1 2 3 0\n1 2 0\n1 -2 0\n1 0\n2 0\n0\n", "step 2 isn't shown by propagation"),
        ):
            with self.subTest(proof=proof):
                with self.assertRaises(certify.Refused) as caught:
                    self.certified(formula, proof)
                self.assertEqual(str(caught.exception), reason)
        self.assertTrue(self.certified(CUBE, "1 2 0\n1 -2 0\n1 0\n2 0\n0\n").endswith("end\n"))

    def test_takes_no_more_memory_than_it_may(self):
        numbered = b"".join(b"%d 1 2 0 1 0\n" % number for number in range(5, MEGABYTE))
        proofs = {"DRAT": b"1 2 0\n" * 4 * MEGABYTE, "LRAT": numbered}
        bound = 256 * MEGABYTE
        with tempfile.TemporaryDirectory() as room:
            formula, proof = Path(room, "formula"), Path(room, "proof")
            formula.write_text(FORMULA)
            for kind, steps in proofs.items():
                proof.write_bytes(steps)
                ended = subprocess.run(
                    [TOOLS / "certify", formula, proof],
                    stdout=subprocess.DEVNULL,
                    stderr=subprocess.PIPE,
                    text=True,
                    env={**os.environ, "CERTIFY_PROGRAM": certify.certify_program()},
                    preexec_fn=lambda: resource.setrlimit(resource.RLIMIT_AS, (bound, bound)),
                )
                with self.subTest(kind=kind):
                    self.assertEqual((ended.returncode, ended.stderr), (8, "tools/certify: memory is wanting\n"))

    def ended(self, *words):
        """The status of the tool, and what it says."""
        env = {**os.environ, "CERTIFY_PROGRAM": certify.certify_program()}
        done = subprocess.run(
            [TOOLS / "certify", *words], stdout=subprocess.DEVNULL, stderr=subprocess.PIPE, text=True, env=env
        )
        return done.returncode, done.stderr

    def test_says_which_file_it_lacks_or_what_is_wrong_with_it(self):
        with tempfile.TemporaryDirectory() as room:
            formula, proof, none = (Path(room, name) for name in ("formula", "proof", "none"))
            formula.write_text(FORMULA)
            proof.write_text("1 0\n0\n")
            self.assertEqual(self.ended(formula, proof), (0, ""))
            for words, status, reason in (
                ((none, proof), 2, f"{none}: No such file or directory"),
                ((formula, none), 2, f"{none}: No such file or directory"),
                ((formula, room), 2, f"{room}: Is a directory"),
                ((formula, proof, "Yes"), 2, "tools/certify FORMULA PROOF [KIND] > CERTIFICATE"),
                ((proof, formula), 3, f"tools/certify: {proof} is no formula in DIMACS"),
                ((formula, formula), 3, "tools/certify: step 1 is no clause"),
            ):
                with self.subTest(words=words):
                    ended, said = self.ended(*words)
                    self.assertEqual((ended, reason in said), (status, True), said)

    def test_refuses_a_great_proof_of_nothing_without_reading_it_whole(self):
        # A file of a gigabyte of which the end was never written: it takes no room, and reads as zeros.
        with tempfile.TemporaryDirectory() as room:
            formula, proof = Path(room, "formula"), Path(room, "proof")
            formula.write_text(FORMULA)
            for first, reason in (("", "is a binary proof"), ("1 2 0\n", "step 2 is no clause")):
                proof.write_text(first)
                os.truncate(proof, 1024 * MEGABYTE)
                with self.subTest(first=first):
                    status, said = self.ended(formula, proof)
                    self.assertEqual((status, reason in said), (3, True), said)

    def test_says_how_it_is_used(self):
        ended = subprocess.run([TOOLS / "certify"], stderr=subprocess.PIPE, text=True)
        self.assertEqual((ended.returncode, ended.stderr), (2, "tools/certify FORMULA PROOF [KIND] > CERTIFICATE\n"))


class LeastTest(unittest.TestCase):
    def test_names_the_greatest_rectangles_of_fewer_cells(self):
        told = ["{}x{}".format(*it) for it in least.greatest_below(77)]
        self.assertEqual(told, "1x76 2x38 3x25 4x19 5x15 6x12 7x10 8x9".split())
        for cells in range(1, 60):
            greatest = least.greatest_below(cells)
            for width in range(1, cells):
                for height in range(width, (cells - 1) // width + 1):
                    self.assertTrue(any(width <= w and height <= h for w, h in greatest), (cells, width, height))

    def test_keeps_what_is_known_and_refuses_another_network(self):
        with tempfile.TemporaryDirectory() as room:
            folder = least.Folder(Path(room))
            folder.begin("net", "basic")
            folder.layout(b"blueprint", "2x3")
            again = least.Folder(Path(room))
            self.assertEqual((again["grid"], again.cells(), least.grids_below(again)), ("2x3", 6, ["1x5", "2x2"]))
            self.assertEqual(least.told(again), ("open: 2x3 is 6 cells, 1x5 2x2 not refuted", 1))
            for grid in ("1x5", "2x2"):
                again.certificate(grid).touch()
            self.assertEqual(least.told(again), ("open: 2x3 is 6 cells, 1x5 2x2 not refuted", 1))
            again.accepted.update(("1x5", "2x2"))
            self.assertEqual(least.told(again), ("least: 6 cells, by 2 certificates", 0))
            with self.assertRaises(least.Refused):
                again.begin("another net", "basic")

    def test_looks_for_half_turns_until_none_is_found(self):
        belts = '{"blueprint":{"item":"blueprint","entities":[%s],"version":281479271677952}}'
        belt = '{"entity_number":%d,"name":"transport-belt","position":{"x":%s,"y":%s},"direction":0}'
        asked = []

        def turned_layout(program, folder, grid, cadical, conflicts):
            asked.append(grid)
            wide, high = map(int, grid.split("x"))
            cells = [(x + 0.5, y + 0.5) for x in range(wide) for y in range(high)]
            parts = ",".join(belt % (number, *cell) for number, cell in enumerate(cells, 1))
            return (belts % parts).encode() if grid in ("2x4", "2x3") else None

        with tempfile.TemporaryDirectory() as room:
            folder = least.Folder(Path(room))
            folder.begin("net", "basic")
            folder.layout(b"blueprint", "3x3")
            real, least.turned_layout = least.turned_layout, turned_layout
            try:
                least.find_turned(None, folder, "cadical", 10)
                least.find_turned(None, folder, "cadical", 10)
            finally:
                least.turned_layout = real
            self.assertEqual((folder["grid"], asked), ("2x3", ["2x4", "2x3", "2x2"]))
            self.assertEqual(least.Folder(Path(room))["turned"], {"2x2": 10})

    def test_takes_the_layout_of_fewest_cells_that_lays_the_network(self):
        belt = '{"entity_number":1,"name":"transport-belt","position":{"x":0.5,"y":0.5},"direction":0}'
        blueprint = '{"blueprint":{"item":"blueprint","entities":[%s],"version":281479271677952}}' % belt
        with tempfile.TemporaryDirectory() as room:
            folder = least.Folder(Path(room))
            folder.begin("net 1 1 0\nedge i0 o0\nend\n", "basic")
            folder.layout(b"blueprint", "3x3")
            self.assertFalse(least.take_least(folder, {"1x2": blueprint}))
            self.assertTrue(least.take_least(folder, {"1x2": blueprint, "1x1": blueprint}))
            self.assertEqual((folder["grid"], folder.cells()), ("1x1", 1))

    def least(self, *words):
        """What the tool comes to, and what it writes and says."""
        words = [TOOLS / "least", *words, "--program", program()]
        env = {**os.environ, "CERTIFY_PROGRAM": certify.certify_program()}
        ended = subprocess.run(words, stdout=subprocess.PIPE, stderr=subprocess.PIPE, text=True, env=env)
        return ended.returncode, ended.stdout.strip(), ended.stderr

    def test_searches_by_the_program_where_cadical_fails(self):
        other = "for it; do last=$it; done; echo 99999 0 > $last; exit 20"
        for script, reason in (
            (None, "No such file or directory"),
            ("kill -9 $$", "ended with -9"),
            ("echo 'out of memory' >&2; exit 1", "ended with 1"),
            ("exit 20", "tools/certify ended with 2"),
            (other, "tools/certify ended with 3"),
        ):
            with self.subTest(script=script), tempfile.TemporaryDirectory() as room:
                cadical = Path(room, "cadical")
                if script:
                    cadical.write_text(f"#!/bin/sh\n{script}\n")
                    cadical.chmod(0o755)
                words = (EXAMPLES / "chain-1-to-3.net", Path(room, "folder"), "--cadical", cadical, "--learnt", "500")
                status, written, said = self.least(*words)
                self.assertEqual((status, written), (0, "least: 10 cells, by 3 certificates"))
                self.assertIn(f"{reason} on 2x4: the program searches" if "ended" in reason else reason, said)

    def test_names_each_certificate_that_was_changed(self):
        with tempfile.TemporaryDirectory() as room:
            words = (EXAMPLES / "chain-1-to-3.net", room, "--without-cadical", "--learnt", "500")
            self.assertEqual(self.least(*words)[:2], (0, "least: 10 cells, by 3 certificates"))
            self.assertEqual(self.least("--again", room), (0, "least: 10 cells, by 3 certificates", ""))
            changed = Path(room, "2x4.none")
            whole = changed.read_text()
            first, *_ = lines = whole.splitlines(keepends=True)
            for text, said in (
                (whole.replace("end\n", ""), "2x4: not accepted\n"),
                ("".join([first, *lines[2:]]), "2x4: not accepted\n"),
                (Path(room, "1x9.none").read_text(), "2x4: not accepted\n"),
                ("", "2x4: not accepted\n"),
                (None, "2x4: no certificate\n"),
                (whole, ""),
            ):
                changed.unlink(missing_ok=True)
                if text is not None:
                    changed.write_text(text)
                with self.subTest(text=text):
                    self.assertEqual(self.least("--again", room)[::2], (0 if text == whole else 3, said))
            layout = Path(room, "least-layout.json")
            layout.write_text(layout.read_text().replace("splitter", "transport-belt"))
            self.assertEqual(self.least("--again", room)[::2], (3, "the layout isn't one of the network in 2x5\n"))
            layout.unlink()
            self.assertEqual(self.least("--again", room)[0], 3)

    def test_counts_only_what_it_checked_in_this_run(self):
        with tempfile.TemporaryDirectory() as room:
            words = (EXAMPLES / "chain-1-to-3.net", room, "--without-cadical", "--learnt", "500")
            self.assertEqual(self.least(*words)[:2], (0, "least: 10 cells, by 3 certificates"))
            certificate = Path(room, "2x4.none")
            whole = certificate.read_text()
            certificate.write_text("junk\n")
            status, written, said = self.least(*words)
            self.assertEqual((status, written), (0, "least: 10 cells, by 3 certificates"))
            self.assertIn("2x4: not accepted\nrefuting 2x4\n", said)
            self.assertEqual(certificate.read_text(), whole)
            Path(room, "least-layout.json").write_text("{}")
            status, written, said = self.least(*words)
            self.assertEqual((status, written), (3, ""))
            self.assertIn("the layout isn't one of the network in 2x5 of basic parts", said)

    def test_begins_with_the_layout_and_the_tier_of_a_blueprint(self):
        design = (EXAMPLES / "balancer-4-to-4.json").read_text()
        with tempfile.TemporaryDirectory() as room:
            fast = Path(room, "fast.json")
            for name in ("transport-belt", "underground-belt", "splitter"):
                design = design.replace(f'"{name}"', f'"fast-{name}"')
            fast.write_text(design)
            folder = least.Folder(Path(room, "folder"))
            least.begin(least.Program(program()), folder, fast.read_bytes(), None)
            self.assertEqual(folder["tier"], "fast")
            with self.assertRaises(least.Refused):
                least.begin(least.Program(program()), least.Folder(Path(room, "other")), fast.read_bytes(), "basic")

    def test_says_at_once_that_a_layout_has_too_many_cells(self):
        with tempfile.TemporaryDirectory() as room:
            words = (EXAMPLES / "balancer-16-to-16.json", room, "--without-cadical", "--learnt", "0")
            status, written, said = self.least(*words)
            self.assertEqual((status, written), (3, ""))
            self.assertIn("nothing is said but of a layout of up to 161", said)

    def again(self, room):
        """What the tool comes to that checks a folder anew, and what it says."""
        said = io.StringIO()
        with contextlib.redirect_stdout(io.StringIO()), contextlib.redirect_stderr(said):
            status = least.main(["--again", room, "--program", program()])
        return status, said.getvalue()

    def test_takes_no_certificate_of_another_network_and_no_other_record(self):
        names = "chain-1-to-3", "splitter-on-splitter-2-to-3"
        with tempfile.TemporaryDirectory() as one, tempfile.TemporaryDirectory() as other:
            for name, room in zip(names, (one, other)):
                words = (EXAMPLES / f"{name}.net", room, "--without-cadical", "--learnt", "500")
                self.assertEqual(self.least(*words)[:2], (0, "least: 10 cells, by 3 certificates"))
            certificate = Path(one, "2x4.none")
            whole = certificate.read_text()
            for text in (Path(other, "2x4.none").read_text(), whole + "end\n"):
                certificate.write_text(text)
                self.assertEqual(self.again(one), (3, "2x4: not accepted\n"))
            certificate.write_text(whole)
            record = Path(one, "least.json")
            known, another = (json.loads(Path(room, "least.json").read_text()) for room in (one, other))
            no_record = f"tools/least: {record} is no record of a network\n"
            for changed, status, reason in (
                (known, 0, ""),
                ({**known, "grid": "2x4"}, 3, "the layout isn't one of the network in 2x4\n"),
                ({**known, "grid": "9x9"}, 3, "8x10: no certificate\n"),
                ({**known, "network": another["network"]}, 3, "2x4: not accepted\n"),
                ({**known, "grid": "2by5"}, 3, no_record),
                ({**known, "network": 1}, 3, no_record),
                ({**known, "tier": "slow"}, 3, no_record),
                ({**known, "tier": []}, 3, no_record),
                ({**known, "turned": []}, 3, no_record),
                ({**known, "turned": {"1x9": "1"}}, 3, no_record),
                ({}, 3, no_record),
                ([], 3, no_record),
                ({**known, "grid": None}, 3, f"tools/least: {one} has no layout\n"),
            ):
                record.write_text(json.dumps(changed))
                with self.subTest(changed=changed):
                    ended, said = self.again(one)
                    self.assertEqual((ended, reason in said), (status, True), said)
            for broken in (json.dumps(known)[:-1].encode(), b"\xff"):
                record.write_bytes(broken)
                self.assertEqual(self.again(one)[0], 2)


if __name__ == "__main__":
    unittest.main()
