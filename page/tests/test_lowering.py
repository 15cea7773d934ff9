"""The change of the module's text, the lowering to addresses of 32 bits, and the page as a file."""

import re
import unittest

from .. import lower, sheet, text

LAYOUT, TRIPLE = "e-m:e-p:64:64", "wasm64-unknown-unknown"
MODULE = """source_filename = "rattle"
target datalayout = "e-m:e-p270:32:32-i64:64"
target triple = "x86_64-unknown-linux-gnu"

define internal i32 @"beltproof::main+start"() #0 {
start:
  ret i32 0
}

define i32 @main() #1 {
start:
  %r0 = call i64 @__sysv_signal(i32 13, i64 1)
  br i1 true, label %run, label %refuse

run:                                              ; preds = %start
  %r1 = call i32 @"beltproof::main+start"()
  ret i32 %r1

refuse:                                           ; preds = %start
  ret i32 127
}

define internal i64 @"beltproof::compare::<#2 #3>"(ptr noundef %a0) #2 {
start:
  %r0 = call i64 %a0() #3
  ret i64 %r0
}

attributes #0 = { nounwind "probe-stack"="inline-asm" "stack-probe-size"="3072" "target-cpu"="x86-64-v2" }
attributes #1 = { nounwind "probe-stack"="inline-asm" "stack-probe-size"="3072" "target-cpu"="x86-64" }
attributes #2 = { nounwind "probe-stack"="inline-asm" "rattle-sig"="4" "stack-probe-size"="3072" \
"target-cpu"="x86-64-v2" }
attributes #3 = { nounwind "rattle-sig"="4" }
"""


def function(*code, locals_=b"\0"):
    """The body of a function with this code, as it is lowered with two parameters."""
    return lower.Function(2, locals_ + b"".join(code) + b"\x0b").whole()


class Text(unittest.TestCase):
    def test_what_is_changed(self):
        changed = text.changed(MODULE, LAYOUT, TRIPLE)
        self.assertIn(f'target datalayout = "{LAYOUT}"', changed)
        self.assertIn(f'target triple = "{TRIPLE}"', changed)
        self.assertIn(
            'define i32 @started() {\n  %status = call i32 @"beltproof::main+start"()\n  ret i32 %status\n}', changed
        )
        for word in ("@main(", "__sysv_signal", "probe", "x86", "127"):
            self.assertNotIn(word, changed)
        self.assertIn('attributes #2 = { nounwind "rattle-sig"="4" }', changed)
        self.assertEqual(changed.count("attributes #"), 4)

    def test_what_is_not_as_expected_is_refused(self):
        cases = {
            "no entry": MODULE.replace("@main(", "@other("),
            "no start": MODULE.replace('call i32 @"beltproof::main+start"', 'call i32 @"beltproof::other"'),
            "two layouts": MODULE + 'target datalayout = "e"\n',
            "no target": MODULE.replace("target triple", "; target triple"),
            "another attribute": MODULE.replace('"target-cpu"="x86-64" }', '"target-features"="+sse4" }'),
            "one more": MODULE.replace('"target-cpu"="x86-64" }', '"target-cpu"="x86-64" "target-features"="+sse4" }'),
            "another processor": MODULE.replace('"target-cpu"="x86-64" }', '"target-cpu"="x86-64-v4" }'),
            "none of a group": MODULE.replace(' "target-cpu"="x86-64" }', " }"),
            "one at a call": MODULE.replace(
                '#3 = { nounwind "rattle-sig"="4"', '#3 = { nounwind "target-cpu"="x86-64"'
            ),
            "all at a call": MODULE.replace(
                '#3 = { nounwind "rattle-sig"="4"',
                '#3 = { nounwind "probe-stack"="inline-asm" "stack-probe-size"="3072" "target-cpu"="x86-64"',
            ),
            "a function without": MODULE.replace("%a0) #2 {", "%a0) {"),
            "a group that isn't there": MODULE.replace("%a0) #2 {", "%a0) #9 {"),
        }
        for name, module in cases.items():
            with self.subTest(name), self.assertRaises(text.Unexpected):
                text.changed(module, LAYOUT, TRIPLE)


class Lowering(unittest.TestCase):
    def test_addresses_are_cut(self):
        load, store = b"\x29\x03\x08", b"\x37\x03\x90\x80\x80\x80\x80\x80\x80\x80\x80\0"
        self.assertEqual(function(load), b"\0" + b"\xa7" + load + b"\x0b")
        self.assertEqual(function(store), b"\x01\x01\x7e" + b"\x21\x02\xa7\x20\x02\x37\x03\x10" + b"\x0b")
        copy = function(b"\xfc\x0a\0\0")
        self.assertEqual(copy[:5], b"\x02\x01\x7e\x01\x7e")
        self.assertEqual(copy[-5:], b"\xfc\x0a\0\0\x0b")
        self.assertEqual(copy.count(b"\xa7"), 3)
        fill = function(b"\xfc\x0b\0")
        self.assertEqual(fill.count(b"\xa7"), 2)
        self.assertEqual(function(b"\x3f\0"), b"\0\x3f\0\xad\x0b")
        self.assertEqual(function(b"\x40\0"), b"\0\xa7\x40\0\xac\x0b")
        self.assertEqual(function(b"\x11\x05\0"), b"\0\xa7\x11\x05\0\x0b")

    def test_arithmetic_stays(self):
        code = b"\x42\x80\x80\x80\x80\x10\x20\0\x7c\x20\x01\x85\xa7\x41\x7f\x6a\x1a\x02\x40\x0c\0\x0b\x0e\x02\0\0\0\x44"
        code += bytes(8)
        self.assertEqual(function(code), b"\0" + code + b"\x0b")

    def test_what_is_unknown_is_refused(self):
        for code in (
            b"\x29\x43\x08\0", b"\x29\x03" + lower.unsigned(2**32), b"\xfc\x08\0\0", b"\xfd\0", b"\xd2\0", b"\x06\x40"
        ):
            with self.subTest(code), self.assertRaises(lower.Unknown):
                function(code)
        with self.assertRaises(lower.Unknown):
            list(lower.sections(b"no module"))
        with self.assertRaises(lower.Unknown):
            lower.memories(b"\x01\0\x01")
        with self.assertRaises(lower.Unknown):
            lower.data_segments(b"\x01\x01\0")

    def test_numbers(self):
        for value in (0, 1, 127, 128, 2**31 - 1, 2**32 - 1, 2**63):
            self.assertEqual(lower.Reader(lower.unsigned(value)).unsigned(), value)
        for value in (0, 1, 63, 64, -1, -64, -65, 2**31 - 1, -(2**31)):
            self.assertEqual(lower.Reader(lower.signed(value)).signed(), value)

    def test_limits_and_offsets(self):
        self.assertEqual(
            lower.memories(b"\x01\x05\x42" + lower.unsigned(65520)), b"\x01\x01\x42" + lower.unsigned(65520)
        )
        self.assertEqual(
            lower.data_segments(b"\x01\0\x42\x80\x80\x80\x82\0\x0b\x01a"), b"\x01\0\x41\x80\x80\x80\x02\x0b\x01a"
        )


class Sheet(unittest.TestCase):
    module = b"\0asm\1\0\0\0" + bytes(range(256))

    def test_the_page_is_whole(self):
        page = sheet.page_of(self.module)
        self.assertEqual(page, sheet.page_of(self.module))
        self.assertEqual(sheet.module_of(page), self.module)
        self.assertIn(self.module, sheet.unpacked(page))
        written = page.decode()
        self.assertIsNone(re.search(r"\{(?:drawn|style|script|worker|policy|program)\}", written))
        self.assertEqual(len(re.findall(r"<script\b", written)), 3)
        self.assertIsNone(re.search(r"https?:", written))
        self.assertIsNone(re.search(r"<(?:link|img|script|iframe)[^>]*(?:src|href)=\"(?!data:,)", written))

    def test_the_policy_lets_nothing_in(self):
        rules = dict(it.split(" ", 1) for it in sheet.policy(["a", "b"], ["c"]).split("; "))
        self.assertEqual(rules["script-src"], f"{sheet.hash_of('a')} {sheet.hash_of('b')} 'wasm-unsafe-eval'")
        self.assertEqual(rules["default-src"], "'none'")
        self.assertEqual(
            sorted(rules),
            ["base-uri", "default-src", "form-action", "img-src", "script-src", "style-src", "worker-src"],
        )
        self.assertNotIn("unsafe-inline", "".join(rules.values()))


if __name__ == "__main__":
    unittest.main()
