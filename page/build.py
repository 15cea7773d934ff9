"""Builds the page: takes the module of the proved program as the kit hands it to its compiler, makes WebAssembly of it,
and puts it into one file.

    python3 -m page.build FOLDER

writes FOLDER/beltproof.html, of the program FOLDER/beltproof-x86_64-linux. The program's crate and those below it must
be proved and built, as the gate and a release leave them. What is linked of the object that comes beside the module has
to be that program, byte for byte: so this module is the program's."""

import os
import shlex
import shutil
import subprocess
import sys
import tempfile
from pathlib import Path

from . import lower, sheet, text

TOP = Path(__file__).resolve().parent.parent
CRATE = "beltproof"
PROGRAM, PAGE = "beltproof-x86_64-linux", "beltproof.html"
TARGET = "wasm64-unknown-unknown"
STACK = 4 << 20
MOST_MEMORY = 65520 << 16
"""Of 4 GB the last MB is left out, so that an address below the stack, which is at the bottom, is none."""

WIDEST_DIVISION = 64
"""Divisions of wider numbers are written out, since there is no library that has them."""

PROCESSOR = [f"--target={TARGET}", "-mcpu=lime1", "--no-default-config"]
DIVISIONS = [f"-expand-div-rem-bits={WIDEST_DIVISION}", f"-expand-fp-convert-bits={WIDEST_DIVISION}"]
DEAREST_INLINED = 100
"""How much a function may cost that is written into those that call it, where the compiler takes 225: the page is
smaller by 4 %."""

ADAPTED = [*DIVISIONS, f"-inline-threshold={DEAREST_INLINED}"]
COMPILED = [
    "-O2", "-Xclang", "-fmerge-functions", *(word for it in ADAPTED for word in ("-mllvm", it)), "-c", "-x", "ir"
]
OF_C = ["-O3", "-std=c17", "-ffreestanding", "-fno-builtin", "-Wall", "-Wextra", "-Werror", "-c"]
LINKED = ["-mwasm64", "--no-entry", "--stack-first", "-z", f"stack-size={STACK}", f"--max-memory={MOST_MEMORY}"]
LINKED += ["--gc-sections", "--fatal-warnings", "--strip-all", "--export=__stack_pointer"]
IMPORTS = [("page", "read"), ("page", "word"), ("page", "write")]

STAND_IN = """#!/bin/sh
for word in "$@"; do
  case $word in *.bc) cp "$word" {caught} ;; esac
done
exec {clang} "$@"
"""


class Failed(Exception):
    """Why there is no page, in words."""


class Kit:
    """The kit whose command is rt: its own words for a build, and its compiler."""

    def __init__(self):
        rt = shutil.which("rt")
        if not rt:
            raise Failed("the page is built with the Rattle kit, whose command rt is not on PATH")
        sys.path.insert(0, str(Path(rt).resolve().parent))
        import rtlib

        self.lib, self.folder = rtlib, Path(rtlib.KIT)
        self.clang = self.folder / "toolchain" / "bin" / "clang"

    def call(self, *words, folder, name=None):
        """Runs a command; what it says is told where it fails."""
        ended = subprocess.run(
            [str(name or words[0]), *map(str, words[1:])],
            executable=str(words[0]),
            cwd=folder,
            stdin=subprocess.DEVNULL,
            stdout=subprocess.PIPE,
            stderr=subprocess.STDOUT,
            check=False,
        )
        said = ended.stdout.decode("utf-8", "replace")
        if ended.returncode:
            raise Failed(f"{Path(words[0]).name} failed:\n{said[-2000:]}")
        return said

    def toolchain(self, room, caught):
        """A toolchain of links to that of the kit, whose compiler keeps the module that it is given."""
        own = room / "toolchain"
        (own / "bin").mkdir(parents=True)
        for it in (self.folder / "toolchain").iterdir():
            if it.name != "bin":
                (own / it.name).symlink_to(it)
        for it in self.clang.parent.iterdir():
            if it != self.clang:
                (own / "bin" / it.name).symlink_to(it)
        stand_in = own / "bin" / "clang"
        stand_in.write_text(STAND_IN.format(caught=shlex.quote(str(caught)), clang=shlex.quote(str(self.clang))))
        stand_in.chmod(0o755)
        return own

    def caught(self, room):
        """The module that the kit hands to its compiler for the proved program, and the program that is linked
        beside."""
        module, made, program = room / "module.bc", room / "program.o", room / "program"
        folder = TOP / "crates" / CRATE
        crate = self.lib.Crate(str(folder), str(TOP), {})
        lacking = [it.name for it in crate.below() if not Path(it.rlib, "format").is_file()]
        if lacking:
            raise Failed(f"{lacking[0]} is not built: prove and build all first, as the gate does")
        kept = ["--incremental", "out/incremental"] if (folder / "out" / "incremental").is_dir() else []
        words = [*crate.words(["--jobs", "1"]), *kept, "--toolchain", self.toolchain(room, module), "--backend", "llvm"]
        held = self.lib.lock([*crate.below(), crate])
        try:
            self.call(self.lib.RATTLE, "build", *words, "-o", made, folder=folder)
        finally:
            for it in held:
                os.close(it)
        libraries = [self.folder / "c" / it for it in ("libos_c.a", "liblibc_c.a")]
        words = ["--target", "x86_64-unknown-linux-gnu", "--toolchain", self.folder / "toolchain"]
        self.call(self.folder / "bin" / "rattle-link", *words, "-o", program, made, *libraries, folder=room)
        return module, program

    def layout(self, room):
        """How the target lays out data, as the compiler says it of an empty text."""
        (room / "empty.c").write_text("")
        self.call(self.clang, *PROCESSOR, "-S", "-emit-llvm", "empty.c", "-o", "empty.ll", folder=room)
        return text.LAYOUT.search((room / "empty.ll").read_text()).group().split('"')[1]

    def compiled(self, room, module):
        """The module as WebAssembly with addresses of 32 bits."""
        plainly = ["--target=x86_64-unknown-linux-gnu", "--no-default-config", "-S", "-emit-llvm"]
        words = [*plainly, "-Xclang", "-disable-llvm-passes", "-x", "ir", module, "-o", "program.ll"]
        self.call(self.clang, *words, folder=room)
        changed = text.changed((room / "program.ll").read_text("utf-8"), self.layout(room), TARGET)
        (room / "program.ll").write_text(changed, "utf-8")
        shutil.copy(sheet.HERE / "shim.c", room)
        self.call(self.clang, *PROCESSOR, *COMPILED, "program.ll", "-o", "program.o", folder=room)
        self.call(self.clang, *PROCESSOR, *OF_C, "shim.c", "-o", "shim.o", folder=room)
        words = [*LINKED, "shim.o", "program.o", "-o", "program.wasm"]
        self.call(self.clang, *words, folder=room, name="wasm-ld")
        found = (room / "program.wasm").read_bytes()
        if sorted(lower.imports(found)) != IMPORTS:
            raise Failed(f"the module wants {sorted(lower.imports(found))}, and not what the page gives")
        return lower.lowered(found)


def build(folder):
    """Writes the page of the program in this folder."""
    folder = Path(folder)
    program, page = folder / PROGRAM, folder / PAGE
    kit = Kit()
    with tempfile.TemporaryDirectory() as name:
        room = Path(name)
        module, linked = kit.caught(room)
        if linked.read_bytes() != program.read_bytes():
            raise Failed(f"what is proved and built here is not {program}")
        whole = sheet.page_of(kit.compiled(room, module))
    if len(whole) > sheet.MOST_BYTES:
        raise Failed(f"the page has {len(whole)} bytes, more than {sheet.MOST_BYTES}")
    undone = folder / f".{PAGE}.part"
    undone.write_bytes(whole)
    os.replace(undone, page)
    print(f"{page.name}: {len(whole)} bytes", file=sys.stderr)


def compare(one, other):
    """Whether two pages are the same; what is packed in them is compared as it is unpacked."""
    pages = [sheet.unpacked(Path(it, PAGE).read_bytes()) for it in (one, other)]
    return pages[0] == pages[1]


def main(words):
    try:
        if len(words) == 3 and words[0] == "--compare":
            return 0 if compare(*words[1:]) else 1
        if len(words) != 1:
            print("usage: page.build FOLDER | page.build --compare FOLDER FOLDER", file=sys.stderr)
            return 2
        build(words[0])
    except (Failed, lower.Unknown, text.Unexpected, OSError) as fault:
        print(f"beltproof: there is no page: {fault}", file=sys.stderr)
        return 1
    return 0


if __name__ == "__main__":
    sys.exit(main(sys.argv[1:]))
