"""The command blueprint-json: unpacks a blueprint string, or a design of a book, and changes nothing of it."""

import argparse
import sys

from . import files, inputs
from .command import ENDED_WELL, FAILED, PATHS


def words_of(arguments):
    """What the words ask for."""
    parser = argparse.ArgumentParser(
        prog="blueprint-json",
        allow_abbrev=False,
        description="Writes the JSON that a blueprint string holds, byte for byte, on standard output; of a book "
        "that of one design, or its table of contents on standard error.",
    )
    parser.add_argument("path", nargs="?", default=inputs.STANDARD_INPUT, metavar="PATH", help=PATHS)
    told = "which design of a book: its place, as 2.1 for the first one in the second, or its name with its books'"
    parser.add_argument("--at", metavar="PLACE", help=told)
    return parser.parse_args(arguments)


def chosen(found, at):
    """The designs at a place, or of a name."""
    return found if at is None else [it for it in found if at in (it.place, it.name, it.label())]


def main(arguments):
    asked, said = words_of(arguments), []
    try:
        found = inputs.designs_of([asked.path])
        them = chosen(found, asked.at)
        if len(them) == 1 and them[0].text is not None:
            with open(1, "wb", closefd=False) as out:
                out.write(them[0].text.rstrip() + b"\n")
            return ENDED_WELL
        if len(them) == 1:
            said = [them[0].trouble]
        else:
            said = [f"one design is wanted, and {len(them)} are there: name one with --at"]
            said += [f"{it.place or '-'} {it.name}" for it in them or found]
    except inputs.NotThere as missing:
        said = str(missing).split("\n")
    except OSError as fault:
        said = [f"the design can't be written: {fault.strerror or fault}"]
    print("".join(f"blueprint-json: {files.plain(it)}\n" for it in said), end="", file=sys.stderr)
    return FAILED


if __name__ == "__main__":
    sys.exit(main(sys.argv[1:]))
