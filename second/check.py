#!/usr/bin/env python3
"""A second opinion on what beltproof says, by Python's standard library alone. It was written
from the formats and shares no code with the program. Words, statuses and texts are those of
docs/ANSWERS.md and docs/REFUSALS.md. What it does stands in the folder opinion/, by subject.

    check.py check PROPERTY < BOTH        a design, and behind it a certificate or a state in
                                          which the property fails
    check.py flow-check PROPERTY < BOTH   a design, and behind it a state in which the property
                                          fails
    check.py recover < DESIGN             the text of the design's network
    check.py recover --lanes [--merges any|straight|rear] [--stubs LIST] < DESIGN
                                          that of its lanes
    check.py laid --grid WxH [--tier TIER] REQUEST < BLUEPRINT
                                          0 and `laid` where the blueprint lays the request, else
                                          1 and `not laid`; 3 for a refused request, 9 for a
                                          refused blueprint
    check.py none FORMULA < CERTIFICATE   1 and `none` where the certificate refutes the formula,
                                          which is in DIMACS; 3 and `refused formula N` where
                                          line N of it may not stand there
    check.py check-fewest PROPERTIES INPUTS OUTPUTS < EVIDENCE
                                          1 and `none below K` where the evidence shows that no
                                          network of fewer than K splitters has the properties

This reads priorities: behind the edges of a network text, `give sN E` and `take sN E` say that
edge E out of, or into, splitter N comes first; in a blueprint a splitter's preferred sides do.
Requests for layouts may have them too, and in a blueprint that lays one the same edges come first.
All numbers are exact; where a sum or a product leaves 128
bits, this says so, as the program does."""

import sys
from pathlib import Path

sys.dont_write_bytecode = True

from opinion import run


def main():
    status, text = run(sys.argv[1:], sys.stdin.buffer.read, lambda path: Path(path).read_bytes())
    sys.stdout.write(text)
    return status


if __name__ == "__main__":
    sys.exit(main())
