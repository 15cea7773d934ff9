#!/usr/bin/env python3
"""Looks at what the program says of how ends share: `fair` and `drawn-fairly`.

    sharing.py [--short] [--seed SEED] PROGRAM [NETWORKS [MUTANTS]]

Of every example, and of so many networks that are thrown together (3000 where none is told) with priorities and tiers,
the program decides both properties. What it writes is checked by `check.py`, and where some loads and rooms of 0 and
full give a state that breaks the property, it says no yes. Then both check so many mutants (20000 where none is told)
of these certificates and states, and must say the same, word for word. It prints counts and every difference, and ends
with 1 where there is one. `--short` runs a few of each. The generator is fixed: with one program and one seed (8 where
none is told) the inputs are always the same."""

import argparse
import random
import sys

sys.dont_write_bytecode = True

import differ
import opinion
import verdicts

NETWORKS, MUTANTS = 3000, 20000
SHORT = 20, 60  # networks and mutants
BOTH = "fair", "drawn-fairly"


def designs(short):
    """The networks and blueprints of the examples."""
    found = sorted(it for it in differ.EXAMPLES.rglob("*") if it.is_file() and it.suffix in (".net", ".json"))
    small = [it for it in found if it.stat().st_size < (1500 if short else differ.CHECKED)]
    return [(it.name, it.read_text()) for it in small[::6 if short else 1]]


def sources(held, program, chance, networks, short):
    """What the program decides of the examples and of thrown networks: the sources of mutants."""
    found = []
    texts = designs(short) + [verdicts.thrown(chance) for _ in range(networks)]
    for kind, text in texts:
        try:
            net = opinion.read_design(text)[0]
        except opinion.Answer:
            held.told["refused"] += 1
            continue
        held.told[kind] += 1
        for prop in BOTH:
            status, written = held.decide(program, prop, text)
            held.check("decided", prop, text, status, written)
            if status == verdicts.YES and verdicts.is_broken(chance, net, prop):
                held.fail("a state breaks what has a yes", prop, text)
            if status in (verdicts.YES, verdicts.NO) and len(written) <= differ.MUTATED:
                found.append((text.encode(), prop, written))
    return found


def mutants(both, chance, found, count):
    """Mutants of what was decided; of those of a yes, some are of its definitions, and some get more of them."""
    for _ in range(count):
        design, prop, data = chance.choice(found)
        kind = "state" if data[:2] == b"no" else "certificate"
        if kind == "certificate" and chance.randrange(4) == 0:
            kind, data = "certificate with thrown definitions", differ.with_definitions(chance, design, prop, data)
        change = chance.choice((differ.mutant, differ.some_definition))
        both.compare(kind, ["check", prop], design + change(chance, data))


def main():
    words = argparse.ArgumentParser(description="Looks at what the program says of how ends share.")
    words.add_argument("program")
    words.add_argument("networks", nargs="?", type=int)
    words.add_argument("mutants", nargs="?", type=int)
    words.add_argument("--short", action="store_true")
    words.add_argument("--seed", type=int, default=8)
    told = words.parse_args()
    counts = [told.networks, told.mutants]
    networks, changed = (
        count if count is not None else few if told.short else many
        for count, few, many in zip(counts, SHORT, (NETWORKS, MUTANTS))
    )
    chance, held, both = random.Random(told.seed), verdicts.Verdicts((told.program,)), differ.Differ(told.program, None)
    mutants(both, chance, sources(held, told.program, chance, networks, told.short), changed)
    for counted in held.told, both.kinds, both.answers:
        print("\n".join(f"{count:7} {name}" for name, count in sorted(counted.items())) + "\n")
    print(f"{held.wrong + both.wrong} differences, {both.late} runs too long")
    sys.exit(held.wrong + both.wrong > 0)


if __name__ == "__main__":
    main()
