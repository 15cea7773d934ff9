#!/usr/bin/env python3
"""Holds the program and `check.py` against each other: on each input both must say the same, word for word.

    differ.py [--short] [--definitions] [--keep FOLDER] PROGRAM [MUTANTS]

The inputs are all of examples/, what the program decides and lays out of it, networks and blueprints that are thrown
together, and so many mutants of all these (20000 where none is told). It prints counts by kind and every difference,
and ends with 1 where there is one. `--short` runs about a hundred. With `--definitions` all mutants are of certificates
with definitions, of their own or thrown together. Nothing is written but, with `--keep`, the inputs of differences into
that folder. The generator is fixed: with one program the inputs are always the same."""

import argparse
import random
import re
import subprocess
import sys
from collections import Counter
from fractions import Fraction
from pathlib import Path

sys.dont_write_bytecode = True

import opinion

EXAMPLES = Path(__file__).resolve().parent.parent / "examples"
MUTANTS, SHORT = 20000, 50
CHECKED, MUTATED = 1 << 24, 12000  # bytes of a design or certificate that is still checked, and mutated
SECONDS = 20  # for one run of the program; what takes longer is left out
NUMBER = re.compile(rb"-?[0-9]+(?:/[0-9]+)?")
HUGE = [2 ** 127 - 1, 2 ** 127, 2 ** 126, 10 ** 18 - 1, 10 ** 18, 10 ** 40, 2 ** 64, 2048, 2049]
SMALL = [b"1/%d" % 2 ** 126, b"1/%d" % (2 ** 127 - 1), b"%d/3" % 2 ** 126, b"1/3"]
FRACTIONS = [b"1/2", b"2/4", b"1/3", b"-1/2", b"3/1", b"7/8", *SMALL]
BYTES = b" \n\t\r0123456789-/.,:\"\\{}[]abefinrstuxy\x00\x7f\x80\xbf\xc3\xe2\xed\xf0\xff"


class Differ:
    def __init__(self, program, keep):
        self.program, self.keep = program, keep
        self.kinds, self.answers, self.wrong, self.late = Counter(), Counter(), 0, 0

    def run(self, words, data):
        """What the program answers; None where it takes too long."""
        try:
            ran = subprocess.run([self.program, *words], input=data, capture_output=True, timeout=SECONDS, check=False)
        except subprocess.TimeoutExpired:
            self.late += 1
            return None
        return ran.returncode, ran.stdout.decode("latin-1")

    def compare(self, kind, words, data, theirs=None, mine=None, files=None):
        """One case: what the program answers, or is known to, and what the checker does, to the same or other words."""
        theirs = theirs or self.run(words, data)
        if theirs is None:
            return
        ours = opinion.run(mine or words, lambda most: data[:most], (files or {}).__getitem__)
        self.hold(kind, mine or words, data, theirs, ours)

    def hold(self, kind, words, data, theirs, ours):
        """Counts one case, and prints where the two answers to it differ."""
        self.kinds[kind] += 1
        said = ours[1].split("\n")[0].split() if ours[0] > 1 else ours[1].split()[:1]
        said = [word for n, word in enumerate(said) if n < 2 or not word.isdigit()]
        self.answers[" ".join([str(ours[0]), *said])] += 1
        if ours != theirs:
            self.wrong += 1
            print(f"difference {self.wrong} in {kind}, {' '.join(words)}: {theirs} and {ours}", flush=True)
            if self.keep:
                (self.keep / f"difference-{self.wrong}").write_bytes(data)

    def decided(self, design, prop):
        """Has the program decide, and the checker check it; what was decided, where it was."""
        theirs = self.run(["decide", prop], design)
        if theirs and theirs[0] in (0, 1) and len(theirs[1]) <= CHECKED:
            certificate = theirs[1].encode()
            says = (0, f"yes {prop}\n") if theirs[0] == 0 else (1, f"no {prop}\n")
            self.compare("decided", ["check", prop], design + certificate, says)
            return certificate
        if theirs and theirs[0] == 3:
            self.compare("decided", ["check", prop], design, theirs)
        return None

    def formula(self, design, prop):
        """The flow formula: the program's text, and that of the one that the checker builds."""
        theirs = self.run(["formula", prop], design)
        if theirs:
            try:
                net = opinion.read_design(design.decode("latin-1"), alone=True)[0]
                ours = 0, formula_text(net, opinion.FlowFormula(net, prop))
            except opinion.Answer as refused:
                ours = refused.status, refused.text
            self.hold("formula", ["formula", prop], design, theirs, ours)

    def laid(self, request, options, kind="laid"):
        """Has the program lay out, and the checker judge it; a blueprint, or a formula with a certificate."""
        theirs = self.run(["layout", *options, "--learnt", "2000"], request)
        words = ["laid", *options, "request"]
        if theirs and theirs[0] == 0:
            blueprint = theirs[1].encode()
            self.compare(kind, words, blueprint, (0, "laid\n"), words, {"request": request})
            self.compare(kind, ["recover"], blueprint)
            return blueprint, None
        if theirs and theirs[0] == 3:
            self.compare(kind, words, b"{}", theirs, words, {"request": request})
        formula = self.run(["formula", *options], request) if theirs and theirs[0] == 1 else None
        if formula and formula[0] == 0:
            return theirs[1].encode(), formula[1].encode()
        return None, None

    def none(self, request, options, certificate, formula):
        """A certificate that there is no layout: the program over the request, the checker over the formula."""
        theirs = self.run(["check-layout", *options], request + certificate)
        self.compare("none", ["none", "formula"], certificate, theirs, None, {"formula": formula})


def formula_text(net, formula):
    """The text of a flow formula."""
    columns = [*(f"f{e}" for e in range(len(net.edges))), *(f"c{i}" for _, i in net.ends("i")),
               *(f"d{o}" for _, o in net.ends("o")), "x"]
    rows = [["c row", variable, relation, bound, *(f"{number}*{columns[column]}" for column, number in terms)]
            for variable, (terms, relation, bound) in formula.rows.items()]
    clauses = [[*clause, 0] for clause in formula.clauses]
    lines = [["c block 1", len(net.edges), "mark edge"], *rows,
             ["p cnf", formula.variables, len(clauses)], *clauses]
    return "".join(" ".join(map(str, line)) + "\n" for line in lines)


def mutant(chance, data):
    """The data with one to three things changed: bytes, lines, numbers, signs or the order of numbers."""
    for _ in range(chance.choice((1, 1, 1, 2, 3))):
        changes = some_byte, some_line, some_number, some_sign, some_order, some_word
        certificate = data[:1] in b"yn" and data[:4] != b"net "
        data = chance.choice(changes + (some_step,) * 6 * certificate)(chance, data)
    return data


def some_byte(chance, data):
    at = chance.randrange(len(data) + 1)
    new = bytes([chance.choice(BYTES)])
    front, rest = data[:at], data[at + 1:]
    return chance.choice((front + new + data[at:], front + new + rest, front + rest, front))


def some_line(chance, data):
    lines = data.split(b"\n")
    one, other = chance.randrange(len(lines)), chance.randrange(len(lines))
    how = chance.randrange(5)
    if how == 0:
        del lines[one]
    elif how == 1:
        lines.insert(other, lines[one])
    elif how == 2:
        lines[one], lines[other] = lines[other], lines[one]
    elif how == 3:
        lines.insert(one, chance.choice((b"", b" ", b"end", b"x", b"f 0", b"r 0 1 0", b"r 0 0")))
    else:
        lines[one] += chance.choice((b" ", b" 0", b"\r", b" 1", b"\n\n"))
    return b"\n".join(lines)


def some_number(chance, data):
    places = list(NUMBER.finditer(data))
    if not places:
        return data
    place = chance.choice(places)
    old = place[0].split(b"/")
    value = int(old[0])
    new = chance.choice((
        b"%d" % (value + 1), b"%d" % (value - 1), b"%d" % (2 * value), b"0", b"0" + place[0],
        b"%d" % chance.randrange(40), b"%d" % chance.randrange(5), chance.choice(FRACTIONS),
        chance.choice(places)[0], chance.choice(places)[0],
        b"%d" % (chance.choice(HUGE) * chance.choice((1, 1, -1))), b"%d/%s" % (value, b"2" if value % 2 else b"3")))
    return data[:place.start()] + new + data[place.end():]


def some_sign(chance, data):
    places = list(NUMBER.finditer(data))
    if not places:
        return data
    at = chance.choice(places).start()
    return data[:at] + data[at + 1:] if data[at:at + 1] == b"-" else data[:at] + b"-" + data[at:]


def some_order(chance, data):
    """Two words of one line changed with each other, or one of them dropped or said twice."""
    lines = data.split(b"\n")
    at = chance.randrange(len(lines))
    words = lines[at].split(b" ")
    one, other = chance.randrange(len(words)), chance.randrange(len(words))
    how = chance.randrange(4)
    if how < 2:
        words[one], words[other] = words[other], words[one]
    elif how == 2:
        del words[one]
    else:
        words.insert(other, words[one])
    lines[at] = b" ".join(words)
    return b"\n".join(lines)


def some_step(chance, data):
    """A step with other hints, literals or weights, as it might well be written; of a state some values scaled."""
    lines = data.split(b"\n")
    steps = [n for n, line in enumerate(lines) if line[:2] in (b"f ", b"r ")]
    if not steps:
        few = (b"0", b"1", b"1/2", b"3/4", b"1/3", chance.choice(SMALL))
        often = chance.randrange(2, 12)
        return b"\n".join(NUMBER.sub(lambda n: n[0] if chance.randrange(often) else chance.choice(few), line)
                          if line[:5] in (b"load ", b"room ", b"flow ") else line for line in lines)
    at = chance.choice(steps)
    words = lines[at].split(b" ")
    zero = words.index(b"0") if b"0" in words else len(words) - 1
    front, rest = words[1:zero], words[zero + 1:]
    how = chance.randrange(8)
    if words[0] == b"f" and how < 3 and rest:  # all weights times one number: as good as before, or too wide
        by = chance.choice((2, 3, 7, 2 ** 60, 2 ** 125, 2 ** 126))
        rest = [b"%d" % (int(w) * by) if w.lstrip(b"-").isdigit() else w for w in rest]
        if how == 0:
            rest[chance.randrange(len(rest))], rest[chance.randrange(len(rest))] = chance.sample(SMALL, 2)
    elif words[0] == b"f" and how < 5 and front and len(front) == len(rest):  # the same rows in another order
        order = chance.sample(range(len(front)), len(front))
        front, rest = [front[n] for n in order], [rest[n] for n in order]
    elif how < 5 and len(rest) > 2:  # hints in another order, once more, or fewer
        hint = chance.randrange(len(rest) - 1)
        rest.insert(chance.randrange(len(rest)), rest[hint] if how < 2 else rest.pop(hint))
        rest = rest[:hint] + rest[hint + 1:] if how == 4 else rest
    elif how < 6 and front:  # a literal more, fewer, or the contrary
        one = chance.randrange(len(front))
        other = front[one][1:] if front[one][:1] == b"-" else b"-" + front[one]
        front[one] = chance.choice((other, front[0], b"-1", b"1"))
    else:
        front = front + [chance.choice((b"1", b"-1", b"2", b"-9", b"-12"))]
    lines[at] = b" ".join([words[0], *front, b"0", *rest])
    return b"\n".join(lines)


def is_definition(line):
    return line[:2] in (b"p ", b"c ", b"v ")


def some_definition(chance, data):
    """A definition with another number, sign or order of words, or one more, fewer, or elsewhere."""
    lines = data.split(b"\n")
    places = [n for n, line in enumerate(lines) if is_definition(line)]
    if not places:
        return mutant(chance, data)
    one, other, how = chance.choice(places), chance.choice(places), chance.randrange(9)
    if how < 6:
        lines[one] = chance.choice((some_number, some_number, some_sign, some_order))(chance, lines[one])
    elif how == 6:
        lines[one], lines[other] = lines[other], lines[one]
    elif how == 7:
        lines.insert(chance.randrange(len(lines)), lines.pop(one))
    else:
        lines.insert(one, thrown_definition(chance, 20, 6).encode())
    return b"\n".join(lines)


WORDS = {
    b"transport-belt": (b"underground-belt", b"fast-transport-belt", b"splitter", b"inserter"),
    b"underground-belt": (b"transport-belt", b"express-underground-belt"),
    b"splitter": (b"turbo-splitter", b"transport-belt", b"loader"),
    b'"input"': (b'"output"', b'"inp\\u0075t"', b"null"), b'"output"': (b'"input"', b'"x"'),
    b'"position"': (
        b'"filter":null,"position"', b'"control_behavior":{},"position"', b'"Position"', b'"pos\\u0069tion"',
        b'"input_priority":"none","position"', b'"output_priority":"up","position"', b'"x":[[[]]],"position"',
        b'"output_priority":"left","position"', b'"input_priority":"right","position"', b'"name":1,"position"',
        b'"\\ud83d\\ude00":"\\ud800","position"', b'"\\ud800":1,"\\udc00":2,"position"'),
    b'"direction"': (b'"dir"', b'"direction":0,"direction"'), b'"x"': (b'"z"', b'"x":1,"x"'),
    b"entities": (b"tiles", b"entities\\"), b'"blueprint"': (b'"blueprint_book"', b'"blue"', b"1"),
    b"version": (b"versio", b'version":562949953421312,"z'), b".5": (b".50", b".25", b".5e0", b"e1", b".", b""),
    b"1": (b"1.0", b"10e-1", b"1E+0", b"1e", b"1e99999999999999999999", b"1.5", b"-1"),
    b"0": (b"-0", b"00", b"0.0", b"0e9"),
    b"{": (b"{{", b"[" * 60 + b"{", b"{ "), b"}": (b"}}", b"},", b"} "), b":": (b" :\t", b"::", b","),
    b",": (b" ,\r\n", b",,", b"}"),
    b" f": (b" b",), b" b": (b" f",), b"yes": (b"no",), b"no": (b"yes", b"on"), b"r ": (b"f ",), b"f ": (b"r ",),
    b"p ": (b"c ", b"v ", b"p 0 ", b"c 1 "), b"c ": (b"p ", b"v "), b"v ": (b"p ", b"c ", b"v -1 "),
    b"edge": (b"pin", b"block", b"Edge"), b"end": (b"en", b"end "),
    b"s": (b"i", b"o"), b"i": (b"s", b"o"), b"o": (b"s", b"i"),
    b"balanced": (b"unlimited", b"full"), b"north": (b"south", b"up"), b"east": (b"west",), b"south": (b"south ",),
}


def some_word(chance, data):
    """A word of the formats that stands there made another."""
    old = chance.choice([word for word in WORDS if word in data] or [b""])
    if not old:
        return data
    at = chance.choice([place.start() for place in re.finditer(re.escape(old), data)])
    return data[:at] + chance.choice(WORDS[old]) + data[at + len(old):]


def thrown_net(chance):
    """A network text, thrown together and often right."""
    inputs, outputs, splitters = chance.randrange(1, 4), chance.randrange(1, 4), chance.randrange(4)
    starts = [f"i{n}" for n in range(inputs)] + [f"s{n}" for n in range(splitters)] * 2
    targets = [f"o{n}" for n in range(outputs)] + [f"s{n}" for n in range(splitters)] * 2
    chance.shuffle(starts)
    chance.shuffle(targets)
    must = [s for s in starts if s[0] == "i"], [t for t in targets if t[0] == "o"]
    count = max(len(must[0]), len(must[1]), chance.randrange(len(starts) + 1))
    starts = (must[0] + [s for s in starts if s[0] == "s"])[:count]
    targets = (must[1] + [t for t in targets if t[0] == "s"])[:count]
    chance.shuffle(targets)
    caps = chance.choice((("",), ("",), ("", " 2", " 3", " 4", " 1")))
    lines = [f"edge {s} {t}{chance.choice(caps)}" for s, t in zip(starts, targets)]
    chance.shuffle(lines)
    lines += thrown_priorities(chance, splitters, lines) if chance.randrange(2) else []
    return "\n".join([f"net {inputs} {outputs} {splitters}", *lines, "end", ""]).encode()


def thrown_priorities(chance, splitters, edges):
    """Lines of priorities behind those of edges, mostly right."""
    lines = []
    for n in range(splitters):
        for word, place in ("give", 1), ("take", 2):
            near = [e for e, line in enumerate(edges) if line.split()[place] == f"s{n}"]
            if word == "take" and chance.randrange(4) == 0:
                lines.append(f"take s{n} any")
            elif near and chance.randrange(2):
                lines.append(f"{word} s{n} {chance.choice(near)}")
    if chance.randrange(12) == 0:
        edge = chance.choice((chance.randrange(8), "any"))
        lines.append(f"{chance.choice(('give', 'take'))} s{chance.randrange(4)} {edge}")
    chance.shuffle(lines)
    return lines


def thrown_blueprint(chance):
    """Belts, pairs of underground pieces and splitters, thrown into a small rectangle; mostly with few overlaps."""
    width, height = chance.randrange(1, 7), chance.randrange(1, 7)
    eighths, tiers = chance.choice((2, 2, 4)), chance.choice((("",), ("",), ("", "fast-", "express-", "turbo-")))
    ways = chance.choice(((0,), (0, 1), (0, 1, 2, 3), (0, 0, 0, 1, 3)))
    taken, entities = set(), []

    def put(name, way, x, y, piece=""):
        across = name.endswith("splitter")
        cells = {(x, y), (x + 1 - way % 2, y + way % 2)} if across else {(x, y)}
        if not taken & cells or chance.randrange(40) == 0:
            taken.update(cells)
            place = f'"x":{x + 0.5 + 0.5 * (across and not way % 2)},"y":{y + 0.5 + 0.5 * (across and way % 2)}'
            entities.append(f'{{"name":"{name}","position":{{{place}}},"direction":{way * eighths}{piece}}}')

    for _ in range(chance.randrange(1, width * height + 1)):
        kind, tier, way = chance.choice("bbbbbsu"), chance.choice(tiers), chance.choice(ways)
        x, y = chance.randrange(width), chance.randrange(height)
        if kind == "u":
            steps, (dx, dy) = chance.choice((1, 2, 3, 4, 5, 6, 11, 12)), opinion.STEPS[way]
            put(tier + "underground-belt", way, x, y, ',"type":"input"')
            if chance.randrange(6):
                other = chance.choice((way,) * 9 + (chance.randrange(4),))
                put(tier + "underground-belt", other, x + steps * dx, y + steps * dy, ',"type":"output"')
        else:
            side = chance.choice(('', '', ',"input_priority":"left"', ',"output_priority":"right"'))
            put(tier + ("transport-belt" if kind == "b" else "splitter"), way, x, y, side)
    version = 562949953421312 if eighths == 4 else 281479271677952
    return f'{{"blueprint":{{"entities":[{",".join(entities)}],"version":{version}}}}}'.encode()


def thrown_state(chance, design, prop):
    """A state of a network whose fractions are few, so that many laws hold by chance; often splitters lose nothing."""
    inputs, outputs = map(int, design.split()[1:3])
    edges = design.count(b"edge")
    few = [Fraction(word) for word in chance.choice(("0 1", "0 1/2 1", "1", "0 1/3 2/3 1", "1 2 3 4")).split()]
    loads, rooms, flows = ([chance.choice(few) for _ in range(count)] for count in (inputs, outputs, edges))
    try:
        net = opinion.read_net(design.decode())[0]
    except opinion.Answer:
        net = None
    if net and chance.randrange(5):
        share = {s: Fraction(chance.choice(("1/2", "1/2", "1/2", "1", "0", "1/3"))) for s in net.ends("s")}
        for s in net.ends("s") * 4:
            coming = sum(flows[e] for e in net.ins[s])
            first = net.first["give"].get(s[1])
            for e, part in zip(net.outs[s], (share[s], 1 - share[s]) if len(net.outs[s]) == 2 else (1,)):
                flows[e] = coming * (part if first is None or chance.randrange(4) == 0 else e == first)
        gives, takes = ([flows[near[end][0]] for end in net.ends(k)] for k, near in (("i", net.outs), ("o", net.ins)))
        loads = gives if chance.randrange(2) else [Fraction(1)] * inputs
        rooms = takes if chance.randrange(2) else [Fraction(1)] * outputs
    marks = "".join(chance.choice(("f", "f", "b")) for _ in range(edges))
    lists = ("load", loads), ("room", rooms), ("flow", flows), ("mark", marks)
    lines = [" ".join([word, *map(str, values)]) for word, values in lists]
    return "\n".join([f"no {prop}", *lines, "end", ""]).encode()


def thrown_certificate(chance, design, prop):
    """Steps of which some follow by propagation, some are sums of rows, and some were then changed."""
    try:
        formula = opinion.FlowFormula(opinion.read_net(design.decode())[0], prop)
    except opinion.Answer:
        return f"yes {prop}\nend\n".encode()
    definitions = thrown_definitions(chance, formula) if chance.randrange(2) else []
    lines = [f"yes {prop}", *(line.decode() for line in definitions)]
    clauses = [list(clause) for clause in formula.clauses]
    for _ in range(chance.randrange(1, 7)):
        letter = chance.choice("fr")
        if letter == "f":
            atoms = chance.sample(sorted(formula.rows), min(chance.randrange(1, 5), len(formula.rows)))
            literals, rest = [-atom for atom in atoms], [chance.choice("1112") for _ in atoms]
            rest = [chance.choice(("0", "-1", "1/2")) if chance.randrange(6) == 0 else weight for weight in rest]
        else:
            literals = [chance.choice((1, -1)) * chance.randrange(1, formula.variables + 1)
                        for _ in range(chance.choice((0, 1, 1, 2, 3)))]
            rest = [*propagated(chance, clauses, literals), "0"]
        if chance.randrange(4) == 0:
            literals += [chance.choice((*literals, formula.variables, formula.variables + 1, -1, 1))]
        if chance.randrange(4) == 0 and len(rest) > 1:
            rest[chance.randrange(len(rest) - 1)] = str(chance.choice((len(clauses), len(clauses) + 1, 1)))
        clauses.append(literals)
        lines.append(" ".join([letter, *map(str, literals), "0", *map(str, rest)]))
    return "\n".join([*lines, "end", ""]).encode()


def with_definitions(chance, design, prop, data):
    """A certificate with definitions at its front: it stays as good as it was, where all of these may stand there."""
    try:
        formula = opinion.FlowFormula(opinion.read_design(design.decode("latin-1"))[0], prop)
    except opinion.Answer:
        return data
    first, _, steps = data.partition(b"\n")
    clauses = len(formula.clauses)
    lines = thrown_definitions(chance, formula)
    added = len(formula.clauses) - clauses
    return b"\n".join([first, *lines, *(renumbered(line, clauses, added) for line in steps.split(b"\n"))])


def renumbered(line, clauses, added):
    """A step whose hints behind so many clauses are that many more."""
    front, zero, rest = line.rpartition(b" 0")[0].partition(b" 0")
    if line[:1] != b"r" or not zero:
        return line
    hints = [int(word) for word in rest.split()]
    return b" ".join([front + zero, *(b"%d" % (hint + added * (hint > clauses)) for hint in hints), b"0"])


def thrown_definitions(chance, formula):
    """Lines of definitions, mostly such as may stand there, by which the formula is extended."""
    lines = []
    for _ in range(chance.choice((1, 1, 2, 3, 6))):
        line = thrown_definition(chance, formula.variables, formula.columns)
        if opinion.define(formula, [line]) or chance.randrange(20) == 0:
            lines.append(line.encode())
    return lines


def thrown_definition(chance, variables, columns):
    """The line of a definition over so many variables and columns."""
    few = ["1", "1", "-1", "-1", "1/2", "2", "-3/7", str(2 ** 127 - 1), f"1/{2 ** 126}"]

    def form():
        chosen = sorted(chance.sample(range(1, columns + 1), min(columns, chance.choice((0, 1, 1, 2, 2, 3)))))
        terms = [f"{chance.choice(few)} {column}" for column in chosen]
        return " ".join([chance.choice(["0", "0", *few]), *terms, "0"])

    kind = chance.choice("ppccv")
    if kind == "v":
        chosen = sorted(chance.sample(range(1, variables + 1), min(variables, chance.randrange(1, 4))))
        return " ".join(["v", *(f"{chance.choice(('', '-'))}{variable}" for variable in chosen), "0"])
    return f"p {form()}" if kind == "p" else f"c {chance.randrange(1, variables + 1)} {form()} {form()}"


def propagated(chance, clauses, literals):
    """The clauses that become unit in turn where literals are false, in an order by chance, up to a conflict."""
    false, hints, order = set(literals), [], chance.sample(range(len(clauses)), len(clauses))
    for _ in range(4):
        for n in order:
            left = set(clauses[n]) - false
            if not left:
                return [*hints, n + 1]
            if len(left) == 1 and not any(-literal in false for literal in left):
                false |= {-literal for literal in left}
                hints.append(n + 1)
    return hints


def examples(differ, short):
    """All examples and what the program makes of them; the sources of mutants, by kind."""
    sources = {kind: [] for kind in ("certificate", "state", "net", "json", "request", "none")}
    designs, certificates = {}, []
    for path in sorted((it for it in EXAMPLES.iterdir() if it.is_file())):
        name, _, kind = path.name.partition(".")
        data = path.read_bytes()
        if kind in ("net", "json"):
            designs.setdefault(name, []).append(data)
            differ.compare("example", ["recover"], data)
            sources[kind].append(data)
        elif kind.split("-")[0] in ("yes", "not", "nearly"):
            # What is said of two networks is held against `same.py`.
            certificates += [(name, prop, data) for prop in opinion.PROPERTIES if kind.endswith(prop)]
        elif kind == "request":
            sources["request"].append((data, ["--grid", "5x8"]))
    for name, prop, data in certificates[::8 if short else 1]:
        for design in designs[name]:
            for words in (["check", prop], ["flow-check", prop], ["check", "full"]):
                differ.compare("example", words, design + data)
        if len(data) <= MUTATED:
            sources["certificate" if data[:3] == b"yes" else "state"].append((designs[name][-1], prop, data))
    for name in list(designs)[::4 if short else 1]:
        design = min(designs[name], key=len)
        for prop in opinion.PROPERTIES if len(design) < (MUTATED if short else CHECKED) else ():
            differ.formula(design, prop)
            certificate = differ.decided(design, prop)
            if certificate and len(certificate) <= MUTATED:
                sources["certificate" if certificate[:3] == b"yes" else "state"].append((design, prop, certificate))
    small = [(designs["splitter-2-to-2"][-1], f"{w}x{h}") for w, h in ((1, 2), (2, 2), (2, 3), (3, 3), (4, 4))]
    sources["request"] += [(design, ["--grid", grid]) for design, grid in small]
    for request, options in list(sources["request"]):
        answer, formula = differ.laid(request, options)
        if formula:
            differ.none(request, options, answer, formula)
            sources["none"].append((request, options, answer, formula))
        elif answer:
            sources["json"].append(answer)
    return sources


def mutants(differ, chance, sources, count):
    for _ in range(count):
        roll = chance.randrange(100)
        prop = chance.choice(opinion.PROPERTIES)
        if roll < 30:
            design, prop, data = chance.choice(sources["certificate"])
            kind = chance.choice(("certificate", "certificate with definitions"))
            data = data if kind == "certificate" else with_definitions(chance, design, prop, data)
            differ.compare(kind, ["check", prop], design + mutant(chance, data))
        elif roll < 50:
            design, prop, data = chance.choice(sources["state"])
            differ.compare("state", [chance.choice(("check", "flow-check")), prop], design + mutant(chance, data))
        elif roll < 56:
            design, prop, data = chance.choice(sources[chance.choice(("certificate", "state"))])
            differ.compare("design with certificate", ["check", prop], mutant(chance, design) + data)
        elif roll < 64:
            differ.compare("network text", ["recover"], mutant(chance, chance.choice(sources["net"])))
        elif roll < 75:
            differ.compare("blueprint", ["recover"], mutant(chance, chance.choice(sources["json"])))
        elif roll < 84:
            differ.compare("thrown blueprint", ["recover"], thrown_blueprint(chance))
        elif roll < 88:
            design = thrown_net(chance)
            differ.formula(design, prop)
            differ.decided(design, prop)
        elif roll < 92:
            design = thrown_net(chance)
            differ.compare("thrown certificate", ["check", prop], design + thrown_certificate(chance, design, prop))
        elif roll < 96 or roll == 99 and not sources["none"]:
            design, prop = thrown_net(chance), chance.choice(("unlimited", "unlimited", prop))
            differ.compare("thrown state", ["flow-check", prop], design + thrown_state(chance, design, prop))
        elif roll < 99:
            request, options = chance.choice(sources["request"])
            differ.laid(mutant(chance, request), options, "request")
        else:
            request, options, data, formula = chance.choice(sources["none"])
            differ.none(request, options, mutant(chance, data), formula)


def defined_mutants(differ, chance, sources, count):
    """Mutants of certificates with definitions: every other one of one with its own, where there are such."""
    thrown = sources["certificate"]
    own = [it for it in thrown if any(map(is_definition, it[2].split(b"\n")))]
    for number in range(count):
        if own and number % 2:
            kind, (design, prop, data) = "certificate with its definitions", chance.choice(own)
        else:
            kind, (design, prop, data) = "certificate with thrown definitions", chance.choice(thrown)
            data = with_definitions(chance, design, prop, data)
        data = chance.choice((mutant, some_definition))(chance, data)
        differ.compare(kind, ["check", prop], design + data)


def main():
    words = argparse.ArgumentParser(description="Holds the program and check.py against each other.")
    words.add_argument("program")
    words.add_argument("mutants", nargs="?", type=int)
    words.add_argument("--short", action="store_true")
    words.add_argument("--definitions", action="store_true")
    words.add_argument("--keep", type=Path)
    told = words.parse_args()
    differ = Differ(told.program, told.keep)
    sources = examples(differ, told.short)
    count = told.mutants if told.mutants is not None else SHORT if told.short else MUTANTS
    (defined_mutants if told.definitions else mutants)(differ, random.Random(1), sources, count)
    for counts in differ.kinds, differ.answers:
        print("\n".join(f"{count:7} {name}" for name, count in sorted(counts.items())) + "\n")
    print(f"{sum(differ.kinds.values())} inputs, {differ.wrong} differences, {differ.late} runs too long")
    sys.exit(differ.wrong > 0)


if __name__ == "__main__":
    main()
