"""Certificates: definitions, and steps, up to one that adds the empty clause.

Definitions come first, and extend the formula. Each step adds a clause that follows.

A step of the first kind, `f`, is a sum of rows that no values meet, so not all of them hold. A
step of the second kind, `r`, follows by propagation over clauses that its hints name.
"""

import re
from collections import defaultdict
from fractions import Fraction

from opinion.answers import INPUT_REFUSED, Answer, need
from opinion.definitions import define
from opinion.formula import Formula
from opinion.lines import nothing_after
from opinion.numbers import fraction_of, plus

NUMBER = "-?[1-9][0-9]{0,17}"
LEARNT = re.compile(f"r((?: {NUMBER})*) 0((?: [1-9][0-9]{{0,17}})*) 0")
LEMMA = re.compile(f"f((?: {NUMBER})*) 0((?: [-/0-9]+)*)")
DIMACS_HEADER = re.compile("p cnf ([0-9]{1,9}) ([0-9]{1,9})")
DIMACS_CLAUSE = re.compile(f"((?:{NUMBER} )*)0")


def check_steps(formula, first, lines):
    """Ends without a refusal where the lines are a certificate that refutes the formula.

    They are that first line, definitions, which extend the formula, steps and `end`. The last
    step is the empty clause.
    """
    need(lines[0] == first, 50, "CertLine", 1)
    number = 2 + define(formula, lines[1:])
    clauses = [frozenset(clause) for clause in formula.clauses]
    while lines[number - 1] != "end":
        clauses.append(checked_step(formula, clauses, lines[number - 1], number))
        number += 1
    need(len(clauses) > len(formula.clauses) and not clauses[-1], 52, "NoVerdict")
    nothing_after(lines, number)


def checked_step(formula, clauses, line, number):
    """The clause of a step, on the line of that number, which follows from those before it."""
    learnt = LEARNT.fullmatch(line)
    if learnt:
        literals, hints = ([int(word) for word in words.split()] for words in learnt.groups())
        check_learnt(formula, clauses, literals, hints, number)
        return frozenset(literals)
    lemma = LEMMA.fullmatch(line)
    need(lemma, 50, "CertLine", number)
    weights = [fraction_of(word) for word in lemma[2].split()]
    need(None not in weights, 50, "CertLine", number)
    literals = [int(word) for word in lemma[1].split()]
    check_lemma(formula, literals, weights, number)
    return frozenset(literals)


def check_lemma(formula, literals, weights, line):
    """The rows of the literals, times the weights, must add up to one that no values meet.

    Each literal says that a row does not hold. A weight is negative only of an equation. In the
    sum each column has the factor 0, and the bound is positive, or 0 where a row of a positive
    weight is strict.
    """
    is_row = all(-literal in formula.rows for literal in literals)
    need(is_row, 51, "BadStep", line, "literal")
    rows = [formula.rows[-literal] for literal in literals]
    may_weigh = all(
        weight >= 0 or relation == "=" for (_, relation, _), weight in zip(rows, weights)
    )
    need(may_weigh and len(weights) == len(rows), 51, "BadStep", line, "weight")
    factors, bound = sum_of_rows(rows, weights, line)
    is_strict = any(row[1] == ">" and weight > 0 for row, weight in zip(rows, weights))
    is_unmet = not any(factors) and (bound > 0 or bound == 0 and is_strict)
    need(is_unmet, 51, "BadStep", line, "sum")


def sum_of_rows(rows, weights, line):
    """The factors and the bound of a sum of rows times weights.

    Where a number on the way is too wide, the row and the column are told; the bound's column is
    behind all others of these rows.
    """
    bound_column = max((column + 1 for terms, _, _ in rows for column, _ in terms), default=0)
    sums = defaultdict(Fraction)
    for place, ((terms, _, bound), weight) in enumerate(zip(rows, weights)):
        for column, number in [*terms, (bound_column, bound)]:
            try:
                sums[column] = plus(sums[column], weight, number)
            except OverflowError:
                need(False, 53, "CertWide", line, place, column)
    bound = sums.pop(bound_column, 0)
    return sums.values(), bound


def check_learnt(formula, clauses, literals, hints, line):
    """Were all literals false, the hinted clauses would lead to a contradiction.

    Of each hinted clause but the last all literals are false but one, which becomes true. Of the
    last all are false.
    """
    false = set(literals)
    is_clause = all(abs(x) <= formula.variables and -x not in false for x in false)
    need(is_clause, 51, "BadStep", line, "literal")
    are_before = all(hint <= len(clauses) for hint in hints)
    need(are_before, 51, "BadStep", line, "hint")
    for hint in hints[:-1]:
        left = clauses[hint - 1] - false
        need(len(left) == 1, 51, "BadStep", line, "unit")
        (literal,) = left
        need(-literal not in false, 51, "BadStep", line, "unit")
        false.add(-literal)
    need(hints and clauses[hints[-1] - 1] <= false, 51, "BadStep", line, "unit")


def read_dimacs(lines):
    """The formula of a text in DIMACS: a line `p cnf`, clauses, and comments anywhere.

    There are as many clauses as `p cnf` tells, a line each. Refused is the first line that may
    not stand where it does, or the last where a clause is missing.
    """
    formula, count = None, 0
    for number, line in enumerate(lines, 1):
        header, clause = DIMACS_HEADER.fullmatch(line), DIMACS_CLAUSE.fullmatch(line)
        literals = [int(word) for word in clause[1].split()] if clause else []
        if header and not formula:
            formula, count = Formula(int(header[1])), int(header[2])
        elif clause and formula and max(map(abs, literals), default=0) <= formula.variables:
            formula.clauses.append(literals)
        elif number == len(lines) and formula and count == len(formula.clauses):
            return formula
        elif line[:1] != "c":
            raise Answer(INPUT_REFUSED, "refused formula", number)
    raise AssertionError("the empty line behind all others is refused")
