"""Definitions: rows, columns and variables that a certificate brings, which make no formula false.

A form is a number and terms, each a column and its factor. `p FORM` is a comparison: the sum of
the form's terms is at least its number, or it is less. `c V FORM FORM` is a column by cases: it is
the first form, number included, where variable V is true, and else the second. `v L .. 0` is a
variable that is true just where one of the literals is.
"""

from fractions import Fraction

from opinion.numbers import fraction_of

MOST_DEFINITIONS = 1 << 20
ONE = Fraction(1)


class NoDefinition(Exception):
    """The line is that of no definition that may stand there."""


def demand(right):
    """Ends the reading of a line that breaks a rule."""
    if not right:
        raise NoDefinition


def define(formula, lines):
    """Extends the formula by the definitions at the front of the lines; how many these are.

    They are at most MOST_DEFINITIONS, and end before the first line that is none.
    """
    for count, line in enumerate(lines[:MOST_DEFINITIONS]):
        try:
            extend(formula, line)
        except NoDefinition:
            return count
    return min(len(lines), MOST_DEFINITIONS)


def extend(formula, line):
    """Extends the formula by the definition of a line.

    A formula without rows takes definitions of variables alone.
    """
    letter, *words = line.split(" ")
    values = [fraction_of(word) for word in words]
    demand(letter in ("p", "c", "v") and None not in values)
    demand(letter == "v" or formula.rows)
    if letter == "p":
        number, terms = only(*form(values, formula.columns))
        formula.compare(terms, number)
    elif letter == "c":
        variable, *values = values or [0]
        first, rest = form(values, formula.columns)
        second = only(*form(rest, formula.columns))
        cases(formula, only_number(variable, formula.variables), first, second)
    else:
        disjunction(formula, literals(values, formula.variables))


def only(found, rest):
    """What was found, where nothing more stands on the line."""
    demand(not rest)
    return found


def only_number(value, most):
    """A whole number from 1 to the most."""
    demand(value.denominator == 1 and 1 <= value <= most)
    return int(value)


def form(values, columns):
    """The form at the front of values, and the values behind it.

    It is a number, and terms up to a 0. Columns ascend, and are numbered from 1 in the text.
    """
    demand(values)
    number, *rest = values
    terms, last = [], 0
    while rest and rest[0]:
        demand(len(rest) > 1)
        factor, column, *rest = rest
        demand(only_number(column, columns) > last)
        last = int(column)
        terms.append((last - 1, factor))
    demand(rest)
    return (number, terms), rest[1:]


def literals(values, variables):
    """The literals of a line, at least one and a 0 behind them, in the order of their variables."""
    demand(len(values) > 1 and values[-1] == 0)
    for value in values[:-1]:
        only_number(abs(value), variables)
    found = [int(value) for value in values[:-1]]
    numbers = [abs(literal) for literal in found]
    demand(all(one < other for one, other in zip(numbers, numbers[1:])))
    return found


def cases(formula, variable, first, second):
    """One more column: the first form where the variable is true, and else the second."""
    column = formula.columns
    is_first = is_form(formula, column, *first)
    is_second = is_form(formula, column, *second)
    formula.clauses += [[-variable, bound] for bound in is_first]
    formula.clauses += [[variable, bound] for bound in is_second]


def is_form(formula, column, number, terms):
    """The variables that say that a column is at least a form, and at most that."""
    turned = [(other, -factor) for other, factor in terms]
    above = formula.compare([*turned, (column, ONE)], number)
    below = formula.compare([*terms, (column, -ONE)], -number)
    return above, below


def disjunction(formula, found):
    """One more variable: it is true just where one of the literals is."""
    formula.variables += 1
    variable = formula.variables
    formula.clauses.append([-variable, *found])
    formula.clauses += [[variable, -literal] for literal in found]
