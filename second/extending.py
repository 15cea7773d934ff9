#!/usr/bin/env python3
"""Looks whether definitions leave formulas the models that they have.

    extending.py [NETWORKS]

It throws so many networks together (2000 where none is told), with priorities and tiers, and loads and rooms, and
reckons a steady state of them as `simplest.py` does. The state is a model of the formula of the laws, and of that of
each property that it breaks: a number for each column, and a truth for each variable, such that each clause holds, and
each row whose variable is true. Rows' variables are then made false by chance where the clauses allow it. Each formula
is extended by definitions that are thrown together, and the model with it, by what the definitions say: it must be one
of the extended formula. It prints counts and every model that is lost, and ends with 1 where one is. The generator is
fixed."""

import argparse
import random
import sys
from collections import Counter
from fractions import Fraction

sys.dont_write_bytecode = True

import differ
import opinion
import simplest

NETWORKS, MOST = 2000, 6  # and the most definitions of one formula
HOLDS = {">=": lambda x, y: x >= y, ">": lambda x, y: x > y, "=": lambda x, y: x == y}


def is_met(row, columns):
    terms, relation, bound = row
    return HOLDS[relation](sum(columns[column] * factor for column, factor in terms), bound)


class Model:
    """A number for each column of a formula, and a truth for each variable."""

    def __init__(self, formula, columns, marks):
        self.columns, self.truths = list(columns), dict(enumerate(marks, 1))
        self.learn(formula)
        self.deny(formula)

    def learn(self, formula):
        """Takes each variable of a row that is new to be true just where the row is met."""
        rows = {variable: row for variable, row in formula.rows.items() if variable not in self.truths}
        self.truths.update({variable: is_met(row, self.columns) for variable, row in rows.items()})

    def deny(self, formula):
        """Takes each variable of a row to be false that would imply another which is false, as of ends that aren't
        short."""
        for clause in formula.clauses:
            if len(clause) == 2 and -clause[0] in formula.rows and not self.is_true(clause[1]):
                self.truths[-clause[0]] = False

    def is_true(self, literal):
        return self.truths[abs(literal)] == (literal > 0)

    def meets(self, formula):
        """Whether each clause holds, and each row whose variable is true; of as many variables as there are."""
        return (len(self.truths) == formula.variables
                and all(any(map(self.is_true, clause)) for clause in formula.clauses)
                and all(is_met(row, self.columns) for it, row in formula.rows.items() if self.truths[it]))

    def weaken(self, chance, formula):
        """Makes some rows' variables false where each clause still holds."""
        for variable in chance.sample(sorted(formula.rows), len(formula.rows) // 3):
            before, self.truths[variable] = self.truths[variable], False
            if not all(any(map(self.is_true, clause)) for clause in formula.clauses if variable in clause):
                self.truths[variable] = before

    def form(self, words):
        """The value of a form at the front of words, and the words behind it."""
        end = words.index("0", 1)
        terms = zip(words[1:end:2], words[2:end:2])
        value = Fraction(words[0]) + sum(Fraction(factor) * self.columns[int(column) - 1] for factor, column in terms)
        return value, words[end + 1:]

    def extend(self, formula, line):
        """Gives what the definition of a line adds to the formula the value that it says."""
        letter, *words = line.split()
        if letter == "c":
            first, rest = self.form(words[1:])
            second, _ = self.form(rest)
            self.columns.append(first if self.truths[int(words[0])] else second)
        self.learn(formula)
        if letter == "v":
            self.truths[formula.variables] = any(self.is_true(int(word)) for word in words[:-1])


class Extending:
    def __init__(self):
        self.told, self.wrong = Counter(), 0

    def fail(self, what, net, lines):
        self.wrong += 1
        print(f"{what}:\n{net.text()}\n" + "\n".join(lines), flush=True)

    def hold(self, chance, net, prop, state):
        """A state that is a model of the formula of a property, or of none, and definitions of it."""
        loads, rooms, flows, backed = state
        formula = opinion.FlowFormula(net, prop)
        model, lines = Model(formula, [*flows, *loads, *rooms, *simplest.level(net, prop, flows)], backed), []
        if not model.meets(formula):
            self.fail(f"no model of the formula, {prop}", net, lines)
        model.weaken(chance, formula)
        for _ in range(chance.randint(1, MOST)):
            line = differ.thrown_definition(chance, formula.variables, formula.columns)
            if opinion.define(formula, [line]):
                lines.append(line)
                model.extend(formula, line)
                self.told[f"definitions {line[0]}"] += 1
        self.told[f"models, {prop}"] += 1
        if not model.meets(formula):
            self.fail(f"a model is lost, {prop}", net, lines)

    def throw(self, chance):
        """A network and a state of it; whether there was one."""
        try:
            net = opinion.read_net(differ.thrown_net(chance).decode())[0]
        except opinion.Answer:
            return False
        caps = [[net.edges[e].cap for e in edges] for edges in simplest.ends_of(net)]
        loads, rooms = (
            [chance.choice((Fraction(0), Fraction(cap), Fraction(cap, 2))) for cap in some] for some in caps
        )
        state = [loads, rooms, *simplest.state_of(net, loads, rooms)]
        if not simplest.passes(net, None, *state):
            self.told["without a state"] += 1
            return False
        for prop in [None, *opinion.PROPERTIES]:
            if prop is None or simplest.passes(net, prop, *state):
                self.hold(chance, net, prop, state)
        return True


def held(networks):
    """The counts of so many networks."""
    chance, extending, count = random.Random(5), Extending(), 0
    while count < networks:
        count += extending.throw(chance)
    return extending


def main():
    words = argparse.ArgumentParser(description="Looks whether definitions leave formulas the models that they have.")
    words.add_argument("networks", nargs="?", type=int, default=NETWORKS)
    networks = words.parse_args().networks
    extending = held(networks)
    print("\n".join(f"{count:7} {name}" for name, count in sorted(extending.told.items())))
    print(f"{networks} networks, {extending.wrong} models lost")
    sys.exit(extending.wrong > 0)


if __name__ == "__main__":
    main()
