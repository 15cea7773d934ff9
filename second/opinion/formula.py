"""The flow formula: every state in which the property fails meets it.

Variable e + 1 says that edge e is backed. Each other variable stands for a row, which is a
comparison of flows, loads and rooms. What refutes the formula shows that the property holds.
"""

from collections import Counter
from itertools import product

from opinion.properties import EVEN, FAIR, FULL_LOADS, FULL_ROOMS


class Formula:
    """Clauses of literals, numbered from 1, and the rows that variables stand for.

    A row has terms, which are a column and its factor, a relation and a bound.
    """

    def __init__(self, variables):
        self.variables = variables
        self.columns = 0  # those up to the greatest that a row names
        self.clauses = []
        self.rows = {}

    def row(self, plus, minus, relation=">=", bound=0):
        """A new variable: the sum of some columns less that of others is so related to a bound."""
        factors = Counter(plus)
        factors.subtract(minus)
        terms = [(column, factor) for column, factor in sorted(factors.items()) if factor]
        return self.atom(terms, relation, bound)

    def atom(self, terms, relation, bound):
        """A new variable, which says that the sum of the terms is so related to the bound."""
        self.variables += 1
        self.rows[self.variables] = terms, relation, bound
        self.columns = max([self.columns, *(column + 1 for column, _ in terms)])
        return self.variables

    def pair(self, plus, minus, bound=0):
        """Two rows of which one holds, whatever the state; the variable of the first."""
        first = self.row(plus, minus, ">=", bound)
        self.clauses.append([first, self.row(minus, plus, ">", -bound)])
        return first

    def compare(self, terms, bound):
        """Two rows: a sum of terms is at least a bound, or less; the variable of the first."""
        first = self.atom(terms, ">=", bound)
        turned = [(column, -factor) for column, factor in terms]
        self.clauses.append([first, self.atom(turned, ">", -bound)])
        return first


class FlowFormula(Formula):
    """The flow formula of a network and a property; of no property it says the laws alone.

    Columns are the flows, then the loads, then the rooms, and of a property that compares ends
    where some are short, a level.
    """

    def __init__(self, net, prop):
        super().__init__(len(net.edges))
        self.net = net
        inputs, outputs = net.input_edges(), net.output_edges()
        self.loads = list(enumerate(inputs, len(net.edges)))  # columns, and the edges of the ends
        self.rooms = list(enumerate(outputs, len(net.edges) + len(inputs)))
        self.ranges()
        self.conservation()
        enough = self.comparisons()
        full = [self.pair([e], [], edge.cap) for e, edge in enumerate(net.edges)]
        loaded = [self.pair([edge], [column]) for column, edge in self.loads]
        roomed = [self.pair([edge], [column]) for column, edge in self.rooms]
        self.evenness(enough, full)
        self.backing(full)
        self.inputs_give(loaded)
        self.outputs_take(roomed)
        self.ends_are_full(prop)
        if prop in EVEN:
            self.is_uneven(self.rooms if prop == "balanced" else self.loads)
        elif prop in FAIR:
            self.is_unfair(self.rooms if prop == "fair" else self.loads)
        elif prop:
            self.is_less()

    def backed(self, edge):
        """The variable that says that an edge is backed."""
        return edge + 1

    def clause(self, literals):
        """Says that one of these literals holds."""
        self.clauses.append(literals)

    def ranges(self):
        """Each flow, load and room is from 0 to its edge's cap."""
        flows = [(edge, edge) for edge in range(len(self.net.edges))]
        for column, edge in flows + self.loads + self.rooms:
            self.clause([self.row([column], [])])
            self.clause([self.row([], [column], ">=", -self.net.edges[edge].cap)])

    def conservation(self):
        """What goes into a splitter is what comes out."""
        for splitter in self.net.ends("s"):
            self.clause([self.row(self.net.ins[splitter], self.net.outs[splitter], "=")])

    def comparisons(self):
        """Of each edge that is weighed: it carries as much as the one beside it, or less.

        Of one that comes first: the one beside it carries nothing, or something. The variables
        of the first of either.
        """
        return [
            self.pair([], [other]) if is_first else self.pair([edge], [other])
            for is_first, _, edge, other in self.net.beside()
        ]

    def evenness(self, enough, full):
        """Out of a splitter an edge is backed, into it free, or it carries enough, or is full.

        An edge of which the one beside it has no higher cap carries enough where it is full.
        """
        edges = self.net.edges
        for (is_first, side, edge, other), at_least in zip(self.net.beside(), enough):
            waits = -self.backed(edge) if side else self.backed(edge)
            if is_first:
                self.clause([waits, full[edge], at_least])
            elif edges[edge].cap < edges[other].cap:
                self.clause([waits, at_least, full[edge]])
            else:
                self.clause([waits, at_least])

    def backing(self, full):
        """An edge into a splitter is free, or each edge out of it is backed or full."""
        for splitter in self.net.ends("s"):
            for into, out in product(self.net.ins[splitter], self.net.outs[splitter]):
                self.clause([-self.backed(into), self.backed(out), full[out]])

    def inputs_give(self, loaded):
        """An input gives at most its load, and all of it where its edge is free."""
        for (column, edge), gives_all in zip(self.loads, loaded):
            self.clause([self.row([column], [edge])])
            self.clause([self.backed(edge), gives_all])

    def outputs_take(self, roomed):
        """An output takes at most its room, and fills it where its edge is backed."""
        for (column, edge), takes_all in zip(self.rooms, roomed):
            self.clause([self.row([column], [edge])])
            self.clause([-self.backed(edge), takes_all])

    def ends_are_full(self, prop):
        """Loads and rooms are at the caps where the property presumes it."""
        ends = self.loads if prop in FULL_LOADS else []
        ends = ends + (self.rooms if prop in FULL_ROOMS else [])
        for column, edge in ends:
            self.clause([self.row([column], [], ">=", self.net.edges[edge].cap)])

    def is_uneven(self, ends):
        """The property fails: the first end carries more than another, or less."""
        first, *others = [edge for _, edge in ends]
        pairs = [pair for other in others for pair in ((first, other), (other, first))]
        self.clause([self.row([more], [less], ">") for more, less in pairs])

    def is_unfair(self, ends):
        """The property fails: an end that is short is below a level, and another reaches it."""
        level = len(self.net.edges) + len(self.loads) + len(self.rooms)
        below = [self.row([level], [edge], ">") for _, edge in ends]
        short = [self.row([column], [edge], ">") for column, edge in ends]
        self.clause(below)
        for is_below, is_short in zip(below, short):
            self.clause([-is_below, is_short])
        self.clause([self.row([edge], [level]) for _, edge in ends])

    def is_less(self):
        """The property fails: the loads are more than what outputs carry, and the rooms too."""
        carried = [edge for _, edge in self.rooms]
        for ends in self.loads, self.rooms:
            self.clause([self.row([column for column, _ in ends], carried, ">")])
