"""The shortest time constant of a network, to judge a step length by.

Nothing of a solution is worked out here. Each C is looked at with the resistance that it sees (R·C), each L with its resistance (L/R) and with the capacitance
(√(L·C)); on that short time a larger C keeps its voltage, a larger L its current, a smaller one has settled, and the end of a line is its surge impedance
to ground.
"""
from collections import namedtuple
from itertools import combinations
from math import sqrt

from .kinds import SWITCHES
from .quantities import CAPACITANCE, INDUCTANCE, RESISTANCE, about, said

Piece = namedtuple('Piece', 'ends value rows')  # branches side by side as one; SI units
Constant = namedtuple('Constant', 'seconds rule row words')
STATES_MOST = 12


def seen(joins, first, second):
    """Between two nodes, the weight of a network of weights (conductances, or capacitances): the other nodes go one by one, each star a mesh."""
    around = {first: {}, second: {}}

    def join(one, other, weight):
        for here, there in ((one, other), (other, one)):
            around.setdefault(here, {})[there] = around.get(here, {}).get(there, 0) + weight

    for one, other, weight in joins:
        if one != other:
            join(one, other, weight)
    for node in [node for node in around if node not in (first, second)]:
        star = around.pop(node)
        total = sum(star.values())
        for one in star:
            del around[one][node]
        for one, other in combinations(star, 2):
            join(one, other, star[one] * star[other] / total)
    return around[first].get(second, 0)


class State:
    """A network with its switches as at one step, as R, L and C between nodes; nodes with a voltage source are as ground."""

    def __init__(self, network, step, parted=None):
        self.network = network
        closed = [row for row in network.branches if network.closed(row, step, parted)]
        self.resistors = self._pieces(closed, ('R',) + SWITCHES, 1e-3, True)
        for row in closed:
            if row.word == 'LINE':
                self.resistors += [Piece((self._node(end), 0), row.value * 1e-3, [row]) for end in row.ends if self._node(end)]
        self.inductors = sorted(self._pieces(closed, 'L', 1e-9, True), key=lambda piece: piece.value)
        self.capacitors = sorted(self._pieces(closed, 'C', 1e-12, False), key=lambda piece: piece.value)

    def _node(self, node):
        return 0 if node in self.network.held else node

    def _pieces(self, rows, words, unit, inverse):
        """Branches of these words, those between the same nodes taken together."""
        together = {}
        for row in rows:
            ends = tuple(sorted(map(self._node, row.ends)))
            if row.word in words and ends[0] != ends[1]:
                together.setdefault(ends, []).append(row)
        values = {ends: [row.value * unit for row in rows] for ends, rows in together.items()}
        return [Piece(ends, 1 / sum(1 / one for one in values[ends]) if inverse else sum(values[ends]), rows) for ends, rows in together.items()]

    def _weight(self, pieces, shorted, first, second, inverse):
        """What lies between two nodes when the shorted pieces join theirs; None where the two are joined themselves."""
        same = list(range(self.network.nodes + 1))
        for piece in shorted:
            low, high = sorted(same[end] for end in piece.ends)
            same = [low if one == high else one for one in same]
        if same[first] == same[second]:
            return None
        return seen([(same[one], same[other], 1 / value if inverse else value) for (one, other), value, _ in pieces], same[first], same[second])

    def resistive(self):
        """R·C of each C, larger ones shorted; L/R of each L, every C and the smaller L shorted."""
        for place, piece in enumerate(self.capacitors):
            conductance = self._weight(self.resistors, self.capacitors[place + 1:], *piece.ends, True)
            if conductance:
                yield Constant(piece.value / conductance, 'R·C', piece.rows[0], self._sees(piece, CAPACITANCE, 1 / conductance, RESISTANCE))
        for place, piece in enumerate(self.inductors):
            conductance = self._weight(self.resistors, self.capacitors + self.inductors[:place], *piece.ends, True)
            if conductance:
                yield Constant(piece.value * conductance, 'L/R', piece.rows[0], self._sees(piece, INDUCTANCE, 1 / conductance, RESISTANCE))

    def swinging(self):
        """Of each L that swings with C: the piece, the capacitance it sees, and the resistors that are small beside √(L/C), so in the path."""
        for place, piece in enumerate(self.inductors):
            small, capacitance = [], self._weight(self.capacitors, self.inductors[:place], *piece.ends, False)
            for resistor in sorted(self.resistors, key=lambda one: one.value):
                if capacitance is None or (capacitance and resistor.value > sqrt(piece.value / capacitance)):
                    break
                small.append(resistor)
                capacitance = self._weight(self.capacitors, self.inductors[:place] + small, *piece.ends, False)
            if capacitance:
                yield piece, capacitance, small

    def without(self, piece, small, resistor):
        """The capacitance that an L sees with one of the small resistors taken out."""
        place = self.inductors.index(piece)
        return self._weight(self.capacitors, self.inductors[:place] + [one for one in small if one is not resistor], *piece.ends, False)

    def constants(self):
        yield from self.resistive()
        for piece, capacitance, _ in self.swinging():
            yield Constant(sqrt(piece.value * capacitance), '√(L·C)', piece.rows[0], self._sees(piece, INDUCTANCE, capacitance, CAPACITANCE))

    @staticmethod
    def _sees(piece, quantity, value, other):
        own = said(piece.rows[0].value, quantity) if len(piece.rows) == 1 else about(piece.value, quantity.unit) + ' side by side'
        return f'{own} that sees {about(value, other.unit)}'


def states(network, parted=None):
    """The network at each step where its switches differ from what they were, a few at most; parted as of a run, by which breakers are open."""
    switches = [row for row in network.branches if row.word in SWITCHES]
    changes = {1} | {step for row in switches for step in (row.fields[3], network.opens(row, parted)) if step <= network.steps}
    found = {}
    for step in sorted(changes):
        closed = tuple(network.closed(row, step, parted) for row in network.branches)
        if closed not in found and len(found) < STATES_MOST:
            found[closed] = (step, State(network, step, parted))
    return list(found.values())


def shortest(network, parted=None):
    """The shortest time constant over all switch positions, and the first step from which it is there; None where there is none."""
    found = [(constant, step) for step, state in states(network, parted) for constant in state.constants()]
    return min(found, key=lambda one: one[0].seconds, default=None)
