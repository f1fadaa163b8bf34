"""Curves of a run: single columns of the listing, and their sums and differences, which are exact.

    v2          the voltage of node 2              v(bus), bus     by name, where a map of names is there
    i4          the current of branch 4            i(bank), bank   all branches of this name, side by side, added
    i4to        a line's current at its to end     v2-v3           a difference
    open end=v5   with a label of one's own
"""
import re
from array import array
from collections import namedtuple

from .quantities import CURRENT, VOLTAGE

TERM = re.compile(r'(?:v(?P<node>[0-9]+)|i(?P<branch>[0-9]+)(?P<to>to)?|(?P<which>[vi])\((?P<of>[^()]+)\)(?P<of_to>to)?|(?P<name>[A-Za-z_][A-Za-z0-9_.]*))')


class NoSuchCurve(Exception):
    """What was asked for is no voltage or current of the study."""


class Curve(namedtuple('Curve', 'label quantity terms')):
    """terms: signs, +1 or -1, with which of a run's dictionaries, and the number in it."""

    def values(self, result):
        columns = [(sign, getattr(result, which)[number]) for sign, which, number in self.terms]
        if len(columns) == 1 and columns[0][0] == 1:
            return columns[0][1]
        return array('q', (sum(sign * column[place] for sign, column in columns) for place in range(result.steps)))


def branches(numbers, network, to_end):
    for number in numbers:
        if not 1 <= number <= len(network.branches):
            raise NoSuchCurve(f'there is no branch {number}: there are {len(network.branches)}')
        if to_end and network.branches[number - 1].word != 'LINE':
            raise NoSuchCurve(f'branch {number} is no line, so it has no current at a to end')
    return [('i_to' if to_end else 'i', number) for number in numbers]


def node(number, network):
    if number > network.nodes:
        raise NoSuchCurve(f'there is no node {number}: there are {network.nodes}')
    return [('v', number)] if number else []


def term(found, network, names):
    """The columns that a term adds, and whether it is a voltage."""
    if found['node']:
        return node(int(found['node']), network), True
    if found['branch']:
        return branches([int(found['branch'])], network, bool(found['to'])), False
    name = found['of'] or found['name']
    if found['which'] != 'i' and (names.nodes_called(name) or name == 'ground'):
        return node(min(names.nodes_called(name), default=0), network), True
    if found['which'] != 'v' and names.branches_called(name):
        return branches(names.branches_called(name), network, bool(found['of_to'])), False
    raise NoSuchCurve(f"'{name}' is no name of a {'node' if found['which'] == 'v' else 'branch' if found['which'] == 'i' else 'node or branch'}"
                      + ('' if names.nodes or names.branches else ': the study has no map of names (`emt make` writes one)'))


def curve(text, network, names):
    """A curve from what the user wrote."""
    label, _, expression = text.rpartition('=')
    parts = re.split(r'([+-])', expression.replace(' ', ''))
    terms, kinds = [], set()
    for sign, part in zip(['+'] + parts[1::2], parts[::2]):
        found = TERM.fullmatch(part)
        if not found:
            raise NoSuchCurve(f"'{part}' in '{text}' is no voltage or current: write v2, i4, i4to, or differences as v2-v3")
        columns, voltage = term(found, network, names)
        kinds.add(voltage)
        terms += [(1 if sign == '+' else -1, *column) for column in columns]
    if len(kinds) > 1:
        raise NoSuchCurve(f"'{text}' adds voltages and currents")
    if not terms:
        raise NoSuchCurve(f"'{text}' is nothing but ground")
    return Curve(label or expression, VOLTAGE if kinds == {True} else CURRENT, terms)


def voltages(network, names):
    return [Curve(names.column(number), VOLTAGE, [(1, 'v', number)]) for number in range(1, network.nodes + 1)]


def currents(network, names):
    """Each branch's current; of a line both ends'."""
    return [current([row], end, names) for row in network.branches for end in ends_of(row)]


def grouped_currents(network, names):
    """As currents, but equal branches side by side are one curve, their sum."""
    return [current(group, end, names) for group in network.groups() if group[0].kind.branch for end in ends_of(group[0])]


def ends_of(row):
    return ('', 'to') if row.word == 'LINE' else ('',)


def current(rows, end, names):
    """The current of branches side by side. A name stands for it where it is the name of just these."""
    numbers = [row.branch for row in rows]
    name = names.branches.get(numbers[0])
    label = f'i({name})' if name and names.branches_called(name) == numbers else f'i{numbers[0]}' if len(numbers) == 1 else f'i{numbers[0]}+..+i{numbers[-1]}'
    return Curve(label + end, CURRENT, [(1, 'i_to' if end else 'i', number) for number in numbers])


def chosen(texts, network, names, default):
    return [curve(text, network, names) for text in texts] or default
