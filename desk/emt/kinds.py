"""The kinds of lines that a study has: one row for each, with what its fields are and from where to where they go.

Nothing here decides whether a text is taken; the compiled reader does. The table is what its answer is explained by, what is shown in engineering units and
what `emt make` writes by.
"""
from collections import namedtuple
from fractions import Fraction

from .quantities import CAPACITANCE, CURRENT, FREQUENCY, INDUCTANCE, RESISTANCE, TIME, VOLTAGE

NODES, BRANCHES, SOURCES, SLOTS, TEXT_BYTES = 32, 64, 16, 4096, 65536
STEPS_MOST = 10 ** 6
CONDUCTANCE_MOST = 10 ** 9  # nS, of one branch; the least is 1

# quantity is None for counts: of steps, or a node's number. In the text of `emt make` a count of steps is a time behind the word `option`; where that is
# not said, the number is `default`.
Field = namedtuple('Field', 'name quantity low high option default', defaults=('', None))
Kind = namedtuple('Kind', 'number word what branch fields')

OHMS = Field('resistance', RESISTANCE, 10 ** 3, 10 ** 12)
FROM, TO, NODE = Field('from', None, 0, NODES), Field('to', None, 0, NODES), Field('node', None, 0, NODES)
CLOSE, OPEN = Field('first closed step', None, 1, STEPS_MOST, 'close', 1), Field('first open step', None, 2, STEPS_MOST + 1, 'open', STEPS_MOST + 1)
START, RISE = Field('first step', None, 1, STEPS_MOST, 'at', 1), Field('steps of rise', None, 0, 1000, 'rise', 0)
VOLTS, AMPERES = Field('peak', VOLTAGE, -2 * 10 ** 7, 2 * 10 ** 7), Field('peak', CURRENT, -2 * 10 ** 15, 2 * 10 ** 15)

STUDY = Kind(0, 'study', 'the study', False, (
    Field('step length', TIME, 1, 10 ** 6), Field('steps', None, 1, STEPS_MOST), Field('balance limit', CURRENT, 0, 10 ** 15)))
KINDS = (
    Kind(1, 'R', 'resistor', True, (FROM, TO, OHMS)),
    Kind(2, 'L', 'inductor', True, (FROM, TO, Field('inductance', INDUCTANCE, 1, 10 ** 12))),
    Kind(3, 'C', 'capacitor', True, (FROM, TO, Field('capacitance', CAPACITANCE, 1, 10 ** 9))),
    Kind(4, 'LINE', 'line', True, (FROM, TO, OHMS._replace(name='surge impedance'), Field('travel time', TIME, 1, 10 ** 9))),
    Kind(5, 'SW', 'breaker', True, (FROM, TO, OHMS._replace(name='closed resistance'), CLOSE, OPEN._replace(name='opening step'))),
    Kind(6, 'VS', 'voltage source', False, (NODE, VOLTS, START, RISE)),
    Kind(7, 'IS', 'current source', False, (NODE, AMPERES, START, RISE)),
    Kind(8, 'VC', 'power-frequency source', False, (NODE, VOLTS, START, Field('frequency', FREQUENCY, 1, 10 ** 5))),
    Kind(9, 'SWT', 'timed switch', True, (FROM, TO, OHMS._replace(name='closed resistance'), CLOSE, OPEN)),
)
BY_NUMBER = {kind.number: kind for kind in KINDS}
BY_WORD = {kind.word: kind for kind in KINDS + (STUDY,)}
SWITCHES = ('SW', 'SWT')
BREAKER = 'SW'  # of these the one that waits for a current zero
HOLDING = ('VS', 'VC')  # sources that fix the voltage of their node


def half_up(numerator, denominator):
    """To the nearest whole number, halves up: how the rules round a conductance."""
    return (2 * numerator + denominator) // (2 * denominator)


def siemens(word, value, step):
    """The conductance of a branch's value in the text's units at a step of so many ns, exactly, in S."""
    if word == 'L':
        return Fraction(step, 2 * value)
    return Fraction(2 * value, 1000 * step) if word == 'C' else Fraction(1000, value)


def conductance(word, value, step):
    """The same in nS, rounded as the rules have it; 0 and numbers over 10^9 are what VALUE refuses."""
    exact = siemens(word, value, step) * 10 ** 9
    return half_up(exact.numerator, exact.denominator)


def slots(travel, step):
    """How many values each end of a line keeps: twice the whole steps of its travel time, and one more where it lies between steps."""
    return 2 * (travel // step) + (1 if travel % step else 0)
