"""Why a text was refused: the field, what is wrong with it, and what to do.

The compiled reader has decided already, by line and number; this looks in that line for the first field which that number speaks of. Where it finds none it
says the number's own words and marks the line.
"""
from .form import form
from .kinds import BRANCHES, CONDUCTANCE_MOST, HOLDING, NODES, SLOTS, SOURCES, STUDY, SWITCHES, TEXT_BYTES, conductance, half_up, siemens, slots
from .quantities import RESISTANCE, TIME, about, count, exact, said
from .textline import Fault, Text, range_of

PLACES = ('from', 'to', 'node')


# ---- 2 NODE

def node(line, text):
    ends = range(1, 3 if line.kind.branch else 2)
    for field in ends:
        if line.number_at(field) > NODES:
            return line.fault(field, f'there is no node {line.said_at(field, None)}', f'nodes are 1 to {NODES}, and 0 is ground')
    if line.kind.branch and line.fields[1] == line.fields[2]:
        return line.fault(2, 'the branch leads from a node to itself')
    if not line.kind.branch:
        return line.fault(1, 'a source on ground', f'sources are between their node and ground, so its node is 1 to {NODES}')
    spare = spare_node(text)
    return line.fault(next(field for field in ends if line.number_at(field) == 0), 'a line that ends on ground',
                      f'end it on a node of its own, {spare}, and earth that by a source of no voltage: VS→{spare}→0→1→0')


def spare_node(text):
    """The lowest node that no line names."""
    named = {line.number_at(field) for line in text.lines(2) if line.kind for field in range(1, 3 if line.kind.branch else 2)
             if field < len(line.fields) and line.fields[field].isdigit()}
    return min(set(range(1, NODES + 2)) - named)


# ---- 3 VALUE

def value(line, text):
    for place, field in enumerate(line.kind.fields, 1):
        if field.name not in PLACES and not field.low <= line.number_at(place) <= field.high:
            wrong = f'{field.name} {line.said_at(place, field.quantity)} is out of its range, {range_of(field)}'
            return line.fault(place, wrong, small_resistance(field, line.number_at(place)))
    if line.kind.word in SWITCHES and line.number_at(4) >= line.number_at(5):
        return line.fault(5, f'it opens at step {count(line.number_at(5))}, not after it closes at step {count(line.number_at(4))}',
                          f'the {line.kind.fields[4].name} is above the {line.kind.fields[3].name}; 1000001 never opens')
    return conducting(line, text) if line.kind.word in ('L', 'C') else None


def small_resistance(field, number):
    """How many branches side by side have a resistance below its least."""
    if field.quantity is not RESISTANCE or not 0 < number < field.low:
        return ''
    many = -(-field.low // number)
    return side_by_side(many, said(many * number, field.quantity)) + (' have it' if many <= BRANCHES else '')


def side_by_side(many, each):
    return f'{many} branches of {each} side by side' if many <= BRANCHES else f'it would take {many} branches side by side'


def conducting(line, text):
    """A conductance out of range: a C that is too large for the step, or an L too small or too large."""
    word, number, quantity, step = line.kind.word, line.number_at(3), line.kind.fields[2].quantity, text.step
    asked = f'{said(number, quantity)} at a step of {said(step, TIME)} is {about(siemens(word, number, step), "S")}'
    if conductance(word, number, step) < 1:
        return line.fault(3, f'{asked}; a branch has 1 nS at least', f'a step of {count(-(-number // 10 ** 9))} ns or more')
    many = least_many(word, number, step)
    each = share(word, number, many)
    apart = side_by_side(many, f'{about(exact(each, quantity), quantity.unit)} ({each})')
    fitting = -(-2 * number // 1000) if word == 'C' else 2 * number
    return line.fault(3, f'{asked}; a branch has 1 S at most', apart + (f', or a step of {count(fitting)} ns' if fitting <= STUDY.fields[0].high else ''))


def share(word, number, many):
    """What each of so many equal branches side by side has."""
    return half_up(number, many) if word == 'C' else number * many


def least_many(word, number, step):
    """The fewest equal branches side by side of which none passes 1 S."""
    many = 1
    while conductance(word, share(word, number, many), step) > CONDUCTANCE_MOST:
        many = max(many + 1, many * conductance(word, share(word, number, many), step) // CONDUCTANCE_MOST)
    return many


# ---- 4 TRAVEL, 5 DOUBLE, 6 FULL, 7 SIZE

def travel(line, text):
    own = line.number_at(4)
    return line.fault(4, f'its travel time, {said(own, TIME)}, is shorter than the step, {said(text.step, TIME)}', f'a step of {count(own)} ns or less')


def double(line, text):
    before = [other for other in text.lines(2, line.number - 1) if other.kind.word in HOLDING and other.fields[1] == line.fields[1]]
    return line.fault(1, f'node {line.fields[1].decode()} has a voltage source already, in line {before[0].number}',
                      'one source holds a node: give the second one a node of its own, behind a resistor')


def full(line, text):
    kinds = [one.kind for one in text.lines(2, line.number)]
    if not line.kind.branch and sum(not kind.branch for kind in kinds) > SOURCES:
        return line.fault(0, f'a study has {SOURCES} sources at most')
    if sum(kind.branch for kind in kinds) > BRANCHES:
        return line.fault(0, f'a study has {BRANCHES} branches at most')
    travels = [one.number_at(4) for one in text.lines(2) if one.fields[0] == b'LINE' and len(one.fields) == 5 and one.fields[4].isdigit()]
    travels = [one for one in travels if one <= line.kind.fields[3].high]
    need, fitting = sum(slots(one, text.step) for one in travels), step_for(travels, text.step)
    return line.fault(4, f'the lines of this study need {count(need)} places for travelling values, and there are {count(SLOTS)}',
                      'twice the steps of each travel time count' + (f': a step of {count(fitting)} ns or more' if fitting <= STUDY.fields[0].high else ''))


def step_for(travels, step):
    """The shortest step, above this one, at which the lines fit."""
    low, high = step, max(travels)
    while low + 1 < high:
        middle = (low + high) // 2
        low, high = (low, middle) if sum(slots(one, middle) for one in travels) <= SLOTS else (middle, high)
    return high


def size(line, text):
    return Fault(0, 0, f'the text has more than {count(TEXT_BYTES)} bytes', 'no study needs 8,192; a listing, perhaps, or another file?')


JUDGES = {1: form, 2: node, 3: value, 4: travel, 5: double, 6: full, 7: size}


def fault_of(refused):
    """The line and the fault of a refused text."""
    text = Text(refused.text)
    line = text.line(refused.line)
    fault = JUDGES[refused.number](line, text) if refused.number in JUDGES else None
    return line, fault or Fault(0, len(line.bytes), refused.words, '')
