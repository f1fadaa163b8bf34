"""The numbered refusals: their names and words, said once."""
from collections import namedtuple

# place: what the number beside the answer is, a line, a node or a branch; include/emt_words.c says the same to C programs
Words = namedtuple('Words', 'number name place words')

TABLE = tuple(Words(*row) for row in (
    (1, 'FORM', 'line', "the line is not spelt as a study's: its word, the number of its fields, or one field's spelling"),
    (2, 'NODE', 'line', "a node over 32, a branch from a node to itself, or a source or a line's end on ground"),
    (3, 'VALUE', 'line', 'a value is out of its range, or the conductance that it gives is below 1 nS or over 1 S'),
    (4, 'TRAVEL', 'line', 'the travel time is shorter than the step'),
    (5, 'DOUBLE', 'line', 'the node has a voltage source already'),
    (6, 'FULL', 'line', 'more than 64 branches or 16 sources, or lines with more than 4,096 slots for this step'),
    (7, 'SIZE', '', 'the text is longer than 65,536 bytes'),
    (8, 'NETWORK', '', 'the lent network is not one that the reader writes'),
    (9, 'STORE', '', 'a lent length is wrong'),
    (10, 'STATE', '', 'the lent records or line stores hold what no run can'),
    (11, 'AREA', '', 'there is no area of this number'),
    (12, 'DONE', '', 'the area has taken all its steps'),
    (13, 'WAIT', 'branch', 'the area needs what the far end of this line has not sent yet: another area must advance first'),
    (14, 'FLOATING', 'node', 'nothing that conducts leads from this node to ground, to a source or to a line'),
    (15, 'RANGE', 'node', 'the voltage of this node would be beyond 2 MV'),
    (16, 'UNBALANCED', 'node', 'the currents at this node do not add up within the balance limit'),
    (17, 'HISTORY', 'branch', 'this inductor, capacitor or line would carry more than 10 MA'),
))
BY_NUMBER = {row.number: row for row in TABLE}


def words_of(number):
    return BY_NUMBER.get(number) or Words(number, 'UNKNOWN', '', 'no call answers this number')


class Refusal(Exception):
    """A refusal by number: .number, .name, .words; str() is all of it in words."""

    def __init__(self, number, where=''):
        row = words_of(number)
        self.number, self.name, self.words = number, row.name, row.words
        super().__init__(f'{where}{": " if where else ""}{row.name} ({number}), {row.words}')


class Refused(Refusal):
    """A text that is not taken. .line is the faulty line, from 1 (0: the text as a whole); .text the bytes."""

    def __init__(self, number, line, text):
        self.line, self.text = line, text
        super().__init__(number, f'line {line}' if line else '')


class Stopped(Refusal):
    """A run that stopped before a step. .step, .area, .place (a node or a branch, as .place_is says); .run holds all full steps before it."""

    def __init__(self, number, step, area, place):
        self.step, self.area, self.place, self.place_is = step, area, place, words_of(number).place
        self.run = None
        super().__init__(number, f'before step {step}, area {area}, {self.place_is} {place}')
