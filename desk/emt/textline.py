"""A study text as it stands there, right or wrong: its lines, their fields, and a fault in one of them."""
from collections import namedtuple

from .kinds import BY_WORD
from .quantities import CURRENT, VOLTAGE, count, said

# start and length are bytes of the line
Fault = namedtuple('Fault', 'start length wrong hint')

DIGITS_MOST = 30  # longer numbers are past every end; no more digits are looked at


class Text:
    """A text by its lines, numbered from 1."""

    def __init__(self, data):
        self.data, self.split = data, data.split(b'\n')

    def line(self, number):
        return Line(self, number)

    def lines(self, first, last=None):
        """The lines from one number to another, or to the end."""
        return [Line(self, number) for number in range(first, (last or len(self.split) - 1) + 1)]

    @property
    def step(self):
        """The step length of the first line, in ns."""
        return self.line(1).number_at(1)


class Line:
    """A line: its bytes without LF, its fields with their places, its kind; None where its word is none."""

    def __init__(self, text, number):
        self.number, self.bytes = number, text.split[number - 1] if 0 < number <= len(text.split) else b''
        self.ended = number < len(text.split)
        self.fields = self.bytes.split(b'\t')
        self.kind = BY_WORD.get(self.fields[0].decode('latin-1'))

    def place(self, field):
        """Start and length of a field; field 0 is the word."""
        return sum(len(one) + 1 for one in self.fields[:field]), len(self.fields[field])

    def fault(self, field, wrong, hint=''):
        return Fault(*self.place(field), wrong, hint)

    def number_at(self, field):
        """The number in a field; one of very many digits as one past every end."""
        digits = self.fields[field]
        return int(digits) if len(digits) <= DIGITS_MOST else -10 ** DIGITS_MOST if digits.startswith(b'-') else 10 ** DIGITS_MOST

    def said_at(self, field, quantity):
        """A field's number in engineering units."""
        if len(self.fields[field]) > DIGITS_MOST:
            return f'of {count(len(self.fields[field].lstrip(b"-")))} digits'
        return said(self.number_at(field), quantity) if quantity else count(self.number_at(field))


def units_of(field):
    """'a whole number of mΩ'."""
    if not field.quantity:
        return 'a whole number'
    return 'a whole number of ' + ('0.1 V' if field.quantity is VOLTAGE else '0.1 nA' if field.quantity is CURRENT else said(1, field.quantity)[2:])


def range_of(field):
    if not field.quantity:
        return f'{count(field.low)} to {count(field.high)}'
    return f'{said(field.low, field.quantity)} to {said(field.high, field.quantity)}'


def form_of(kind):
    """A line of this kind: 'R→from→to→resistance'."""
    return '→'.join([kind.word] + [field.name.replace(' ', '·') for field in kind.fields])
