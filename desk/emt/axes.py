"""How values are looked at: a window of time, peaks in it, steps that are drawn, and how numbers are written along an axis."""
from collections import namedtuple
from fractions import Fraction

from .quantities import PREFIXES, TIME, decimal, exact, prefix_for, said


class Window(namedtuple('Window', 'first last')):
    """Steps from first to last, both in it."""

    @staticmethod
    def of(result, start, end):
        """By times in s, exact fractions; None where there is no end on that side."""
        step = exact(result.network.step, TIME)
        first = 1 if start is None else max(1, -(-start / step).__floor__())
        last = result.steps if end is None else min(result.steps, (end / step).__floor__())
        return Window(first, last)

    def __len__(self):
        return max(0, self.last - self.first + 1)


def peak(values, window):
    """The value of largest magnitude in a window and the first step where it comes; None in an empty window."""
    best = None
    for step in range(window.first, window.last + 1):
        if best is None or abs(values[step - 1]) > abs(best[0]):
            best = (values[step - 1], step)
    return best


def thinned(values, window, most):
    """Steps to draw, all where there are no more than most: else of each of so many bits those of its least and largest value, and the two ends."""
    if len(window) <= most:
        return list(range(window.first, window.last + 1))
    steps, bits = {window.first, window.last}, max(1, most // 2)
    for bit in range(bits):
        start, end = (window.first - 1 + len(window) * one // bits for one in (bit, bit + 1))
        part = values[start:end]
        steps |= {start + 1 + part.index(min(part)), start + 1 + part.index(max(part))}
    return sorted(steps)


class Axis(namedtuple('Axis', 'quantity prefix base')):
    """How values are written on an axis: with a prefix, or per unit of a base (a fraction of SI units)."""

    @staticmethod
    def of(quantity, largest, base=None):
        return Axis(quantity, prefix_for(largest, quantity.exponent) if largest else 0, base)

    @property
    def unit(self):
        if self.base is None:
            return PREFIXES[self.prefix] + self.quantity.unit
        return f'per unit of {said(round(self.base / exact(1, self.quantity)), self.quantity)}'

    @property
    def title(self):
        return f'{self.quantity.name}, {self.unit}'

    def written(self, number):
        """Exact with a prefix; per unit to six digits behind the point."""
        if self.base is None:
            return decimal(number, self.prefix - self.quantity.exponent)
        return decimal(round(Fraction(number) * exact(1, self.quantity) / self.base * 10 ** 6), 6)

    def short(self, number, digits=5):
        """To a few digits, for a mark in a picture: '661.1 kV'."""
        value = Fraction(number) * exact(1, self.quantity) / (self.base or Fraction(10) ** self.prefix)
        return f'{float(value):.{digits}g} ' + ('p.u.' if self.base is not None else self.unit)
