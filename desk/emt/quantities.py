"""Quantities in engineering units.

The study text and the listing hold whole numbers of small units (0.1 V, 0.1 nA, mΩ, ..). `said` writes such a number with every digit that it has and rounds
nothing; `about` is for numbers that this package works out itself, as a time constant, and rounds them to a few digits.
"""
import re
from collections import namedtuple
from fractions import Fraction

# one unit of the text is 10^exponent of the SI unit
Quantity = namedtuple('Quantity', 'name unit exponent')

RESISTANCE = Quantity('resistance', 'Ω', -3)
INDUCTANCE = Quantity('inductance', 'H', -9)
CAPACITANCE = Quantity('capacitance', 'F', -12)
CONDUCTANCE = Quantity('conductance', 'S', -9)
TIME = Quantity('time', 's', -9)
VOLTAGE = Quantity('voltage', 'V', -1)
CURRENT = Quantity('current', 'A', -10)
FREQUENCY = Quantity('frequency', 'Hz', -3)
QUANTITIES = (RESISTANCE, INDUCTANCE, CAPACITANCE, CONDUCTANCE, TIME, VOLTAGE, CURRENT, FREQUENCY)

PREFIXES = {-12: 'p', -9: 'n', -6: 'µ', -3: 'm', 0: '', 3: 'k', 6: 'M', 9: 'G'}


def count(number):
    """1200 as '1,200'."""
    return f'{number:,}'


def counted(number, thing):
    """'1 node', '5 nodes', '2 branches'."""
    return f'{count(number)} {thing}' + ('' if number == 1 else 'es' if thing.endswith('ch') else 's')


def decimal(number, places):
    """A whole number times 10^-places as a decimal, exactly, without zeros at its end."""
    if places <= 0:
        return str(number * 10 ** -places)
    digits = str(abs(number)).rjust(places + 1, '0')
    whole, part = digits[:-places], digits[-places:].rstrip('0')
    return ('-' if number < 0 else '') + whole + ('.' + part if part else '')


def prefix_for(size, exponent):
    """The exponent of the prefix that leaves 1 to 999 before the point, of a whole number of 10^exponent."""
    power = len(str(size)) - 1 + exponent
    return max(min(PREFIXES), min(max(PREFIXES), power - power % 3))


def said(number, quantity):
    """280000 mΩ as '280 Ω': exact."""
    if number == 0:
        return '0 ' + quantity.unit
    prefix = prefix_for(abs(number), quantity.exponent)
    return f'{decimal(number, prefix - quantity.exponent)} {PREFIXES[prefix]}{quantity.unit}'


def about(value, unit, digits=3):
    """A number in SI units to so many digits: 26.74 S as '26.7 S'."""
    value = Fraction(value)
    if value == 0:
        return '0 ' + unit
    power = 0
    while abs(value) >= Fraction(10) ** (power + 1):
        power += 1
    while abs(value) < Fraction(10) ** power:
        power -= 1
    exponent = power - digits + 1
    return said(round(value / Fraction(10) ** exponent), Quantity('', unit, exponent))


def exact(number, quantity):
    """A whole number of the text's units as a number of SI units."""
    return Fraction(number) * Fraction(10) ** quantity.exponent


# What a user writes. Greek mu, the micro sign and u are one prefix; so are the two signs of ohm.
UNITS = {'Ω': RESISTANCE, 'Ω': RESISTANCE, 'ohm': RESISTANCE, 'Ohm': RESISTANCE, 'H': INDUCTANCE, 'F': CAPACITANCE, 's': TIME, 'V': VOLTAGE, 'A': CURRENT,
         'Hz': FREQUENCY}
WRITTEN_PREFIXES = {'p': -12, 'n': -9, 'u': -6, 'µ': -6, 'μ': -6, 'm': -3, '': 0, 'k': 3, 'M': 6, 'G': 9}
NUMBER = r'[+-]?[0-9]+(?:\.[0-9]+)?(?:[eE][+-]?[0-9]{1,3})?'
WRITTEN = re.compile('(' + NUMBER + r')\s*([pnuµμmkMG]?)(' + '|'.join(sorted(UNITS, key=len, reverse=True)) + ')')


class NotAQuantity(ValueError):
    """What was written is no number with a unit, or of another quantity than was asked for."""


def written(text, quantity):
    """'13.37uF' as an exact number of SI units; the unit must be there and be the quantity's. A bare 0 needs none."""
    if re.fullmatch(r'0+(\.0+)?', text):
        return Fraction(0)
    found = WRITTEN.fullmatch(text)
    wanted = f'a {quantity.name}, as {EXAMPLES[quantity]}'
    if not found:
        if re.fullmatch(NUMBER, text):
            raise NotAQuantity(f"'{text}' has no unit: {wanted}")
        if re.fullmatch(r'[+-]?[0-9]+,[0-9]+\D*', text):
            raise NotAQuantity(f"'{text}' has a comma: write a point, as in '{text.replace(',', '.')}'")
        raise NotAQuantity(f"'{text}' is not {wanted}")
    number, prefix, unit = found.groups()
    if UNITS[unit] is not quantity:
        raise NotAQuantity(f"'{text}' is a {UNITS[unit].name}: here stands {wanted}")
    return Fraction(number) * Fraction(10) ** WRITTEN_PREFIXES[prefix]


EXAMPLES = {RESISTANCE: '280ohm', INDUCTANCE: '50mH', CAPACITANCE: '13.37uF', TIME: '0.5ms', VOLTAGE: '115kV', CURRENT: '30kA', FREQUENCY: '50Hz'}
