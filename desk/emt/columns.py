"""`emt csv`: time and chosen columns in SI units, every digit exact."""
from .quantities import TIME, decimal


def field(text):
    return '"' + text.replace('"', '""') + '"' if set(text) & set('",\n') else text


def lines(result, curves, window):
    """The lines of the file: a head with labels and units, then a line for each step of the window."""
    yield ','.join(['time_s'] + [field(f'{curve.label}_{curve.quantity.unit}') for curve in curves])
    columns = [(curve.values(result), -curve.quantity.exponent) for curve in curves]
    for step in range(window.first, window.last + 1):
        yield ','.join([decimal(step * result.network.step, -TIME.exponent)] + [decimal(values[step - 1], places) for values, places in columns])
