"""`emt plot`: a picture by gnuplot, for a report. Voltages above, currents below, over the time; peaks marked with value and time."""
import os
import shutil
import subprocess
import tempfile
from math import ceil, floor

from . import labels
from .axes import Axis, peak, thinned
from .quantities import CURRENT, TIME, VOLTAGE

POINTS_MOST = 6000  # of one curve in a picture; more cannot be told apart
TERMINALS = {'.svg': "svg size {w},{h} font ',14' background '#ffffff'", '.png': "pngcairo size {w},{h} font ',12'",
             '.pdf': "pdfcairo size {wcm}cm,{hcm}cm font ',11'"}
LABELS_MOST = 4
LABEL_POINTS = 500   # of a curve, to keep labels off
MARGIN, LABELS_SHARE = 0.06, 0.25  # of a panel's height: free above and below curves, and for labels on each side at most
LETTER, LINE, MARGIN_LETTER, AROUND = 8.5, 21, 10, 88  # in a picture's pixels: a letter's width, a line's height, a margin's letter, and what lies around a panel's frame
COLOURS = ('#0060a8', '#c8391e', '#1b8a4b', '#8a4fb0', '#b07a00', '#00868a', '#a83268', '#4d4d4d')


class NoPicture(Exception):
    """A picture cannot be made: no gnuplot, an unknown ending, nothing to draw."""


def quoted(text):
    return "'" + text.replace("'", "''").replace('\n', ' ') + "'"


class Panel:
    """The curves of one quantity, with their values in a window."""

    def __init__(self, result, curves, window, base):
        self.result, self.window = result, window
        self.curves = [(curve, curve.values(result)) for curve in curves]
        self.peaks = [peak(values, window) for _, values in self.curves]
        self.axis = Axis.of(curves[0].quantity, max(abs(value) for value, _ in self.peaks), base)

    def data(self, time):
        """A block of points for each curve: time and value, as they are written."""
        for values in (values for _, values in self.curves):
            steps = thinned(values, self.window, POINTS_MOST)
            yield '\n'.join(f'{time.written(step * self.result.network.step)} {self.axis.written(values[step - 1])}' for step in steps)

    @property
    def labelled(self):
        """Few peaks have their words beside them; many have these in the key, where they do not cover one another."""
        return len(self.curves) <= LABELS_MOST

    def words(self, place, time):
        value, step = self.peaks[place]
        return f'{self.axis.short(value)} at {time.short(step * self.result.network.step)}'

    def titles(self, time, marked):
        return [curve.label + (f' ({self.words(place, time)})' if marked and not self.labelled else '') for place, (curve, _) in enumerate(self.curves)]

    def scale(self, type_=None):
        """The two ends of the axis of values, in the listing's unit: room for the curves, and with labels of a type for those that usually stand above and below."""
        parts = [values[self.window.first - 1:self.window.last] for _, values in self.curves]
        low, high = min(map(min, parts)), max(map(max, parts))
        if low == high:  # a tenth to both sides, or one unit
            room = abs(high) // 10 or 10 ** (self.axis.prefix - self.axis.quantity.exponent)
            return low - room, high + room
        ups = [value >= 0 for value, _ in self.peaks] if type_ and self.labelled else []
        above, below = (MARGIN + min(LABELS_SHARE, type_.line * ups.count(way)) if ups else MARGIN for way in (True, False))
        height = (high - low) / (1 - above - below)
        return floor(low - below * height), ceil(high + above * height)

    def labels(self, time, type_):
        """Where the words of each peak stand."""
        first, (bottom, top) = started(self.window), self.scale(type_)
        span = max(1, self.window.last - first)

        def point(step, value):
            return (step - first) / span, (value - bottom) / (top - bottom)

        points = [one for _, values in self.curves
                  for one in labels.filled([point(step, values[step - 1]) for step in thinned(values, self.window, LABEL_POINTS)], type_.line / 2)]
        peaks = [labels.Peak(*point(step, value), len(self.words(place, time)), value >= 0) for place, (value, step) in enumerate(self.peaks)]
        return labels.placed(peaks, points, type_)

    def marks(self, time, type_):
        """A point at each peak, with a label where there are few."""
        placed = self.labels(time, type_) if self.labelled else []
        for place, (value, step) in enumerate(self.peaks):
            side, up = (placed[place].side, placed[place].up) if placed else ('left', 0)
            colour = COLOURS[place % len(COLOURS)]
            words = quoted(self.words(place, time) if placed else '')
            yield (f"set label {place + 1} {words} at {time.written(step * self.result.network.step)},{self.axis.written(value)} {side} "
                   f"offset {-1 if side == 'right' else 1},{up:.1f} textcolor rgb '{colour}' point pt 7 ps 0.5 lc rgb '{colour}' noenhanced front boxed")


def started(window):
    """Where the axis of time begins: a run at rest, one step before its first."""
    return 0 if window.first == 1 else window.first


def stroke(place):
    """The colour of a curve; the second round of colours is dashed."""
    return f"lc rgb '{COLOURS[place % len(COLOURS)]}'" + (' dt 2' if place // len(COLOURS) % 2 else '')


def drawn(panel, number, time, type_):
    """The commands of one panel, its blocks of data being $pNcM."""
    curves = ', '.join(f'$p{number}c{place} using 1:2 with lines lw 1.6 {stroke(place)} title {quoted(title)} noenhanced'
                       for place, title in enumerate(panel.titles(time, bool(type_))))
    ends = ':'.join(map(panel.axis.written, panel.scale(type_)))
    return [f'set ylabel {quoted(panel.axis.title)} noenhanced', f'set yrange [{ends}]', 'unset label', *(panel.marks(time, type_) if type_ else []), f'plot {curves}']


def script(panels, time, window, step, title, path, size, marked):
    """All that gnuplot is told."""
    width, height = size or (900, 110 + 300 * len(panels))
    ending = os.path.splitext(path)[1].lower()
    if ending not in TERMINALS:
        raise NoPicture(f'a picture ends in {", ".join(TERMINALS)}, not in {ending or "nothing"}')
    terminal = TERMINALS[ending].format(w=width, h=height, wcm=round(width / 50, 2), hcm=round(height / 50, 2))
    margins = 12, 11 + max(len(one) for panel in panels for one in panel.titles(time, marked)) * 7 // 8  # of the frame, left and right, in gnuplot's characters
    type_ = labels.Type(LETTER / max(LETTER, width - MARGIN_LETTER * sum(margins)), LINE / max(LINE, height / len(panels) - AROUND))
    ends = [time.written(one * step) for one in (started(window), window.last)] if len(window) > 1 else []
    lines = ['set encoding utf8', f'set terminal {terminal}', f'set output {quoted(path)}', 'set grid lt 1 lc rgb "#d4d4d4"', 'set key outside right top',
             f'set xlabel {quoted(time.title)}', f'set lmargin {margins[0]}; set rmargin {margins[1]}',
             'set style textbox opaque noborder fillcolor rgb "#ffffff" margins 0.4,0.4', f'set xrange [{":".join(ends)}]']
    for number, panel in enumerate(panels):
        lines += [f'$p{number}c{place} << EOD\n{block}\nEOD' for place, block in enumerate(panel.data(time))]
    lines.append(f'set multiplot layout {len(panels)},1' + (f' title {quoted(title)} noenhanced' if title else ''))
    for number, panel in enumerate(panels):
        lines += drawn(panel, number, time, type_ if marked else None)
    return '\n'.join(lines + ['unset multiplot', ''])


def picture(result, curves, window, ending, title='', bases=None, size=None, marked=True):
    """The bytes of a picture of the curves, of the kind that its ending says; bases: per unit of these, by quantity. And its panels and the axis of time."""
    if not shutil.which('gnuplot'):
        raise NoPicture('pictures need gnuplot: apt-get install gnuplot-nox (tools/setup does it)')
    if not len(window):
        raise NoPicture('nothing to draw: no full step in this time' if result.steps else 'nothing to draw: no full step was taken')
    panels = [Panel(result, chosen, window, (bases or {}).get(quantity)) for quantity in (VOLTAGE, CURRENT)
              for chosen in [[curve for curve in curves if curve.quantity is quantity]] if chosen]
    time = Axis.of(TIME, window.last * result.network.step)
    with tempfile.TemporaryDirectory() as folder:
        path = os.path.join(folder, 'picture' + ending)
        told = subprocess.run(['gnuplot'], input=script(panels, time, window, result.network.step, title, path, size, marked), text=True, capture_output=True)
        if told.returncode or not os.path.exists(path):
            raise NoPicture(f'gnuplot: {told.stderr.strip()}')
        with open(path, 'rb') as file:
            return file.read(), panels, time
