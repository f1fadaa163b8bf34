"""Where the labels of a picture's peaks stand: beside their points, in the frame, off one another and off the curves as far as there is room.

Everything is in shares of the panel, x and y from 0 to 1. A label begins behind its point ('left', as gnuplot calls the side that is fixed) or ends before it ('right'), above or
below it by some lines of text.
"""
from collections import namedtuple

LEVELS = 4  # so many lines up or down are tried

# how much of the panel a character is wide and a line of text is high
Type = namedtuple('Type', 'character line')
# of a peak its point, the length of its words, and whether they are usually above it
Peak = namedtuple('Peak', 'x y length above')
# the side that is fixed, lines up (negative: down), and the box that the words fill
Label = namedtuple('Label', 'side up left right low high')


def tried(peak, type_):
    """The places for a peak's words, the usual ones first."""
    width = peak.length * type_.character
    for level in range(LEVELS):
        for way in (1, -1) if peak.above else (-1, 1):
            for side in ('left', 'right'):
                up = way * (0.8 + 1.1 * level)
                left = peak.x + type_.character if side == 'left' else peak.x - type_.character - width
                middle = peak.y + up * type_.line
                yield Label(side, up, left, left + width, middle - type_.line / 2, middle + type_.line / 2)


def apart(one, other):
    return one.right < other.left or other.right < one.left or one.high < other.low or other.high < one.low


def cost(label, others, points):
    """What speaks against a place: to pass the frame, to cover another label, to cover curves."""
    outside = label.left < 0 or label.right > 1 or label.low < 0 or label.high > 1
    covered = sum(label.left <= x <= label.right and label.low <= y <= label.high for x, y in points)
    return 10000 * outside + 2000 * sum(not apart(label, other) for other in others) + 10 * covered


def placed(peaks, points, type_):
    """The labels of peaks; points are those of all curves. Of places that are as good the first is taken."""
    found = []
    for peak in peaks:
        found.append(min(enumerate(tried(peak, type_)), key=lambda one: cost(one[1], found, points) + 2 * one[0])[1])
    return found


def filled(points, most):
    """Points of a curve with others between them, so that none are farther apart in y than most: a steep front passes a label that no point lies in."""
    between = points[:1]
    for (x, y), (next_x, next_y) in zip(points, points[1:]):
        parts = int(abs(next_y - y) / most) + 1
        between += [(x + (next_x - x) * part / parts, y + (next_y - y) * part / parts) for part in range(1, parts + 1)]
    return between
