"""Runs: the listing by pieces, and what it lists as arrays by node and branch.

The arrays hold the listing's own whole numbers (0.1 V, 0.1 nA), step k at place k - 1. Nothing is worked out here.
"""
from array import array

from . import library
from .kinds import BREAKER
from .study import read
from .words import Refusal, Stopped


class Listing:
    """The listing of a network by pieces, each of full steps; byte for byte what emtrun writes. When it has ended, .stop is None or a Stopped."""

    def __init__(self, network):
        self.network, self.memory, self.stop = network, network.memory(), None

    def pieces(self):
        out = (library.c_uint8 * library.LIST_BYTES)()
        answer = library.MORE
        while answer == library.MORE:
            answer, written, area, number, place = self.memory.list(out)
            piece = memoryview(out)[:written].tobytes()
            if answer == library.STOPPED:
                self.stop = Stopped(number, int(piece[:-1].rsplit(b'\n', 1)[-1].split(b'\t')[1]), area, place)
            elif answer not in (0, library.MORE):
                raise Refusal(answer)
            yield piece


class Run:
    """A run's results.

    .v[node], .i[branch]: arrays of whole numbers of 0.1 V and 0.1 nA. .i_to[branch]: of a line, the current that leaves its to node into it.
    .steps: how many full steps were taken; .time: their times in ns.
    .peaks[node]: its largest voltage without sign and the first step where it came, as the compiled call tells it.
    .parted[branch]: of each breaker (SW) the step after which it parted, 0 where it did not; a word of the records.
    .stop: None, or the Stopped that ended the run. volts(), amperes() and seconds() give doubles, for programs that draw.
    """

    def __init__(self, network):
        self.network, self.stop, self.steps, self.peaks, self.parted = network, None, 0, {}, {}
        self.v = {node: array('q') for node in range(1, network.nodes + 1)}
        self.i = {row.branch: array('q') for row in network.branches}
        self.i_to = {row.branch: array('q') for row in network.branches if row.word == 'LINE'}

    @property
    def time(self):
        return array('q', (step * self.network.step for step in range(1, self.steps + 1)))

    def volts(self, node):
        return array('d', (number / 10 for number in self.v[node]))

    def amperes(self, branch, to_end=False):
        return array('d', (number / 10 ** 10 for number in (self.i_to if to_end else self.i)[branch]))

    def seconds(self):
        return array('d', (number / 10 ** 9 for number in self.time))

    def _columns(self):
        """The arrays with their places among the words of one full step's lines, and how many words these have."""
        place, found = 0, []
        for node in self.v:
            found.append((place + 3, self.v[node]))
            place += 4
        for branch in self.i:
            found.append((place + 3, self.i[branch]))
            if branch in self.i_to:
                found.append((place + 4, self.i_to[branch]))
            place += 5 if branch in self.i_to else 4
        return found, place

    def _take(self, piece):
        """Puts a piece of the listing, full steps and perhaps a last line, into the arrays."""
        columns, width = self._columns()
        words = piece.split()
        end = len(words) - (2 if words[-2:-1] == [b'done'] else 5 if words[-5:-4] == [b'stop'] else 0)
        for place, column in columns:
            column.extend(map(int, words[place:end:width]))


def run(study):
    """Runs a study (a Network, a path or bytes) to its end. Raises Refused, or Stopped, whose .run has all full steps that were taken."""
    network = read(study)
    listing, result = Listing(network), Run(network)
    for piece in listing.pieces():
        result._take(piece)
    for node in result.v:
        answer, _, peak, step = listing.memory.node(node)
        if answer:
            raise Refusal(answer)
        result.peaks[node] = (peak, step)
    result.parted = {row.branch: listing.memory.parted(row.line - 2) for row in network.branches if row.word == BREAKER}
    result.stop = listing.stop
    result.steps = result.stop.step - 1 if result.stop else network.steps
    if result.stop:
        result.stop.run = result
        raise result.stop
    return result


def outcome(study):
    """As run, but a run that stopped is answered too, its .stop set."""
    try:
        return run(study)
    except Stopped as stop:
        return stop.run
