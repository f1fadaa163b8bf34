"""A study as the compiled reader understood it: the words that it wrote, by rows."""
import os
from collections import namedtuple

from . import library
from .kinds import BREAKER, BY_NUMBER, HOLDING, STEPS_MOST, SWITCHES, conductance
from .words import Refusal, Refused


class Row(namedtuple('Row', 'kind fields line branch')):
    """A line of the study: its kind, its fields as in the text, its line's number and, unless it is a source, its branch number."""

    @property
    def word(self):
        return self.kind.word

    @property
    def ends(self):
        """From and to; of a source its node and ground."""
        return self.fields[:2] if self.kind.branch else (self.fields[0], 0)

    @property
    def value(self):
        """Of a branch: mΩ, nH or pF; of a source its peak."""
        return self.fields[2] if self.kind.branch else self.fields[1]


class Network:
    """An accepted study. .step (ns), .steps, .limit (0.1 nA), .rows, .branches, .sources, .nodes (the largest node), .area_count, .text (bytes)."""

    def __init__(self, memory, text):
        words = memory.network
        self.text, self._words = text, bytes(words)
        self.step, self.steps, self.limit = words[0], words[1], words[2]
        row_of, self._area_of, self.area_count = numbered(memory.row), numbered(memory.area), accepted(memory.areas())
        branch_of = {row: branch for branch, row in row_of.items()}
        self.rows = []
        for place in range(words[3]):
            at, kind = 8 + 8 * place, BY_NUMBER[words[8 + 8 * place]]
            self.rows.append(Row(kind, tuple(words[at + 1:at + 1 + len(kind.fields)]), place + 2, branch_of.get(place + 1)))
        self.branches = [self.rows[row - 1] for row in row_of.values()]
        self.sources = [row for row in self.rows if not row.branch]
        self.nodes = len(self._area_of)
        self.held = {row.ends[0] for row in self.sources if row.word in HOLDING}

    def memory(self):
        """Fresh memory with this network, at rest."""
        memory = library.Memory()
        memory.network[:] = (library.c_int64 * library.NETWORK_WORDS).from_buffer_copy(self._words)
        answer = memory.reset()
        if answer:
            raise Refusal(answer)
        return memory

    def conductance(self, row):
        """In nS; of a switch, closed."""
        return conductance(row.word, row.value, self.step)

    def groups(self):
        """The rows, with equal branches that follow one another taken together: side by side they are one."""
        found = []
        for row in self.rows:
            if found and row.kind.branch and found[-1][0].kind is row.kind and found[-1][0].fields == row.fields:
                found[-1].append(row)
            else:
                found.append([row])
        return found

    def meeting(self, node):
        """The branches that meet at a node."""
        return [row for row in self.branches if node in row.ends]

    def rounding(self, node):
        """What the rounding of voltages to 0.1 V may leave over at a node, at most: the sum of the conductances that meet there, in 0.1 nA."""
        return sum(map(self.conductance, self.meeting(node)))

    def closed(self, row, step, parted=None):
        """Whether a branch conducts at a step: a switch that is closed then, and any other branch always."""
        return row.word not in SWITCHES or row.fields[3] <= step < self.opens(row, parted)

    def opens(self, row, parted=None):
        """From which step on a switch is open again. parted is a run's: of a breaker the step after which it parted, 0 where it did not. Without a run it is the first
        step at which the breaker may be open."""
        if row.word != BREAKER:
            return row.fields[4]
        after = may_part(row) if parted is None else parted[row.branch]
        return after + 1 if after else STEPS_MOST + 1

    def area(self, node):
        """The number of a node's area, from 1."""
        return self._area_of[node]

    def areas(self):
        """The nodes of each area, by the areas' numbers."""
        return [[node for node, number in self._area_of.items() if number == area] for area in range(1, self.area_count + 1)]

    def write(self):
        """The study text of this network, by the compiled writer."""
        answer, text = self.memory().write()
        if answer:
            raise Refusal(answer)
        return text


def may_part(row):
    """The first step after which a breaker parts, if its current is zero there or has turned: one before its opening step, but later than its closing one."""
    return max(row.fields[4] - 1, row.fields[3] + 1)


def accepted(answered):
    """What a call told, which was to be accepted."""
    answer, told = answered
    if answer:
        raise Refusal(answer)
    return told


def numbered(call):
    """What a call tells of 1, 2, .. up to the last node or branch, by number."""
    told = {}
    while (answered := call(len(told) + 1))[0] != library.NONE:
        told[len(told) + 1] = accepted(answered)
    return told


def text_of(study):
    """The bytes of a study: bytes as they are, or a file's by its path; of a file that is too long as many as show it."""
    if isinstance(study, (bytes, bytearray)):
        return bytes(study)
    with open(os.fspath(study), 'rb') as file:
        return whole(file)


def whole(file):
    """All that an open file has, but not much more than a study may have."""
    pieces, length = [], 0
    while length <= library.TEXT_BYTES:
        piece = file.read(library.TEXT_BYTES + 1 - length)
        if not piece:
            break
        pieces.append(piece)
        length += len(piece)
    return b''.join(pieces)


def read(study):
    """Reads a study, a path or bytes, into a Network; raises Refused where the text is not taken."""
    if isinstance(study, Network):
        return study
    text, memory = text_of(study), library.Memory()
    answer, line = memory.read(text)
    if answer:
        raise Refused(answer, line, text)
    return Network(memory, text)
