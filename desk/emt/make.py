"""From a friendly text to the study text: exact arithmetic, every rounding named.

A value that passes its end, as a capacitance of over 1 S at this step, becomes equal branches side by side. The balance limit, where it is not said, is
the largest sum of conductances at a node: what the rounding of voltages may leave over.
"""
from collections import namedtuple
from fractions import Fraction

from . import faults
from .friendly import NotUnderstood
from .kinds import BRANCHES, BY_WORD, CONDUCTANCE_MOST, HOLDING, STUDY, conductance
from .names import Names
from .quantities import CAPACITANCE, CURRENT, TIME, about, count, counted, exact, said
from .study import read
from .textline import Text, range_of
from .words import Refused

Made = namedtuple('Made', 'text names roundings notes lines')  # lines: the friendly text's line of each line of the study


class Rounding(namedtuple('Rounding', 'line what asked got unit')):
    """What was asked for and what was made of it, in SI units."""

    @property
    def words(self):
        by = abs(self.got - self.asked)
        return (f'line {self.line}, {self.what}: {about(self.asked, self.unit, 12)} asked, {about(self.got, self.unit, 12)} made, '
                f'{about(by, self.unit)} {"more" if self.got > self.asked else "less"}')


def nearest(number):
    """To the nearest whole number, halves up."""
    return (number + Fraction(1, 2)).__floor__()


class Maker:
    def __init__(self, friendly):
        self.friendly, self.roundings, self.notes = friendly, [], []
        self.step = self.whole(friendly.step[0], 'step', friendly.step[1], STUDY.fields[0])
        self.numbers = self.number_nodes()

    def whole(self, line, what, asked, field):
        """A value in the text's units, rounded to the nearest and named where it is not whole; refused outside its range."""
        unit = exact(1, field.quantity)
        number = nearest(asked / unit)
        if not field.low <= number <= field.high:
            raise NotUnderstood(line, f'{what} {about(asked, field.quantity.unit, 12)} is out of its range, {range_of(field)}')
        self.named(line, what, asked, number * unit, field.quantity.unit)
        return number

    def named(self, line, what, asked, got, unit):
        if asked != got:
            self.roundings.append(Rounding(line, what, asked, got, unit))

    # ---- times

    def at_step(self, one, field, time):
        """A time as a step's number, the first that is solved being 1; or as a number of steps."""
        what = f'{self.called(one)}, {field.option}'
        number = max(min(1, field.low), nearest(time / exact(self.step, TIME))) if time >= 0 else -1
        if not field.low <= number <= field.high:
            may_be = f'{count(field.low)} to {count(field.high)} may be, up to {said(field.high * self.step, TIME)} at this step length'
            raise NotUnderstood(one.line, f'{what} {about(time, "s", 12)} is {count(number)} steps: {may_be}')
        self.named(one.line, what, time, exact(number * self.step, TIME), 's')
        return number

    def steps(self):
        """How many steps the run has: enough for its time."""
        if self.friendly.steps:
            line, number = self.friendly.steps
        else:
            line, time = self.friendly.time
            number = -(-time / exact(self.step, TIME)).__floor__()
            self.named(line, 'time', time, exact(number * self.step, TIME), 's')
        field = STUDY.fields[1]
        if not field.low <= number <= field.high:
            raise NotUnderstood(line, f'the run has {count(number)} steps: {count(field.low)} to {count(field.high)} may be')
        return number

    # ---- nodes

    def number_nodes(self):
        """Nodes called by a number keep it; names get the lowest numbers that are left, in order of the text."""
        numbers, words = {'0': 0}, [word for one in self.friendly.elements for word in one.nodes]
        numbers.update({word: int(word) for word in words if word.isdigit()})
        for word in words:
            if word not in numbers:
                numbers[word] = min(set(range(1, len(words) + len(numbers) + 1)) - set(numbers.values()))
        gaps = set(range(1, max(numbers.values()) + 1)) - set(numbers.values())
        if gaps:
            raise NotUnderstood(1, f'node {max(numbers.values())} is there and node {min(gaps)} is not: a node without a branch hangs in the air. '
                                'Number them without gaps, or name them')
        return numbers

    def called(self, one):
        return one.name or f'{one.kind.word} {"–".join(one.nodes)}'.replace('–0', '–ground')

    # ---- rows

    def fits(self, one, number):
        """Whether a branch's or source's number in the text's units is within its ends, its conductance too."""
        place = 2 if one.kind.branch else 1
        field = one.kind.fields[place]
        return field.low <= number <= field.high and (one.kind.word not in ('L', 'C') or 1 <= conductance(one.kind.word, number, self.step) <= CONDUCTANCE_MOST)

    def side_by_side(self, one):
        """How many equal branches, or current sources, and the number that each has in the text."""
        place = 2 if one.kind.branch else 1
        field, asked = one.kind.fields[place], one.values[place]
        shares = field.quantity in (CAPACITANCE, CURRENT)  # side by side these add; resistances and inductances have a part of one
        for many in range(1, BRANCHES + 1):
            each = asked / many if shares else asked * many
            number = nearest(each / exact(1, field.quantity))
            if self.fits(one, number):
                total = exact(number, field.quantity) * many if shares else exact(number, field.quantity) / many
                if many > 1:
                    self.notes.append(f'line {one.line}, {self.called(one)}: {about(asked, field.quantity.unit, 12)} as {many} side by side of '
                                      f'{said(number, field.quantity)}')
                self.named(one.line, self.called(one), asked, total, field.quantity.unit)
                return many, number
            if one.kind.word in HOLDING:
                break
        raise NotUnderstood(one.line, f'{self.called(one)}: {self.out_of_range(one, field, asked)}')

    def out_of_range(self, one, field, asked):
        """Why no number of equal branches has a value: its own range, or the conductance at this step, with a step that takes it."""
        number = nearest(asked / exact(1, field.quantity))
        if one.kind.word in ('L', 'C') and field.low <= number <= field.high:
            text = Text(f'study\t{self.step}\t1\t0\n{one.kind.word}\t1\t0\t{number}\n'.encode())
            fault = faults.conducting(text.line(2), text)
            return f'{fault.wrong}; {fault.hint}'
        many = f'; {BRANCHES} side by side are the most' if one.kind.branch and number < field.low else ''
        return f'{about(asked, field.quantity.unit, 12)} is out of range, {range_of(field)}{many}'

    def rows(self, one):
        """The lines of the study for an element, equal ones side by side."""
        many, number = self.side_by_side(one)
        first = 2 if one.kind.branch else 1
        fields = [str(self.numbers[word]) for word in one.nodes] + [str(number)]
        for place, field in list(enumerate(one.kind.fields))[first + 1:]:
            if field.option:
                fields.append(str(self.at_step(one, field, one.values[place]) if place in one.values else field.default))
            else:
                fields.append(str(self.whole(one.line, f'{self.called(one)}, {field.name}', one.values[place], field)))
        return ['\t'.join([one.kind.word] + fields)] * many

    # ---- the whole

    def study(self, limit, body):
        return '\n'.join([f'study\t{self.step}\t{self.steps_taken}\t{limit}'] + body).encode() + b'\n'

    def limit(self, body):
        """The limit that was asked for, or the largest sum of conductances at a free node."""
        network = self.read(self.study(0, body), body)
        free = [node for node in range(1, network.nodes + 1) if node not in network.held]
        worst = max(free, key=network.rounding, default=0)
        needed = network.rounding(worst) if free else 0
        at_node = next((word for word, number in self.numbers.items() if number == worst), '')
        if not self.friendly.limit:
            self.notes.append(f'balance limit worked out: {said(needed, CURRENT)}' + (f', the sum of the conductances at node {at_node}' if free else ''))
            return needed
        number = self.whole(self.friendly.limit[0], 'limit', self.friendly.limit[1], STUDY.fields[2])
        if number < needed:
            self.notes.append(f'line {self.friendly.limit[0]}: the limit is below {said(needed, CURRENT)}, what the rounding of voltages may leave over at '
                              f'node {at_node}')
        return number

    def read(self, text, body):
        """The network of what was made; a refusal is told by the friendly text's line."""
        try:
            return read(text)
        except Refused as refused:
            _, fault = faults.fault_of(refused)
            words = f'{fault.wrong}; {fault.hint}' if fault.hint else fault.wrong
            line = self.lines[refused.line - 1] if 0 < refused.line <= len(self.lines) else 1
            raise NotUnderstood(line, f'{refused.name} ({refused.number}): {words}') from None

    def made(self):
        body, self.lines, branches, sources = [], [self.friendly.step[0]], {}, {}
        self.steps_taken = self.steps()
        for one in self.friendly.elements:
            rows = self.rows(one)
            if one.name and one.kind.branch:
                before = sum(BY_WORD[row.split('\t')[0]].branch for row in body)
                branches.update({before + place: one.name for place in range(1, len(rows) + 1)})
            elif one.name:
                sources.update({len(self.lines) + place: one.name for place in range(1, len(rows) + 1)})
            body += rows
            self.lines += [one.line] * len(rows)
        text = self.study(self.limit(body), body)
        self.read(text, body)
        nodes = {number: word for word, number in self.numbers.items() if number and not word.isdigit()}
        return Made(text, Names(self.friendly.title, nodes, branches, sources), self.roundings, self.notes, self.lines)


def make(friendly):
    """The study of a friendly text: its text, the names, the roundings and what else is to be said."""
    return Maker(friendly).made()
