"""`emt make`: what is read back of a made text is what was asked for, within the roundings that were named, and no others are."""
import os
import unittest
from fractions import Fraction
from math import floor, log10

from common import COUNT, WORK, dice, emt as command, saved

import emt
from emt import friendly, kinds, make

SOURCES = ('VS', 'IS', 'VC')

# SI units of one unit of the text; the test's own table
UNIT = {'Ω': Fraction(1, 10 ** 3), 'H': Fraction(1, 10 ** 9), 'F': Fraction(1, 10 ** 12), 's': Fraction(1, 10 ** 9), 'V': Fraction(1, 10), 'A': Fraction(1, 10 ** 10), 'Hz': Fraction(1, 10 ** 3)}
PREFIXES = {'p': -12, 'n': -9, 'u': -6, 'µ': -6, 'm': -3, '': 0, 'k': 3, 'M': 6}
SPELT = {'Ω': ['ohm', 'Ω', 'Ohm'], 'H': ['H'], 'F': ['F'], 's': ['s'], 'V': ['V'], 'A': ['A'], 'Hz': ['Hz']}


def made(text):
    return make.make(friendly.understood(text.split('\n')))


def spelt(roll, unit, low, high):
    """A value between two ends (SI units), spelt some way, and the exact value: digits, a point anywhere, a prefix or an exponent."""
    prefix = roll.choice(list(PREFIXES))
    power = Fraction(10) ** PREFIXES[prefix]
    aim = Fraction(roll.choice([low, high, low + (high - low) * roll.random(), low * (high / low) ** roll.random()]))
    places = max(0, roll.randint(-1, 9) - min(0, floor(log10(aim / power))))
    number = round(aim / power * 10 ** places)
    digits = str(abs(number)).rjust(places + 1, '0')
    written = ('-' if number < 0 else '') + (digits[:-places] + '.' + digits[-places:] if places else digits)
    value = Fraction(number, 10 ** places) * power
    if roll.random() < 0.1:
        written, value = written + 'e1', value * 10
    return written + roll.choice(['', '', ' ']) + prefix + roll.choice(SPELT[unit]), value


class Asked:
    """A random friendly text, with what it asks for: elements of word, nodes, name, values by their order, and times by option."""

    def __init__(self, roll):
        self.step_text, self.step = spelt(roll, 's', 1e-9, 2e-5)
        self.lines, self.elements = ['# made by dice', f'step {self.step_text}  # a comment'], []
        step = max(float(self.step), 1e-9)
        if roll.random() < 0.5:
            text, self.time = spelt(roll, 's', step, 500 * step)
            self.lines.append(f'time {text}')
        else:
            self.time, self.steps = None, roll.randint(1, 1000)
            self.lines.append(f'steps {self.steps}')
        self.limit = None
        if roll.random() < 0.3:
            text, self.limit = spelt(roll, 'A', 1e-9, 1e3)
            self.lines.append(f'limit {text}')
        names = ['a', 'bus', 'far_end', 'X.1', 'node_5', '1', '2']
        for number in range(roll.randint(1, 8)):
            self.add(roll, step, names, f'b{number}' if roll.random() < 0.6 else '')

    def add(self, roll, step, names, name):
        word = roll.choice(['R', 'L', 'C', 'LINE', 'SW', 'VS', 'IS', 'VC', 'SWT'])
        nodes = roll.sample(names + (['ground', '0', 'gnd'] if word not in ('LINE',) + SOURCES else []), 2 if word not in SOURCES else 1)
        if len(nodes) == 2 and {'ground', '0', 'gnd'} >= set(nodes):
            nodes[1] = 'bus'
        ends = {'R': [('Ω', 0.02, 1e9)], 'L': [('H', step / 40, 1e3)], 'C': [('F', 1e-12, 20 * step)], 'LINE': [('Ω', 0.1, 1e6), ('s', step, 60 * step)], 'SW': [('Ω', 0.05, 1e3)],
                'VS': [('V', 0.1, 2e6)], 'IS': [('A', 1e-9, 4e5)], 'VC': [('V', 0.1, 2e6), ('Hz', 1e-3, 100)], 'SWT': [('Ω', 0.05, 1e3)]}[word]
        values = [spelt(roll, *end) for end in ends]
        options = {option: spelt(roll, 's', low * step, high * step) for option, low, high in
                   {'SW': [('close', 1, 400), ('open', 450, 900)], 'VS': [('at', 0.1, 400), ('rise', 0.1, 900)], 'IS': [('at', 1, 400), ('rise', 0.1, 900)],
                    'VC': [('at', 0.1, 400)], 'SWT': [('close', 1, 400), ('open', 450, 900)]}.get(word, [])
                   if roll.random() < 0.6}
        line = (f'{name}: ' if name else '') + ' '.join([word if roll.random() < 0.8 else word.lower()] + nodes + [text for text, _ in values]
                                                        + [f'{option} {text}' for option, (text, _) in options.items()])
        self.lines += [''] * roll.randint(0, 1) + [line]
        self.elements.append((len(self.lines), word, nodes, name, [value for _, value in values], {option: value for option, (_, value) in options.items()}))

    @property
    def text(self):
        return '\n'.join(self.lines)


class ReadBack(unittest.TestCase):
    """One random text after the other is made; what the compiled reader reads of the made text is compared with what was asked."""

    def same(self, line, asked, got, most):
        """What was asked and what was got: within half a unit, and a rounding named just where they differ."""
        self.assertLessEqual(abs(asked - got), most, (line, self.text))
        if asked != got:
            self.expected.append((line, asked, got))

    def value(self, line, unit, asked, numbers, adds):
        """A value by equal branches side by side, each a number of the text's units."""
        self.assertEqual(len(set(numbers)), 1)
        many, each = len(numbers), numbers[0] * UNIT[unit]
        self.same(line, asked, each * many if adds else each / many, UNIT[unit] / 2 * many if adds else UNIT[unit] / 2 / many)

    def time(self, line, asked, steps, low):
        step = self.network.step * UNIT['s']
        self.same(line, asked, steps * step, step / 2 if steps > low else step)

    def element(self, element, rows):
        """Takes an element's rows from the front; answers those that are left."""
        line, word, nodes, name, values, options = element
        many = 1
        while many < len(rows) and rows[many].fields == rows[0].fields and rows[many].word == word and self.lines[rows[many].line - 1] == line:
            many += 1
        own = rows[:many]
        for row in own:
            self.assertEqual((row.word, self.lines[row.line - 1]), (word, line))
            self.assertEqual([self.called(end) for end in row.ends[:len(nodes)]], [{'ground': '0', 'gnd': '0'}.get(node, node) for node in nodes])
            called = self.made.names.branches.get(row.branch, '') if row.branch else self.made.names.sources.get(row.line, '')
            self.assertEqual(called, name)
            self.assertIn(f'({name})' if name else row.word, self.made.names.place(row))
        unit = {'L': 'H', 'C': 'F', 'VS': 'V', 'VC': 'V', 'IS': 'A'}.get(word, 'Ω')
        self.value(line, unit, values[0], [row.value for row in own], word in ('C', 'IS'))
        if word == 'LINE':
            self.same(line, values[1], own[0].fields[3] * UNIT['s'], UNIT['s'] / 2)
        if word == 'VC':
            self.same(line, values[1], own[0].fields[3] * UNIT['Hz'], UNIT['Hz'] / 2)
        switch, ramp = (('close', 3, 1), ('open', 4, 2)), (('at', 2, 1), ('rise', 3, 0))
        for option, place, low in {'SW': switch, 'SWT': switch, 'VS': ramp, 'IS': ramp, 'VC': ramp[:1]}.get(word, ()):
            if option in options:
                self.time(line, options[option], own[0].fields[place], low)
            else:
                self.assertEqual(own[0].fields[place], {'close': 1, 'open': 1000001, 'at': 1, 'rise': 0}[option])
        return rows[many:]

    def called(self, node):
        return '0' if node == 0 else self.made.names.nodes.get(node, str(node))

    def test_random_texts(self):
        roll, taken, refused, side_by_side = dice(5), 0, 0, 0
        for _ in range(2 * COUNT):
            asked = Asked(roll)
            self.text = asked.text
            try:
                self.made = made(asked.text)
            except friendly.NotUnderstood as problem:
                self.assertTrue(1 <= problem.line <= len(asked.lines) and problem.words)
                refused += 1
                continue
            taken += 1
            self.network, self.expected, self.lines = emt.read(self.made.text), [], self.made.lines
            self.same(2, asked.step, self.network.step * UNIT['s'], UNIT['s'] / 2)
            if asked.time is None:
                self.assertEqual(self.network.steps, asked.steps)
            else:
                step = self.network.step * UNIT['s']
                self.same(3, asked.time, self.network.steps * step, step)
                self.assertGreaterEqual(self.network.steps * step, asked.time)
            rows = self.network.rows
            for element in asked.elements:
                rows = self.element(element, rows)
            self.assertEqual(rows, [])
            needed = max((self.network.rounding(node) for node in range(1, self.network.nodes + 1) if node not in self.network.held), default=0)
            if asked.limit is None:
                self.assertEqual(self.network.limit, needed)
            else:
                self.same(4, asked.limit, self.network.limit * UNIT['A'], UNIT['A'] / 2)
            named = sorted((one.line, one.asked, one.got) for one in self.made.roundings)
            self.assertEqual(named, sorted(self.expected), self.text)
            side_by_side += len(self.network.branches) > len([one for one in asked.elements if one[1] not in SOURCES])
        self.assertGreater(taken, COUNT / 2, 'too few were taken')
        self.assertGreater(refused, COUNT / 20)
        self.assertGreater(side_by_side, COUNT / 10)

    def test_the_limit_is_enough(self):
        """No run with a limit that was worked out stops by UNBALANCED."""
        roll, ended = dice(6), 0
        for _ in range(COUNT // 2):
            asked = Asked(roll)
            try:
                network = emt.read(made('\n'.join(line for line in asked.lines if not line.startswith('limit'))).text)
            except friendly.NotUnderstood:
                continue
            stop = emt.outcome(network).stop
            self.assertFalse(stop and stop.number == 16, asked.text)
            ended += stop is None
        self.assertGreater(ended, 0)


class Rules(unittest.TestCase):
    HEAD = 'step 1us\ntime 1ms\n'

    def rows(self, text):
        return made(self.HEAD + text).text.decode().replace('\t', ' ').split('\n')[1:-1]

    def test_rows(self):
        self.assertEqual(self.rows('VS a 115kV\nIS a -30 kA at 2us rise 1.2us\nR a b 1kohm\nSW b gnd 1 Ω close 10us open 1ms\nSW b gnd 1ohm\nLINE a b 280ohm 300us\nL b 0 1mH\nC b earth 2nF'), [
            'VS 1 1150000 1 0', 'IS 1 -300000000000000 2 1', 'R 1 2 1000000', 'SW 2 0 1000 10 1000', 'SW 2 0 1000 1 1000001', 'LINE 1 2 280000 300000', 'L 2 0 1000000', 'C 2 0 2000'])

    def test_supplies_and_switches(self):
        self.assertEqual(self.rows('VC a 163kV 50Hz at 3us\nvc b -163kV 16.7Hz'), ['VC 1 1630000 3 50000', 'VC 2 -1630000 1 16700'])
        self.assertEqual(self.rows('VS b 1V\nSWT b a 1ohm close 5us open 9us\nswt b a 0.5ohm'), ['VS 1 10 1 0', 'SWT 1 2 1000 5 9'] + ['SWT 1 2 1000 1 1000001'] * 2)

    def test_numbers_of_nodes_stay(self):
        self.assertEqual(self.rows('R 2 x 1kohm\nR x 1 1kohm\nR y 0 1kohm'), ['R 2 3 1000000', 'R 3 1 1000000', 'R 4 0 1000000'])

    def test_side_by_side(self):
        self.assertEqual(self.rows('C a 0 13.37uF'), ['C 1 0 495185'] * 27)
        self.assertEqual(self.rows('R a 0 0.25ohm'), ['R 1 0 1000'] * 4)
        self.assertEqual(self.rows('L a 0 0.2uH'), ['L 1 0 600'] * 3)
        self.assertEqual(self.rows('IS a 500kA\nR a 0 1ohm')[:-1], ['IS 1 1666666666666667 1 0'] * 3)

    def test_at_0(self):
        self.assertEqual([(one.asked, one.got) for one in made(self.HEAD + 'VS a 1V at 0s').roundings], [(0, Fraction(1, 10 ** 6))])
        self.assertEqual(made(self.HEAD + 'VS a 1V').roundings, [])

    def refused(self, text, line, *pieces):
        with self.assertRaises(friendly.NotUnderstood) as caught:
            made(text)
        self.assertEqual(caught.exception.line, line, caught.exception.words)
        for piece in pieces:
            self.assertIn(piece, caught.exception.words)

    def test_not_understood(self):
        self.refused('', 1, '`step` is missing')
        self.refused('step 1us', 1, 'how long')
        self.refused('step 1us\ntime 1ms\nsteps 5', 3, 'either')
        self.refused('step 1us\nstep 1us', 2, 'a second `step`')
        self.refused('step 1', 1, "'1' has no unit", 'a time')
        self.refused('step 1kV', 1, 'is a voltage', 'a time')
        self.refused('step 2ms\nsteps 5', 1, 'out of its range, 1 ns to 1 ms')
        for text, pieces in (('R a b 5uF', ['is a capacitance']), ('R a b 1,5ohm', ['a comma', '1.5ohm']), ('R a b', ['too little', 'R NODE NODE RESISTANCE']), ('R a b 1ohm 2ohm', ["'2ohm' is not understood"]),
                             ('Q a b 1ohm', ["'Q' is not understood"]), ('R a-b c 1ohm', ['no name of a node']), ('R v2 c 1ohm', ["cannot be called 'v2'"]), ('R 40 1 1ohm', ['no node 40']),
                             ('R a a 1ohm', ['to itself']), ('LINE a gnd 280ohm 5us', ['ends on ground']), ('LINE a b 280ohm 0.5us', ['TRAVEL']), ('VS a 3MV', ['out of range']),
                             ('VS a 1V rise 5ms', ['0 to 1,000']), ('VS a 1V at -1us', ['1 to 1,000,000']), ('R a b 0ohm', ['out of range']), ('C a b 0.5mF', ['1 kS', 'it would take 1000 branches side by side, or a step of 1,000,000 ns']), ('C a b 1F', ['out of range, 1 pF to 1 mF']), ('C a b 0.1pF', ['out of range']),
                             ('R a b 1mohm', ['64 side by side are the most']),
                             ('x: R a b 1ohm\nx: R a b 1ohm', ["'x' is the name of line 3"]), ('a: R a b 1ohm', ["a node's name too"]), ('R 1 9 1ohm', ['node 2 is not']),
                             ('SW a b 1ohm close 9us open 5us', ['opens at step 5']), ('VS a 1V\nVS a 2V', ['DOUBLE']), ('x:', ['not understood'])):
            with self.assertRaises(friendly.NotUnderstood, msg=text) as caught:
                made(self.HEAD + text)
            for piece in pieces:
                self.assertIn(piece, caught.exception.words, text)

    def test_too_many_branches(self):
        self.refused(self.HEAD + 'C a 0 13uF\nC b 0 13uF\nC c 0 13uF', 5, 'FULL', '64 branches')


class Command(unittest.TestCase):
    TEXT = 'title A bank\nstep 1us\ntime 2ms\nsupply: VS bus 93.9kV\nfeeder: L bus cap 0.5mH\nbank: C cap ground 13.37uF\nR cap 0 1Mohm\n'

    def test_files(self):
        saved('bank.emt', self.TEXT)
        status, out, _ = command('make', 'bank.emt')
        self.assertEqual(status, 0)
        for piece in ('13.37 µF as 27 side by side of 495.185 nF', 'rounded: line 6, bank: 13.37 µF asked, 13.369995 µF made, 5 pF less', 'balance limit worked out'):
            self.assertIn(piece, out.decode())
        with open(os.path.join(WORK, 'bank.names'), encoding='utf-8') as file:
            names = file.read()
        for piece in ('title\tA bank\n', 'node\t1\tbus\n', 'source\t2\tsupply\n', 'branch\t2\tbank\n', 'branch\t28\tbank\n', 'rounded\tline 6, bank'):
            self.assertIn(piece, names)
        _, out, err = command('check', 'bank')
        self.assertIn('2–28  C cap–ground (bank)  27 side by side, each 495.185 nF', out.decode())
        self.assertIn('VS bus (supply)', out.decode())
        self.assertIn('rounded when the study was made: line 6, bank: 13.37 µF asked', out.decode())
        self.assertEqual(err, '')
        self.assertEqual(command('make', 'bank.emt')[0], 0)  # what was made may be made again

    def test_an_own_text_is_kept(self):
        saved('own.emt', self.TEXT)
        path = saved('own.txt', b'study\t1\t1\t0\n')
        status, _, err = command('make', 'own.emt')
        self.assertEqual(status, 3)
        self.assertIn('is there, and not as', err)
        with open(path, 'rb') as file:
            self.assertEqual(file.read(), b'study\t1\t1\t0\n')
        self.assertEqual(command('make', 'own.emt', '-o', 'other.txt')[0], 0)
        self.assertEqual(command('make', 'own.emt', '--force')[0], 0)
        saved('self.txt', self.TEXT)
        self.assertIn('would be overwritten', command('make', 'self.txt')[2])

    def test_a_changed_text_has_no_names(self):
        saved('changed.emt', self.TEXT)
        command('make', 'changed.emt')
        with open(os.path.join(WORK, 'changed.txt'), 'ab') as file:
            file.write(b'R\t2\t0\t1000000\n')
        _, out, err = command('check', 'changed')
        self.assertIn('of another text', err)
        self.assertNotIn('bank', out.decode())

    def test_a_damaged_map(self):
        saved('damaged.emt', self.TEXT)
        command('make', 'damaged.emt')
        for piece in (b'node\tx\ty\n', b'branch\n', b'\xff'):
            with open(os.path.join(WORK, 'damaged.names'), 'ab') as file:
                file.write(piece)
            self.assertIn('cannot be read', command('check', 'damaged')[2])
        self.assertEqual(command('make', 'damaged.emt')[0], 0)

    def test_refused(self):
        saved('wrong.emt', 'step 1us\ntime 1ms\nR a b 5uF\n')
        status, _, err = command('make', 'wrong.emt')
        self.assertEqual((status, err), (2, "wrong.emt, line 3: '5uF' is a capacitance: here stands a resistance, as 280ohm\n    R a b 5uF\n"))
        self.assertFalse(os.path.exists(os.path.join(WORK, 'wrong.txt')))
        self.assertEqual(command('make', 'none.emt')[0], 3)
        saved('latin.emt', b'step 1\xb5s\n')
        self.assertEqual(command('make', 'latin.emt')[0], 3)

    def test_table_of_kinds(self):
        """Every kind can be written in a friendly text: its values with units, its steps as times."""
        for kind in kinds.KINDS:
            self.assertTrue(all(field.quantity or field.option or field.name in ('from', 'to', 'node') for field in kind.fields), kind.word)
