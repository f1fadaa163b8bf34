"""Refused texts: the field that is marked, the words, and hints that help."""
import re
import unittest

from common import COUNT, dice, emt as command, random_study, saved, studies, text

import emt
from emt import faults, shown

HEAD = 'study 1000 1 0\n'


def fault(given):
    """The fault of a text, with the bytes that are marked."""
    try:
        emt.read(given)
    except emt.Refused as refused:
        line, found = faults.fault_of(refused)
        return refused, found, line.bytes[found.start:found.start + found.length]
    raise AssertionError(f'{given} is taken')


class Marks(unittest.TestCase):
    def expect(self, given, number, marked, *pieces):
        refused, found, bytes_ = fault(given)
        self.assertEqual((refused.number, bytes_), (number, marked), given)
        for piece in pieces:
            self.assertIn(piece, found.wrong + '; ' + found.hint)

    def test_form(self):
        self.expect(b'', 1, b'', 'empty')
        self.expect(b'study\t1000\t1\t0', 1, b'', 'no line feed')
        self.expect(b'study 1000 1 0\n', 1, b' ', 'a space stands where a tab must be')
        self.expect(b'\xef\xbb\xbfstudy\t1000\t1\t0\n', 1, b'\xef\xbb\xbf', 'byte-order mark')
        self.expect(b'study\t1000\t1\t0\r\n', 1, b'\r', 'CR LF')
        self.expect(text(HEAD) + b'\n', 1, b'', 'empty')
        self.expect(text(HEAD + 'r 1 2 2000'), 1, b'r', 'write R')
        self.expect(text(HEAD + 'swt 1 2 1000 5 7'), 1, b'swt', 'write SWT')
        self.expect(text(HEAD + 'XX 1 2 2000'), 1, b'XX', 'no word of a study')
        self.expect(text(HEAD) + b'# a comment\n', 1, b'# a comment', 'emt make')
        self.expect(text(HEAD + HEAD), 1, b'study', 'a second')
        self.expect(text('R 1 2 2000'), 1, b'R', 'not `study`')
        self.expect(text(HEAD + 'R 1 2'), 1, b'', '1 field missing: resistance')
        self.expect(text(HEAD + 'R 1 2 2000 7 8'), 1, b'7\t8', '2 fields too many')
        self.expect(text(HEAD) + b'R\t1\t\t2000\n', 1, b'', 'the field is empty')
        self.expect(text(HEAD + 'R 01 2 2000'), 1, b'01', 'a leading zero')
        self.expect(text(HEAD + 'R 1 -2 2000'), 1, b'-2', 'a minus')
        self.expect(text(HEAD + 'VS 1 -0 1 0'), 1, b'-0', 'write 0')
        self.expect(text(HEAD + 'C 1 0 13.37uF'), 1, b'13.37uF', 'a whole number of pF stands here: 13370000')
        self.expect(text(HEAD + 'LINE 1 2 400000 2.5us'), 1, b'2.5us', 'ns', '2500')
        self.expect(text(HEAD + 'VS 1 115kV 1 0'), 1, b'115kV', '1150000')
        self.expect(text(HEAD + 'R 1 2 1.5'), 1, b'1.5', 'no whole number', 'mΩ')
        self.expect(text(HEAD) + 'R\t1\t2\t1Ω\n'.encode(), 1, '1Ω'.encode(), '1000')

    def test_an_equal_field_before(self):
        """The faulty field is marked, not one before it with the same bytes."""
        refused, found, _ = fault(text(HEAD) + b'VS\t1\t-1\t-1\t0\n')
        self.assertEqual(found.start, len(b'VS\t1\t-1\t'))

    def test_node(self):
        self.expect(text(HEAD + 'R 33 0 999'), 2, b'33', 'no node 33')
        self.expect(text(HEAD + 'R 4 4 2000'), 2, b'4', 'to itself')
        self.expect(text(HEAD + 'IS 0 5 1 0'), 2, b'0', 'a source on ground')
        self.expect(text(HEAD + 'R 1 2 2000\nLINE 1 0 400000 2000'), 2, b'0', 'ends on ground', 'VS→3→0→1→0')

    def test_value(self):
        self.expect(text(HEAD + 'C 3 0 13370000'), 3, b'13370000', '13.37 µF at a step of 1 µs is 26.7 S', '27 branches of 495 nF', 'a step of 26,740 ns')
        self.expect(text(HEAD + 'R 1 2 250'), 3, b'250', '250 mΩ', '1 Ω to 1 GΩ', '4 branches of 1 Ω')
        self.expect(text(HEAD + 'L 1 0 400'), 3, b'400', '1.25 S', '2 branches of 800 nH', 'a step of 800 ns')
        self.expect(text('study 100 1 0\nL 1 0 1000000000000'), 3, b'1000000000000', '1 nS at least', 'a step of 1,000 ns')
        self.expect(text(HEAD + 'SW 1 0 1000 5 5'), 3, b'5', 'opens at step 5, not after it closes at step 5', 'the opening step is above the first closed step')
        self.expect(text(HEAD + 'SWT 1 0 1000 5 5'), 3, b'5', 'the first open step is above the first closed step')
        self.expect(text(HEAD + 'SWT 1 0 1000 5 1000002'), 3, b'1000002', 'first open step 1,000,002 is out of its range, 2 to 1,000,001')
        self.expect(text(HEAD + 'VC 1 1000 1 100001'), 3, b'100001', 'frequency 100.001 Hz', '1 mHz to 100 Hz')
        self.expect(text(HEAD + 'VS 1 20000001 1 0'), 3, b'20000001', '2.0000001 MV', '-2 MV to 2 MV')
        self.expect(text(HEAD + 'VS 1 5 1 1001'), 3, b'1001', '0 to 1,000')
        self.expect(text('study 0 1 0'), 3, b'0', '1 ns to 1 ms')

    def test_travel_double_full_size(self):
        self.expect(text(HEAD + 'LINE 1 2 400000 999'), 4, b'999', '999 ns, is shorter than the step, 1 µs', 'a step of 999 ns or less')
        self.expect(text(HEAD + 'R 1 0 2000\nVS 1 5 1 0\nVS 1 6 1 0'), 5, b'1', 'in line 3')
        self.expect(text(HEAD + 'R 1 0 2000\nVC 1 5 1 50000\nVS 1 6 1 0'), 5, b'1', 'in line 3')
        self.expect(text(HEAD + 'R 1 2 2000\n' * 65), 6, b'R', '64 branches')
        self.expect(text(HEAD + 'IS 1 5 1 0\n' * 17), 6, b'IS', '16 sources')
        self.expect(text('study 1 1 0\nLINE 1 2 400000 2000\nLINE 1 3 400000 200'), 6, b'200', '4,400 places', 'a step of 2 ns')
        refused, found, _ = fault(b'x' * 70000)
        self.assertIn('65,536', found.wrong)


class Damage(unittest.TestCase):
    """Texts damaged by dice: there is always a fault to tell, and its mark lies in the line."""

    def damaged(self, given, roll):
        for _ in range(roll.randint(1, 3)):
            place = roll.randrange(len(given) + 1)
            piece = roll.choice([b'', b'\t', b' ', b'\n', b'0', b'-', b'9' * roll.randint(1, 12), bytes([roll.randrange(256)])])
            given = given[:place] + piece + given[place + roll.randint(0, 2):]
        return given

    def test_damaged_texts(self):
        roll, numbers = dice(3), {}
        for _ in range(20 * COUNT):
            given = self.damaged(random_study(roll), roll)
            try:
                emt.read(given)
                continue
            except emt.Refused as caught:
                refused, (line, found) = caught, faults.fault_of(caught)
            numbers[refused.number] = numbers.get(refused.number, 0) + 1
            self.assertNotEqual(found.wrong, refused.words, given)
            self.assertTrue(0 <= found.start <= len(line.bytes) and found.start + found.length <= len(line.bytes), given)
            self.assertEqual(len(shown.marked(*shown.cut(line.bytes, found.start, found.length))), 2)
        self.assertLessEqual({1, 2, 3, 4, 5}, set(numbers), numbers)


class Hints(unittest.TestCase):
    """What a hint tells to do is taken."""

    def test_side_by_side_and_steps(self):
        roll, tried = dice(4), {'side': 0, 'step': 0}
        for _ in range(COUNT):
            step, word = roll.choice([1, 10, 1000, 10 ** 6]), roll.choice('LCR')
            number = roll.randint(1, {'L': max(1, step // 2), 'C': 10 ** 9, 'R': 999}[word])
            given = text(f'study {step} 1 0\n{word} 1 0 {number}')
            try:
                emt.read(given)
                continue
            except emt.Refused as refused:
                _, found = faults.fault_of(refused)
            side = re.search(r'([0-9]+) branches of ([0-9.]+ \S+)(?: \(([0-9]+)\))? side by side', found.hint)
            if side:
                each = side.group(3) or int(side.group(1)) * number
                emt.read(text(f'study {step} 1 0\n' + f'{word} 1 0 {each}\n' * int(side.group(1))))
                self.assertRaises(emt.Refused, emt.read, text(f'study {step} 1 0\n{word} 1 0 {number * (int(side.group(1)) - 1) if word != "C" else number // (int(side.group(1)) - 1)}'))
                tried['side'] += 1
            other = re.search(r'a step of ([0-9,]+) ns', found.hint)
            if other:
                fitting = int(other.group(1).replace(',', ''))
                emt.read(text(f'study {fitting} 1 0\n{word} 1 0 {number}'))
                self.assertRaises(emt.Refused, emt.read, text(f'study {fitting + (1 if word == "L" else -1)} 1 0\n{word} 1 0 {number}'))
                tried['step'] += 1
        self.assertTrue(all(count > 20 for count in tried.values()), tried)

    def test_step_for_lines(self):
        given = 'study {} 1 0\nLINE 1 2 400000 3000\nLINE 1 3 400000 123457\n'
        _, found, _ = fault(text(given.format(1)))
        fitting = int(re.search(r'a step of ([0-9,]+) ns', found.hint).group(1).replace(',', ''))
        emt.read(text(given.format(fitting)))
        self.assertRaises(emt.Refused, emt.read, text(given.format(fitting - 1)))


class Visible(unittest.TestCase):
    def test_bytes(self):
        self.assertEqual(shown.marked(b'R\t1 \r\x00\xff', 3, 1), ['R→1·\\r\\x00\\xFF', '   ^'])
        self.assertEqual(shown.marked(b'ab\xff\x80c', 2, 2), ['ab\\xFF\\x80c', '  ^^^^^^^^'])

    def test_long_numbers(self):
        for given, piece in ((text(HEAD) + b'R\t1\t' + b'9' * 6000 + b'\t5\n', 'no node of 6,000 digits'), (text(HEAD) + b'VS\t1\t-' + b'9' * 6000 + b'\t1\t0\n', 'peak of 6,000 digits'),
                             (b'study\t' + b'0' * 6000 + b'\t1\t0\n', 'a leading zero'), (text(HEAD) + b'x' * 6000 + b'\n', 'no word of a study'),
                             (text('study 1 1 0\nLINE 1 2 400000 5000') + b'LINE\t1\t2\t400000\t' + b'9' * 6000 + b'\n', '10,000 places')):
            _, found, _ = fault(given)
            self.assertIn(piece, found.wrong)
            self.assertLess(len(found.wrong) + len(found.hint), 300)

    def test_a_long_line(self):
        refused, found, marked = fault(text(HEAD) + b'R\t1\t' + b'7' * 3000 + b'x\t5\n')
        line, start, length = shown.cut(b'R\t1\t' + b'7' * 3000 + b'x\t5', found.start, found.length)
        self.assertLessEqual(len(line), shown.MOST_SHOWN)
        self.assertTrue(0 <= start and start + length <= len(line))


class Command(unittest.TestCase):
    def test_all_verbs(self):
        path = saved('refused.txt', text(HEAD + 'C 3 0 13370000'))
        for verb in ('check', 'run', 'csv'):
            status, out, err = command(verb, path)
            self.assertEqual(status, 2)
            self.assertIn('C→3→0→13370000\n          ^^^^^^^^\n13.37 µF at a step of 1 µs is 26.7 S', out.decode() + err)
        self.assertEqual(command('run', path)[1], b'bad\t2\t3\n')
        self.assertEqual(command('plot', path)[0], 2)

    def test_too_long(self):
        status, out, err = command('run', '-', given=b'x' * 65537)
        self.assertEqual((status, out), (2, b'bad\t0\t7\n'))
        self.assertIn('more than 65,536 bytes', err)

    def test_studies_are_taken(self):
        for path in studies():
            emt.read(path)
