"""`emt check`: what was understood, time constants of circuits that are known, each warning where it is due and only there."""
import os
import unittest
from math import sqrt

from common import COUNT, STUDIES, dice, emt as command, saved, studies, text
from modes import Random

import emt
from emt import names, quantities, stops, times, understood, watch

NONE = names.Names()


def shortest(given):
    """The shortest time constant in s, its rule, its branch and the first step."""
    found = times.shortest(emt.read(text(given)))
    return found and (found[0].seconds, found[0].rule, found[0].row.branch, found[1])


def watched(given):
    network = emt.read(text(given))
    return watch.watch(network, NONE, emt.outcome(network))


class Written(unittest.TestCase):
    def test_exact(self):
        for number, quantity, words in ((280000, quantities.RESISTANCE, '280 Ω'), (13370000, quantities.CAPACITANCE, '13.37 µF'), (1, quantities.CURRENT, '100 pA'),
                                        (-2817000, quantities.VOLTAGE, '-281.7 kV'), (0, quantities.TIME, '0 s'), (123456789, quantities.INDUCTANCE, '123.456789 mH'),
                                        (10 ** 12, quantities.RESISTANCE, '1 GΩ'), (50000, quantities.FREQUENCY, '50 Hz'), (999, quantities.TIME, '999 ns')):
            self.assertEqual(quantities.said(number, quantity), words)

    def test_about(self):
        for value, words in ((26.74, '26.7 S'), (0.000171821, '172 µS'), (999.6, '1 kS'), (0, '0 S'), (5e-9, '5 nS'), (0.0999, '99.9 mS')):
            self.assertEqual(quantities.about(value, 'S'), words)

    def test_rows(self):
        network = emt.read(text('study 10000 1200 1100000000\nVS 1 2817000 1 0\nIS 2 -30000000000000 13 1000\nL 2 3 50000000\nSW 3 4 1000 101 1000001\n'
                                'LINE 4 5 280000 1000000\nLINE 4 5 280000 1234567\nC 5 0 2000\nC 5 0 2000\nC 5 0 2000'))
        self.assertEqual([(number, place, value) for number, place, value in understood.rows(network, NONE)], [
            ('', 'VS 1', '281.7 kV from step 1 (10 µs), at once'), ('', 'IS 2', '-3 kA from step 13 (130 µs), rising over 10 ms = 1,000 steps'), ('1', 'L 2–3', '50 mH'),
            ('2', 'SW 3–4', '1 Ω, closed from step 101 (1.01 ms) on'), ('3', 'LINE 4–5', '280 Ω, 1 ms = 100 steps'),
            ('4', 'LINE 4–5', '280 Ω, 1.234567 ms ≈ 123.456 steps'), ('5–7', 'C 5–ground', '3 side by side, each 2 nF')])

    def test_earthed(self):
        self.assertEqual(understood.rows(emt.read(text('study 1000 9 0\nVS 3 0 1 0')), NONE), [('', 'VS 3', '0 V: the node is earthed')])

    def opening(self, given):
        network = emt.read(text(given))
        return [understood.rows(network, NONE, result)[-1][2] for result in (None, emt.outcome(network))]

    def test_opening(self):
        """A breaker: when it may part and, by the run's records, after which step it did. A timed switch opens at its step."""
        swings = 'study 1000 9 1000000000000\nVC 1 1000 1 100000\n'
        told = '1 Ω, closed from step 2 (2 µs), told to open at step 7 (7 µs): it parts at the first current zero from step 6 on'
        self.assertEqual(self.opening('study 1000 9 1000000000000\nVS 2 1000 1 0\nVS 1 1000 1 0\nSW 1 2 1000 2 7'), [told, told + ', here after step 6 (6 µs)'])
        self.assertEqual(self.opening(swings + 'SW 1 0 1000 2 7'), [told, told + ', here not at all'])
        self.assertEqual(self.opening(swings + 'SW 1 0 1000 2 11'), [told.replace('7 (7', '11 (11').replace('6', '10')] * 2)
        self.assertIn('it parts at the first current zero from step 3 on', self.opening(swings + 'SW 1 0 1000 2 3')[0])  # never at its closing step
        self.assertEqual(self.opening(swings + 'SWT 1 0 1000 2 7'), ['1 Ω, closed from step 2 (2 µs), open from step 7 (7 µs) whatever its current is'] * 2)
        self.assertEqual(self.opening(swings + 'SWT 1 0 1000 2 1000001'), ['1 Ω, closed from step 2 (2 µs) on'] * 2)

    def test_a_breaker_of_the_studies(self):
        network = emt.read(os.path.join(STUDIES, 'recovery.txt'))
        result = emt.run(network)
        self.assertEqual(result.parted, {4: 4688})
        self.assertIn('here after step 4,688 (9.376 ms)', understood.rows(network, NONE, result)[-1][2])
        self.assertTrue(result.i[4][4686] > 0 > result.i[4][4687] and set(result.i[4][4688:]) == {0})


class Constants(unittest.TestCase):
    def expect(self, given, seconds, rule, branch=None, step=1):
        found = shortest(given)
        self.assertIsNotNone(found, given)
        self.assertAlmostEqual(found[0] / seconds, 1, places=4, msg=given)
        self.assertEqual((found[1], found[3]), (rule, step), given)
        if branch:
            self.assertEqual(found[2], branch)

    def test_single(self):
        self.expect('study 1000 1 0\nVS 1 1 1 0\nR 1 2 1000000\nC 2 0 1000', 1e-6, 'R·C', 2)
        self.expect('study 1000 1 0\nVS 1 1 1 0\nR 1 2 50000\nL 2 0 1000000', 20e-6, 'L/R', 2)
        self.expect('study 1000 1 0\nVS 1 1 1 0\nL 1 2 1000000\nC 2 0 10000', sqrt(1e-3 * 10e-9), '√(L·C)', 1)

    def test_seen_from_there(self):
        """Two resistors and a line's end meet at a capacitor; an inductor sees what lies in series with it."""
        self.expect('study 1000 1 0\nVS 1 1 1 0\nR 1 2 300000\nR 2 0 600000\nC 2 0 1000', 200e-9, 'R·C')
        self.expect('study 1000 1 0\nIS 1 1 1 0\nLINE 1 2 400000 3000\nC 2 0 2000\nR 1 0 400000', 800e-9, 'R·C')
        self.expect('study 1000 1 0\nVS 1 1 1 0\nR 1 2 10000\nL 2 3 50000000\nR 3 4 1000\nLINE 4 5 280000 1000000', 50e-3 / 291, 'L/R')

    def test_side_by_side(self):
        self.expect('study 1000 1 0\nVS 1 1 1 0\nR 1 2 1000000' + '\nC 2 0 1000' * 10, 10e-6, 'R·C')
        self.expect('study 1000 1 0\nVS 1 1 1 0\nR 1 2 50000' + '\nL 2 0 1000000' * 4, 5e-6, 'L/R')

    def test_a_loop_of_capacitors(self):
        """1 nF between two nodes with 10 nF and 20 nF to ground: the smaller of these, the larger keeping its voltage."""
        self.expect('study 1000 1 0\nVS 1 1 1 0\nR 1 2 100000\nR 1 3 100000\nC 2 3 1000\nC 2 0 10000\nC 3 0 20000', 1e-6, 'R·C')

    def test_a_resistor_beside_a_coil_and_its_capacitance(self):
        """200 MΩ beside 1 H and 5 nF is no L/R of 5 ns: the capacitance holds the voltage."""
        self.expect('study 1000 1 0\nIS 1 1 1 0\nL 1 0 1000000000\nC 1 0 5000\nR 1 0 200000000000', sqrt(1 * 5e-9), '√(L·C)')

    def test_switches(self):
        self.expect('study 1000 9 0\nVS 1 1 1 0\nR 1 2 1000000\nSW 2 3 1000 5 8\nC 3 0 1000\nR 3 0 1000000000', 1.0e-6, 'R·C', step=5)

    def test_a_breaker_that_does_not_part(self):
        """Its open position is looked at where it comes: by an SWT, by an SW after its current's zero, and not by one whose current only grows."""
        for word, source, steps in (('SWT', 'VS 1 1000 1 9', [1, 5]), ('SW', 'VS 1 1000 1 9', [1]), ('SW', 'VS 1 0 1 0', [1, 5]), ('SW', 'VC 1 1000 1 100000', [1])):
            network = emt.read(text(f'study 1000 9 1000000000000\n{source}\n{word} 1 2 1000 1 5\nC 2 0 100\nR 2 0 10000'))
            self.assertEqual([step for step, _ in times.states(network, emt.run(network).parted)], steps, (word, source))
            self.assertEqual([step for step, _ in times.states(network)], [1, 5])

    def test_a_switch_between_a_coil_and_a_bank(self):
        self.expect('study 1000 9 0\nVS 1 1 1 0\nL 1 2 100000\nSW 2 3 1000 1 1000001' + '\nC 3 0 495185' * 27, sqrt(100e-6 * 13.369995e-6), '√(L·C)')

    def test_beside_the_fastest_mode(self):
        """Of networks by dice the shortest time constant is that of the fastest mode, within a factor of 3."""
        roll = dice(13)
        for word in 'CL':
            ratios = []
            for _ in range(COUNT // 3):
                network = Random(roll, word)
                ratios.append(shortest(network.text)[0] / network.seconds)
                self.assertTrue(1 / 3 < ratios[-1] < 3, (ratios[-1], network.text))
            self.assertTrue(0.9 < sorted(ratios)[len(ratios) // 2] < 1.1, sorted(ratios)[len(ratios) // 2])

    def test_none(self):
        self.assertIsNone(shortest('study 1000 1 0\nVS 1 1 1 0\nR 1 0 1000'))
        self.assertIsNone(shortest('study 1000 1 0'))

    def test_a_large_network_is_quick(self):
        rows = [f'L {node} {node + 1} {1000000 + node}\nC {node + 1} 0 {6000 + node}' for node in range(1, 32)]
        self.assertIsNotNone(shortest('study 100 1 0\nVS 1 1 1 0\n' + '\n'.join(rows)))


class Watching(unittest.TestCase):
    QUIET = 'study 100 50 1000000000\nVS 1 1000000 1 50\nR 1 2 400000\nLINE 2 3 400000 3000\nC 3 0 10000\nR 3 0 400000'

    def due(self, given, piece, times_=1):
        found = [words for words in watched(given) if piece in words]
        self.assertEqual(len(found), times_, watched(given))
        return found[0] if found else ''

    def test_nothing(self):
        self.assertEqual(watched(self.QUIET), [])

    def test_step_rings(self):
        words = self.due(self.QUIET.replace('C 3 0 10000', 'C 3 0 100'), 'rings from step to step')
        self.assertIn('R·C of C 3–ground, branch 3: 100 pF that sees 200 Ω', words)
        self.assertIn('A step under 40 ns', words)

    def test_step_coarse(self):
        words = self.due(self.QUIET.replace('C 3 0 10000', 'C 3 0 1000'), 'off by some')
        self.assertIn('0.5 times', words)
        self.assertIn('2.1 %', words)

    def test_undamped(self):
        self.due('study 1000 4 0\nVS 1 1000 1 0\nC 1 0 1000', 'C 1–ground, branch 1: between held nodes its current swings')
        self.due('study 1000 4 0\nIS 1 1000 1 0\nL 1 0 1000000', 'node 1 has nothing but L: its voltage swings')
        opened = 'study 1000 9 1000000000000\nVS 1 1000000 1 5\nSWT 1 2 1000 1 6\nL 2 0 1000000'
        self.due(opened, 'node 2 has nothing but L from step 6 (6 µs) on')
        self.due(opened + '\nC 2 0 1000', 'nothing but L', 0)
        self.due(opened.replace('SWT', 'SW'), 'nothing but L', 0)  # a breaker whose current only grows does not part

    def test_travel(self):
        self.due(self.QUIET.replace('400000 3000', '400000 3050'), 'travel times between steps: LINE 2–3, branch 2 (3.05 µs = 30.5 steps)')

    def test_one_ohm(self):
        bank = 'study 1000 9 10000000000\nVS 1 1000 1 9\nL 1 2 100000\nSW 2 3 1000 1 1000001' + '\nC 3 0 495185' * 27
        self.assertIn('1 Ω is not small beside √(L/C) = 2.73 Ω', self.due(bank, 'is not small beside'))
        self.due(bank.replace('L 1 2 100000', 'L 1 2 1000000000'), 'is not small beside', 0)
        self.assertIn('250 mΩ', self.due(bank + '\nSW 2 3 1000 1 1000001' * 3, 'is not small beside'))

    def test_grains(self):
        given = 'study 1000 9 10000000000\nVS 1 1000 1 0\nR 1 0 1000\nR 1 0 1001'
        self.assertIn('R 1–ground, branch 1: its current comes in grains of 100 mA (0.1 V at 1 S); the largest is 100 A', self.due(given, 'grains', 1))

    def test_jumps(self):
        self.due(self.QUIET.replace('VS 1 1000000 1 50', 'VS 1 1000000 1 0'), 'a jump into L or C', 0)  # behind the line it meets no L or C of its own area
        words = self.due('study 100 50 1000000000\nVS 1 1000 3 0\nR 1 2 400000\nC 2 0 10000', 'a jump into L or C: VS 1 at step 3 (300 ns)')
        self.assertIn('half a step, 50 ns, early', words)
        two = 'study 100 50 1000000000\nVS 1 1000 1 40\nR 1 2 400000\nSW 2 3 400000 7 1000001\nSW 2 3 400000 7 1000001\nC 3 0 10000\nR 3 0 1000000\nIS 3 5 9 0'
        self.due(two, 'jumps into L or C: SW 2–3 closing at step 7 (700 ns), IS 3 at step 9 (900 ns)')

    CUT = 'study 1000 9 1000000000000\nVS 1 1000000 1 9\nSWT 1 2 1000 1 6\nL 2 3 1000000\nR 3 0 400000\nC 2 0 1000\nR 2 0 1000000'

    def test_cut_off(self):
        """A timed switch that opens on a current cuts it off, which is a jump; on none it does not, and a breaker never."""
        current = emt.run(text(self.CUT)).i[1][4]
        self.assertIn(f'SWT 1–2, branch 1: it opens at step 6 (6 µs) on {quantities.about(current * 1e-10, "A", 4)}, which it cuts off', self.due(self.CUT, 'cuts off'))
        self.due(self.CUT, 'a jump into L or C: SWT 1–2 opening at step 6 (6 µs)')
        self.due(self.CUT.replace('VS 1 1000000', 'VS 1 0'), 'cuts off', 0)
        self.due(self.CUT.replace('SWT', 'SW'), 'cuts off', 0)
        self.due(self.CUT.replace('SWT', 'SW'), 'a jump into', 0)
        stopped = 'study 1000 1100 1100000000\nVS 1 100000 1 0\nSWT 1 2 1000 1 1001\nL 2 0 1000000000'
        self.due(stopped, 'it opens at step 1,001 (1.001 ms) on 10 A, which it cuts off')  # the step that the run stopped before

    def test_breakers(self):
        words = self.due(self.CUT.replace('SWT', 'SW'), 'it was still closed when the run ended')
        self.assertIn('SW 1–2, branch 1: told to open at step 6 (6 µs)', words)
        self.assertIn('no zero from step 5 on', words)
        small = 'study 100000 120 1000000000000\nVC 1 1000 1 50000\nSW 1 2 1000 1 20\nR 2 0 200000'
        words = self.due(small, 'where its current was listed as 0')
        result = emt.run(text(small))
        self.assertIn(f'it parted after {understood.at(result.parted[1], result.network)}', words)
        self.assertIn('half a grain of 100 mA', words)
        for path, piece in (('recovery', 'parted after'), ('reclosing', 'parted after'), ('breaker', 'still closed')):
            network = emt.read(os.path.join(STUDIES, path + '.txt'))
            self.assertEqual([one for one in watch.breakers(network, NONE, emt.run(network)) if piece in one], [], path)

    def test_stairs(self):
        given = 'study {} 50 1000000000\nVC 1 1000000 1 50000\nR 1 2 400000\nC 2 0 1000000'
        self.assertIn('VC 1: its voltage moves in 1,024 stairs a period, one each 19.5 µs and of up to 614 V', self.due(given.format(10000), 'stairs'))
        self.due(given.format(20000), 'stairs', 0)

    def test_limit(self):
        given = 'study 1000 1 499999999\nVS 1 1000 1 0\nR 1 2 1000\nR 2 0 2000'
        self.assertIn('150 mA at node 2', self.due(given, 'is below what the rounding'))
        self.assertIn('1500000000 in the first line is enough for that', self.due(given, 'is below what the rounding'))
        self.due(given.replace('499999999', '1500000000'), 'is below what the rounding', 0)

    def test_past_the_end(self):
        self.due(self.QUIET + '\nSW 3 0 400000 51 1000001', 'before these begin: SW 3–ground (step 51 (5.1 µs))')
        self.due(self.QUIET + '\nSWT 3 0 400000 1 52', 'before these open: SWT 3–ground (step 52 (5.2 µs))')

    def test_all_studies(self):
        for path in studies():
            network = emt.read(path)
            result = emt.outcome(network)
            for words in watch.watch(network, NONE, result) + watch.step_facts(network, NONE, result):
                self.assertNotRegex(words, r'\bnan\b|\binf\b|e[+-][0-9]')


class Stops(unittest.TestCase):
    def ended(self, given):
        return '\n'.join(stops.ended(emt.outcome(text(given)), NONE))

    def test_each(self):
        self.assertIn('done: 1 step taken, to 1 µs', self.ended('study 1000 1 0\nVS 1 1000 1 0\nR 1 0 1000'))
        words = self.ended('study 1000 9 0\nVS 1 1000 1 0\nSW 1 2 1000 5 8')
        self.assertIn('stopped before step 1 (1 µs) by FLOATING (14) at node 2, area 1', words)
        self.assertIn('Open at this step: SW 1–2, branch 1', words)
        parted = 'study 1000 9 1000000000000\nVS 1 0 1 0\n{} 1 2 1000 1 4\nSWT 2 0 1000 1 6'
        self.assertIn('Open at this step: SW 1–2, branch 1, SWT 2–ground, branch 2', self.ended(parted.format('SW')))
        self.assertIn('done', self.ended(parted.format('SW').replace('VS 1 0', 'VS 1 5').replace('1000 9', '1000 5')))  # a breaker with a current is told to open and goes on
        self.assertIn('No branch leads to node 2', self.ended('study 1000 9 0\nIS 2 5 1 0\nR 1 0 1000'))
        self.assertIn('One step before, it had 0 V', self.ended('study 1000 8 0\nIS 1 2000000000000000 1 4\nR 1 0 1000000000000'))
        self.assertIn('2 full steps before it are as listed', self.ended('study 1000 8 0\nVS 1 20000000 1 0\nL 1 0 500'))

    def test_the_limit_that_is_told_is_enough(self):
        given = 'study 1000 1 499999999\nVS 1 1000 1 0\nR 1 2 1000\nR 2 0 2000'
        words = self.ended(given)
        self.assertIn('UNBALANCED', words)
        limit = words.split(' as the limit')[0].split()[-1]
        self.assertIn('done', self.ended(given.replace('499999999', limit)))


class Command(unittest.TestCase):
    def test_status(self):
        self.assertEqual(command('check', os.path.join(STUDIES, 'energisation'))[0], 0)
        self.assertEqual(command('check', os.path.join(STUDIES, 'floating.txt'))[0], 1)
        self.assertEqual(command('check', saved('bad.txt', b'study\n'))[0], 2)
        status, _, err = command('check', 'no such study')
        self.assertEqual((status, err), (3, 'emt: no such study: No such file or directory\n'))
        self.assertEqual(command('check')[0], 3)
        self.assertEqual(command('check', 'a', 'b')[0], 3)

    def test_printed(self):
        _, out, _ = command('check', os.path.join(STUDIES, 'energisation.txt'))
        for piece in ('step 10 µs, 1,200 steps: 12 ms in all; balance limit 110 mA', '4  LINE 4–5  280 Ω, 1 ms = 100 steps', 'shortest time constant 172 µs, L/R of L 2–3',
                      'grains of 100 mA', 'half a step, 5 µs, early', 'done: 1,200 steps taken, to 12 ms'):
            self.assertIn(piece, out.decode())

    def test_says_what_it_is(self):
        for words in (['--help'], ['check', '--help'], ['report', '--help']):
            self.assertIn('invents no number of a solution', ' '.join(command(*words)[1].decode().split()))
