"""`emt run`, `emt csv` and `emt plot`, the curves they take, and where they write."""
import os
import re
import shutil
import subprocess
import unittest
from decimal import Decimal

from common import COUNT, STUDIES, TOP, WORK, dice, emt as command, random_study, saved, started, studies, text

import emt
from emt import clone, curves, labels, library, names, places, plot
from emt.axes import Window, peak, thinned

EMTRUN = os.environ['EMTRUN']
NONE = names.Names()


def emtrun(given):
    return subprocess.run([EMTRUN], input=given, capture_output=True).stdout


class Run(unittest.TestCase):
    def test_the_bytes_of_emtrun(self):
        for path in studies():
            with open(path, 'rb') as file:
                given = file.read()
            status, out, err = command('run', path)
            self.assertEqual(out, emtrun(given), path)
            stopped = out.split(b'\n')[-2].startswith(b'stop')
            self.assertEqual(status, 1 if stopped else 0)
            self.assertIn('stopped before step' if stopped else 'done: ', err)

    def test_random_texts(self):
        """As the command writes them, without a start of Python for each."""
        roll, firsts = dice(7), set()
        for _ in range(COUNT // 2):
            given = random_study(roll)
            try:
                mine = b''.join(emt.Listing(emt.read(given)).pieces())
            except emt.Refused as refused:
                mine = f'bad\t{refused.line}\t{refused.number}\n'.encode()
            firsts.add(mine.split(b'\n')[-2].split(b'\t')[0])
            self.assertEqual(mine, emtrun(given), given)
        self.assertEqual(firsts, {b'done', b'stop', b'bad'})

    def test_from_standard_input(self):
        given = text('study 1000 1 0\nVS 1 1000 1 0\nR 1 2 2000\nR 2 0 2000')
        self.assertEqual(command('run', '-', given=given), (0, b'v\t1\t1\t1000\nv\t1\t2\t500\ni\t1\t1\t250000000000\ni\t1\t2\t250000000000\ndone\t1\n', 'standard input: done: 1 step taken, to 1 µs\n'))

    def test_pieces(self):
        """A listing longer than one piece."""
        path = saved('long.txt', text('study 1 30000 0\nVS 1 12345678 1 1000\nR 1 0 1000000'))
        kept, library.LIST_BYTES = library.LIST_BYTES, 5000
        try:
            with open(path, 'rb') as file:
                self.assertEqual(b''.join(emt.Listing(emt.read(path)).pieces()), emtrun(file.read()))
            self.assertEqual(emt.run(path).steps, 30000)
        finally:
            library.LIST_BYTES = kept

    def test_started(self):
        """As a user starts it: statuses, and standard output that is full or closed early."""
        path = saved('larger.txt', text('study 1 150000 0\nVS 1 12345678 1 1000\nR 1 0 1000000'))
        self.assertEqual(started(f'emt run {path} >/dev/full')[::2], (3, 'emt: standard output: No space left on device\n'))
        self.assertEqual(started(f'emt run {path} | head -n 1'), (3, 'v\t1\t1\t0\n', ''))
        self.assertEqual(started(f'emt run {STUDIES}/steep.txt | tail -n 1'), (0, 'done\t120\n', f'{STUDIES}/steep.txt: done: 120 steps taken, to 120 µs\n'))
        self.assertEqual(started(f'emt run {STUDIES}/floating | tail -n 1')[:2], (1, 'stop\t101\t1\t14\t3\n'))
        self.assertEqual(started('emt run /dev/null')[:2], (2, 'bad\t1\t1\n'))
        self.assertEqual(started('emt ')[0], 3)
        self.assertEqual(started('LC_ALL=C emt check ' + STUDIES + '/steep.txt')[1], started(f'emt check {STUDIES}/steep.txt')[1])
        self.assertEqual(started('emt --version'), (0, f'emt {library.VERSION} over {os.environ.get("EMT_BRIDGE") or os.environ["EMT_LIBRARY"]}\n', ''))


class Csv(unittest.TestCase):
    def test_exact(self):
        path = os.path.join(STUDIES, 'steep.txt')
        status, out, _ = command('csv', path)
        rows = [line.split(',') for line in out.decode().split('\n')[:-1]]
        result = emt.run(path)
        self.assertEqual(rows[0], ['time_s', 'v1_V', 'v2_V', 'v3_V', 'i1_A', 'i2_A', 'i2to_A', 'i3_A'])
        self.assertEqual((status, len(rows)), (0, result.steps + 1))
        for step, row in enumerate(rows[1:], 1):
            found = list(map(Decimal, row))
            self.assertEqual(found[0] * 10 ** 9, step * 1000)
            self.assertEqual([number * 10 for number in found[1:4]], [result.v[node][step - 1] for node in (1, 2, 3)])
            self.assertEqual([number * 10 ** 10 for number in found[4:]], [column[step - 1] for column in (result.i[1], result.i[2], result.i_to[2], result.i[3])])

    def test_chosen(self):
        path = os.path.join(STUDIES, 'steep.txt')
        status, out, _ = command('csv', path, 'v2-v3', '--from', '14.5us', '--to', '17us', 'a, "b"=i2')
        self.assertEqual((status, out.decode().split('\n')[0]), (0, 'time_s,v2-v3_V,"a, ""b""_A"'))
        self.assertEqual([line.split(',')[0] for line in out.decode().split('\n')[1:-1]], ['0.000015', '0.000016', '0.000017'])
        target = os.path.join(WORK, 'some.csv')
        self.assertEqual(command('csv', path, 'v3', '-o', target)[:2], (0, b''))
        with open(target, encoding='utf-8') as file:
            self.assertEqual(file.readline(), 'time_s,v3_V\n')

    def test_a_stopped_run(self):
        status, out, err = command('csv', os.path.join(STUDIES, 'floating.txt'), 'v3')
        self.assertEqual((status, len(out.decode().split('\n'))), (1, 102))
        self.assertIn('FLOATING', err)


class Curves(unittest.TestCase):
    def setUp(self):
        self.result = emt.run(text('study 1000 5 1000000000000\nVS 1 1000 1 0\nR 1 2 2000\nR 2 0 3000\nR 2 0 3000\nLINE 2 3 300000 1000'))
        self.names = names.Names('', {1: 'bus', 2: 'mid'}, {2: 'load', 3: 'load', 4: 'cable'})

    def values(self, words):
        return list(curves.curve(words, self.result.network, self.names).values(self.result))

    def test_terms(self):
        run = self.result
        self.assertEqual(self.values('v2'), list(run.v[2]))
        self.assertEqual(self.values('mid'), list(run.v[2]))
        self.assertEqual(self.values('v(mid)'), list(run.v[2]))
        self.assertEqual(self.values('v1-v2'), [one - other for one, other in zip(run.v[1], run.v[2])])
        self.assertEqual(self.values('bus - mid'), self.values('v1-v2'))
        self.assertEqual(self.values('v2-ground'), list(run.v[2]))
        self.assertEqual(self.values('i4to'), list(run.i_to[4]))
        self.assertEqual(self.values('i(cable)to'), list(run.i_to[4]))
        self.assertEqual(self.values('load'), [2 * one for one in run.i[2]])
        self.assertEqual(self.values('i1-i2-i3-i4'), [a - b - c - d for a, b, c, d in zip(run.i[1], run.i[2], run.i[3], run.i[4])])

    def test_labels(self):
        self.assertEqual(curves.curve('open end = v3', self.result.network, NONE).label.strip(), 'open end')
        self.assertEqual([one.label for one in curves.currents(self.result.network, self.names)], ['i1', 'i2', 'i3', 'i(cable)', 'i(cable)to'])
        self.assertEqual([one.label for one in curves.grouped_currents(self.result.network, self.names)], ['i1', 'i(load)', 'i(cable)', 'i(cable)to'])
        self.assertEqual([one.label for one in curves.grouped_currents(self.result.network, NONE)], ['i1', 'i2+..+i3', 'i4', 'i4to'])

    def test_no_such(self):
        for words, piece in (('v4', 'no node 4'), ('i5', 'no branch 5'), ('i0', 'no branch 0'), ('i1to', 'no line'), ('x', "'x' is no name"), ('v1-i1', 'voltages and currents'), ('v1*2', 'no voltage or current'),
                             ('', 'no voltage'), ('v0', 'nothing but ground'), ('i(bus)', 'no name of a branch'), ('v(load)', 'no name of a node')):
            with self.assertRaises(curves.NoSuchCurve) as caught:
                self.values(words)
            self.assertIn(piece, str(caught.exception))

    def test_peak_and_window(self):
        self.assertEqual(peak([1, -5, 5, 2], Window(1, 4)), (-5, 2))
        self.assertEqual(peak([1, -5, 5, 2], Window(3, 4)), (5, 3))
        self.assertIsNone(peak([], Window(1, 0)))

    def test_thinned(self):
        roll = dice(8)
        values = [roll.randint(-9, 9) for _ in range(1000)]
        steps = thinned(values, Window(1, 1000), 100)
        self.assertLessEqual(len(steps), 102)
        self.assertEqual((steps[0], steps[-1], max(values[step - 1] for step in steps), min(values[step - 1] for step in steps)), (1, 1000, max(values), min(values)))
        self.assertEqual(thinned(values, Window(5, 60), 100), list(range(5, 61)))


class Labels(unittest.TestCase):
    """Words beside peaks: in the frame, off one another, and off the curves where there is room."""

    TYPE = labels.Type(0.0135, 0.075)

    def covered(self, label, points):
        return [point for point in points if label.left <= point[0] <= label.right and label.low <= point[1] <= label.high]

    def test_off_a_curve(self):
        """A flat curve through the peak's usual place: the words go elsewhere."""
        points, mark = [(part / 100, 0.56) for part in range(101)], labels.Peak(0.3, 0.5, 20, True)
        usual, label = next(labels.tried(mark, self.TYPE)), labels.placed([mark], points, self.TYPE)[0]
        self.assertNotEqual(self.covered(usual, points), [])
        self.assertEqual((self.covered(label, points), label.side), ([], 'left'))

    def test_by_dice(self):
        roll = dice(12)
        for _ in range(COUNT):
            peaks = [labels.Peak(roll.random(), roll.uniform(0.1, 0.9), roll.randint(8, 24), roll.random() < 0.5) for _ in range(roll.randint(1, plot.LABELS_MOST))]
            found = labels.placed(peaks, [], self.TYPE)
            for place, one in enumerate(found):
                self.assertTrue(0 <= one.left and one.right <= 1 and 0 <= one.low and one.high <= 1, (peaks, one))
                self.assertTrue(all(labels.apart(one, other) for other in found[:place]), peaks)

    def test_a_steep_front(self):
        """Points that are far apart in height are joined: a label between them is covered."""
        points = labels.filled([(0, 0), (0.5, 0), (0.5, 1), (1, 1)], 0.05)
        self.assertLessEqual(max(abs(after[1] - before[1]) for before, after in zip(points, points[1:])), 0.05 + 1e-9)
        self.assertEqual((points[0], points[-1]), ((0, 0), (1, 1)))


@unittest.skipUnless(shutil.which('gnuplot'), 'pictures: gnuplot is not installed (apt-get install gnuplot-nox)')
class Plot(unittest.TestCase):
    ENERGISATION = os.path.join(STUDIES, 'energisation.txt')

    def drawn(self, *words, ending='.svg', status=0):
        path = os.path.join(WORK, 'picture' + ending)
        if os.path.exists(path):
            os.remove(path)
        told = command('plot', *words, '-o', path)
        self.assertEqual(told[0], status, told[2])
        with open(path, 'rb') as file:
            return file.read(), told[1].decode()

    def words_in(self, svg):
        return [re.sub('<[^>]*>', '', one) for one in re.findall(r'<text.*?</text>', svg.decode(), re.DOTALL)]

    def test_svg(self):
        svg, out = self.drawn(self.ENERGISATION, 'open end=v5', 'v3-v4', 'i3', '--title', "Line's 345 kV <energised> a_b^c")
        words = '\n'.join(self.words_in(svg))
        for piece in ('voltage, kV', 'current, kA', 'time, ms', 'open end', 'v3-v4', '661.13 kV at 4.09 ms', '281.7 kV at 0.01 ms', '-1.0992 kA at 5.18 ms', 'a_b^c'):
            self.assertIn(piece, words)
        self.assertIn('open end: 661.127 kV at 4.09 ms', out)

    def test_from_rest(self):
        """A run is drawn from the time 0 on, a window from its first step on; words have a ground of their own, so that a curve behind them does not cross them out."""
        result = emt.run(self.ENERGISATION)
        for start, ends in ((1, '[0:12]'), (101, '[1.01:12]')):
            window = Window(start, result.steps)
            panel = plot.Panel(result, [curves.curve('v5', result.network, NONE)], window, None)
            told = plot.script([panel], plot.Axis.of(plot.TIME, 12 * 10 ** 6), window, result.network.step, '', 'x.svg', None, True)
            self.assertIn(f'set xrange {ends}', told)
            self.assertIn('set style textbox opaque', told)
            self.assertRegex(told, "set label 1 '661.13 kV at 4.09 ms' .* boxed")

    def test_scale(self):
        """The axis of values has room for the curves and for labels above or below them, and is none of zero height."""
        def scale(given, type_=labels.Type(0.01, 0.08)):
            result = emt.run(text('study 1000 9 0\n' + given))
            return plot.Panel(result, [curves.curve('v1', result.network, NONE)], Window(1, 9), None).scale(type_)
        self.assertEqual(scale('VS 1 1000 1 0'), (900, 1100))
        self.assertEqual(scale('VS 1 0 1 0'), (-10, 10))
        low, high = scale('VS 1 1000 1 5')
        self.assertTrue(-100 < low < 0 and 1100 < high < 1200, (low, high))
        self.assertLess(scale('VS 1 1000 1 5', None)[1], high)
        self.assertLess(high, scale('VS 1 1000 1 5', labels.Type(0.02, 0.16))[1])
        self.assertEqual(scale('VS 1 -1000 1 5'), (-high, -low))

    def test_other_kinds(self):
        self.assertTrue(self.drawn(self.ENERGISATION, 'v5', ending='.png')[0].startswith(b'\x89PNG'))
        self.assertTrue(self.drawn(self.ENERGISATION, 'v5', ending='.pdf')[0].startswith(b'%PDF'))

    def test_window_and_per_unit(self):
        svg, out = self.drawn(self.ENERGISATION, 'v5', '--from', '1ms', '--to', '3ms', '--per-unit', '281.7kV')
        words = '\n'.join(self.words_in(svg))
        self.assertIn('voltage, per unit of 281.7 kV', words)
        result = emt.run(self.ENERGISATION)
        largest, step = peak(result.v[5], Window(100, 300))
        self.assertIn(f'v5: {round(largest / 2817000, 6)} per unit of 281.7 kV at {step / 100:g} ms', out)

    def test_no_peaks(self):
        self.assertNotIn(' at ', '\n'.join(self.words_in(self.drawn(self.ENERGISATION, 'v5', '--no-peaks')[0])))

    def test_many_curves(self):
        words = '\n'.join(self.words_in(self.drawn(os.path.join(STUDIES, 'ladder.txt'))[0]))
        self.assertIn('v10 (117.25 kV at 31.7 µs)', words)

    def test_a_stopped_run(self):
        svg, _ = self.drawn(os.path.join(STUDIES, 'floating.txt'), 'v3', status=1)
        self.assertIn('stopped before step 101 by FLOATING', '\n'.join(self.words_in(svg)))

    def test_a_long_run_is_thinned(self):
        path = saved('longer.txt', text('study 1 50000 0\nVS 1 12345678 1 1000\nR 1 0 1000000'))
        self.assertLess(len(self.drawn(path, 'v1')[0]), 400000)

    def test_cannot(self):
        for words, piece in ((('v9',), 'no node 9'), (('v1', '--from', '1h'), "'1h' is not a time"), (('v1', '--from', '13ms'), 'no full step in this time'), (('v1', '--per-unit', '5ohm'), '--per-unit'),
                             (('v1', '--per-unit', '0V'), '--per-unit'), (('v1', '-o', 'x.gif'), 'a picture ends in'), (('--size', '5x5'), 'a size is as'), (('v1', '--nonsense'), 'not understood')):
            told = command('plot', self.ENERGISATION, *(words if '-o' in words else words + ('-o', 'x.svg')))
            self.assertEqual(told[0], 3, words)
            self.assertIn(piece, told[2])
        told = command('plot', self.ENERGISATION, 'v1', '-o', '/no/such/folder/x.svg')
        self.assertEqual((told[0], told[2]), (3, 'emt: /no/such/folder/x.svg: No such file or directory\n'))
        self.assertIn('no full step was taken', command('plot', saved('none.txt', text('study 1 1 0\nIS 1 1 1 0')), '-o', 'x.svg')[2])

    def test_options_anywhere(self):
        self.assertIn('v4:', self.drawn('--title', 'x', self.ENERGISATION, 'v5', '--no-peaks', 'v4')[1])


class Places(unittest.TestCase):
    def test_nothing_into_the_repository(self):
        self.assertEqual(clone.top(), TOP)
        study = os.path.join(STUDIES, 'steep.txt')
        for verb in ('plot', 'report'):
            status, _, err = command(verb, study, folder=TOP)
            self.assertEqual(status, 3)
            self.assertIn('say where by -o', err)
        self.assertFalse(os.path.exists(os.path.join(STUDIES, 'steep.svg')) or os.path.exists(os.path.join(STUDIES, 'steep.html')))
        status, _, err = command('make', os.path.join(TOP, 'examples', 'bank.emt'), folder=TOP)
        self.assertEqual(status, 3)
        self.assertIn('say where by -o', err)
        self.assertEqual([name for name in os.listdir(os.path.join(TOP, 'examples')) + os.listdir(TOP) if name.startswith('bank.') and name != 'bank.emt'], [])

    def test_beside_the_study(self):
        self.assertEqual(places.beside('/some/where/bank.txt', '.svg', None), '/some/where/bank.svg')
        self.assertEqual(places.beside('/some/where/bank.txt', '.svg', 'x.pdf'), 'x.pdf')
        before = os.getcwd()
        os.chdir(WORK)
        try:
            self.assertEqual(os.path.realpath(places.beside(os.path.join(STUDIES, 'steep.txt'), '.svg', None)), os.path.realpath(os.path.join(WORK, 'steep.svg')))
        finally:
            os.chdir(before)
        self.assertRaises(places.NoPlace, places.beside, '-', '.svg', None)

    def test_no_gnuplot(self):
        kept = os.environ['PATH']
        os.environ['PATH'] = '/nowhere'
        try:
            with self.assertRaises(plot.NoPicture) as caught:
                plot.picture(None, [], Window(1, 1), 'x.svg')
        finally:
            os.environ['PATH'] = kept
        self.assertIn('gnuplot-nox', str(caught.exception))
