"""`emt report`: what the file holds and, where chromium is there, what a reader of it sees and does."""
import json
import os
import re
import shutil
import tempfile
import unittest

from browser import Browser
from common import STUDIES, WORK, emt as command, saved, text

import emt
from emt import library, names, report

DYGRAPHS = os.path.exists('/usr/share/javascript/dygraphs/dygraph.min.js')
NO_DYGRAPHS = 'reports: dygraphs is not installed (apt-get install libjs-dygraphs)'
NO_CHROMIUM = 'reports in a browser: chromium is not installed (apt-get install chromium)'


def made(study, *words):
    """The report of a study: its path, its text and the command's status."""
    path = os.path.join(WORK, os.path.basename(study).replace('.txt', '.html'))
    status, out, err = command('report', study, *words, '-o', path)
    assert out.decode() == path + '\n', err
    with open(path, encoding='utf-8') as file:
        return path, file.read(), status


def data_in(page):
    return json.loads(re.search(r'<script type="application/json" id="data">(.*?)</script>', page, re.DOTALL).group(1))


@unittest.skipUnless(DYGRAPHS, NO_DYGRAPHS)
class File(unittest.TestCase):
    ENERGISATION = os.path.join(STUDIES, 'energisation.txt')

    def test_needs_nothing_else(self):
        _, page, _ = made(self.ENERGISATION)
        self.assertEqual(re.findall(r'<(?:script|link|img|iframe)[^>]*(?:src|href)=', page), [])
        self.assertNotIn('@import', page)
        self.assertNotIn('sourceMappingURL', page)

    def test_values_are_the_listings(self):
        _, page, _ = made(self.ENERGISATION)
        data, result = data_in(page), emt.run(self.ENERGISATION)
        self.assertEqual((data['step'], data['steps'], data['time']), (10000, list(range(1, 1201)), {'unit': 'ms', 'places': 6}))
        for chart, columns in zip(data['charts'], ([result.v[node] for node in range(1, 6)], [result.i[1], result.i[2], result.i[3], result.i[4], result.i_to[4]])):
            self.assertEqual([curve['values'] for curve in chart['curves']], list(map(list, columns)))
        self.assertEqual([(chart['name'], chart['unit'], chart['places']) for chart in data['charts']], [('voltage', 'kV', 4), ('current', 'kA', 13)])

    def test_words(self):
        _, page, status = made(self.ENERGISATION, '--title', 'A <line> & its end')
        self.assertEqual(status, 0)
        for piece in (f'Made by emt {library.VERSION}.', 'A &lt;line&gt; &amp; its end', 'done: 1,200 steps taken', '280 Ω, 1 ms = 100 steps', 'grains of 100 mA', '661.127 kV', '4.09 ms', 'works out no number of the solution',
                      'LINE\t4\t5\t280000\t1000000'):
            self.assertIn(piece, page)

    def test_chosen_curves(self):
        data = data_in(made(self.ENERGISATION, 'v5-v4', 'i3')[1])
        self.assertEqual([[curve['label'] for curve in chart['curves']] for chart in data['charts']], [['v5-v4'], ['i3']])

    def test_script_in_names(self):
        """Text of the user's stays text, also inside the data."""
        path = saved('nasty.txt', text('study 1000 3 0\nVS 1 1000 1 0\nR 1 0 1000'))
        page = made(path, '</script><b>=v1')[1]
        self.assertEqual(data_in(page)['charts'][0]['curves'][0]['label'], '</script><b>')
        self.assertEqual(page.count('</script>'), 3)

    def test_a_long_run_is_thinned(self):
        kept, report.VALUES_MOST = report.VALUES_MOST, 1000
        try:
            result = emt.run(self.ENERGISATION)
            page = report.of_run(result, names.Names(), 'x', [])
        finally:
            report.VALUES_MOST = kept
        data = data_in(page)
        self.assertLess(len(data['steps']), 400)
        self.assertIn('are drawn, those where a curve has its least or largest value nearby', page)
        self.assertEqual(max(data['charts'][0]['curves'][4]['values']), max(result.v[5]))

    def test_a_study_alone(self):
        self.assertIn('nothing to draw', made(saved('alone.txt', text('study 5 3 0')))[1])

    def test_peaks_past_the_last_full_step(self):
        """Area 1 takes the step that area 2 is refused; its peak is then in a step that is not listed, and the page says so."""
        path = saved('two.txt', text('study 1000 9 0\nVS 1 900 1 9\nR 1 0 1000000\nVS 3 5 1 0\nSW 3 2 1000 1 4'))
        page, status = made(path)[1:]
        self.assertEqual(status, 1)
        self.assertIn('in the step that was not finished', page)


class WithoutDygraphs(unittest.TestCase):
    def test_refused_study(self):
        """Nothing is drawn of a refused study, so nothing is needed."""
        path, page, status = made(saved('refused.txt', text('study 1000 9 0\nC 3 0 13370000')))
        self.assertEqual(status, 2)
        for piece in ('refused: line 2, VALUE (3)', '26.7 S', '27 branches of 495 nF', 'C→3→0→13370000', '<span class="faulty">C\t3\t0\t13370000</span>'):
            self.assertIn(piece, page)

    def test_missing(self):
        os.environ['EMT_DYGRAPHS'] = '/nowhere'
        try:
            status, _, err = command('report', os.path.join(STUDIES, 'steep.txt'), '-o', os.path.join(WORK, 'never.html'))
        finally:
            del os.environ['EMT_DYGRAPHS']
        self.assertEqual(status, 3)
        self.assertIn('apt-get install libjs-dygraphs', err)
        self.assertFalse(os.path.exists(os.path.join(WORK, 'never.html')))


@unittest.skipUnless(DYGRAPHS, NO_DYGRAPHS)
@unittest.skipUnless(shutil.which('chromium'), NO_CHROMIUM)
class Seen(unittest.TestCase):
    """In the browser. DESK_PICTURES=FOLDER keeps a picture of each page."""

    @classmethod
    def setUpClass(cls):
        cls.folder = tempfile.mkdtemp(dir=WORK)
        cls.browser = Browser(cls.folder)

    @classmethod
    def tearDownClass(cls):
        cls.browser.close()

    def open(self, study, *words):
        path, _, status = made(study, *words)
        self.browser.open(path)
        if os.environ.get('DESK_PICTURES'):
            self.browser.picture(os.path.join(os.environ['DESK_PICTURES'], os.path.basename(path).replace('.html', '.png')))
        self.assertEqual(self.browser.problems(), [])
        self.assertEqual([one for one in self.browser.requested() if one != 'file://' + path], [], 'the page asked for something')
        return status

    def coloured(self, chart, colour):
        """How many points of a chart have a curve's colour."""
        return self.browser.tell('''(function () {
            const canvas = document.querySelectorAll("#%s canvas")[0], points = canvas.getContext("2d").getImageData(0, 0, canvas.width, canvas.height).data;
            let found = 0;
            for (let at = 0; at < points.length; at += 4) if (points[at] === %d && points[at + 1] === %d && points[at + 2] === %d && points[at + 3] === 255) found++;
            return found;
        })()''' % ((chart,) + colour))

    def box(self, chart):
        """Left, top, width and height of where a chart's curves are drawn."""
        return self.browser.tell('''(function () {
            const graph = emtCharts[%d], area = graph.getArea(), place = graph.graphDiv.getBoundingClientRect();
            return [place.left + area.x, place.top + area.y, area.w, area.h];
        })()''' % chart)

    def test_done(self):
        browser = self.browser
        self.assertEqual(self.open(os.path.join(STUDIES, 'energisation.txt')), 0)
        self.assertIn('done: 1,200 steps taken, to 12 ms', browser.tell('document.getElementById("end").innerText'))
        self.assertEqual(browser.tell('emtCharts.length'), 2)
        for chart, colour in (('voltage', (0xb0, 0x7a, 0x00)), ('voltage', (0x00, 0x60, 0xa8)), ('current', (0x8a, 0x4f, 0xb0))):
            self.assertGreater(self.coloured(chart, colour), 200, (chart, colour))
        # the cursor reads values off: the middle of the chart is at 6 ms, where node 5 has what the listing says
        left, top, width, height = self.box(0)
        browser.mouse('mouseMoved', left + width / 2, top + height / 2)
        words = browser.tell('document.getElementById("voltage-read").innerText')
        step = int(re.search(r'step ([0-9]+)', words).group(1))
        self.assertTrue(590 <= step <= 610, words)
        value = emt.run(os.path.join(STUDIES, 'energisation.txt')).v[5][step - 1]
        self.assertIn(f'v5 {value / 10000:.10g} kV', words)

    def test_zoom(self):
        browser = self.browser
        self.open(os.path.join(STUDIES, 'energisation.txt'))
        before = browser.tell('emtCharts[0].xAxisRange()')
        left, top, width, height = self.box(0)
        browser.drag((left + 0.25 * width, top + height / 2), (left + 0.5 * width, top + height / 2))
        after, other = browser.tell('[emtCharts[0].xAxisRange(), emtCharts[1].xAxisRange()]')
        span = before[1] - before[0]
        self.assertAlmostEqual(after[0], before[0] + 0.25 * span, delta=0.02 * span)
        self.assertAlmostEqual(after[1], before[0] + 0.5 * span, delta=0.02 * span)
        self.assertEqual(after, other, 'the second chart follows')
        browser.tell('document.getElementById("whole").click()')
        for back in browser.tell('emtCharts.map((chart) => chart.xAxisRange())'):
            self.assertAlmostEqual(back[1] - back[0], span, delta=0.001 * span)
        self.assertEqual(browser.problems(), [])

    def test_places_stay_on_one_line(self):
        """Beside the long words of a breaker 'C 3–ground' is not broken in two."""
        self.assertEqual(self.open(os.path.join(STUDIES, 'breaker.txt')), 0)
        lines = self.browser.tell('Array.from(document.querySelectorAll("td.tight")).map((cell) => { const all = document.createRange(); all.selectNodeContents(cell); '
                                  'return new Set(Array.from(all.getClientRects()).map((one) => one.top)).size; })')
        self.assertEqual((len(lines), max(lines)), (16, 1))
        self.assertIn('it parts at the first current zero from step 4,500 on, here after step 4,995 (9.99 ms)', self.browser.tell('document.body.innerText'))

    def test_choosing_curves(self):
        browser = self.browser
        self.open(os.path.join(STUDIES, 'energisation.txt'))
        self.assertGreater(self.coloured('voltage', (0xb0, 0x7a, 0x00)), 200)
        browser.tell('document.querySelectorAll("#voltage-choose input")[4].click()')
        self.assertEqual(self.coloured('voltage', (0xb0, 0x7a, 0x00)), 0)

    def test_labels_stay_text(self):
        path = saved('label.txt', text('study 1000 3 0\nVS 1 1000 1 0\nR 1 0 1000'))
        self.open(path, '<b id=x>y</b>=v1')
        left, top, width, height = self.box(0)
        self.browser.mouse('mouseMoved', left + width / 2, top + height / 2)
        self.assertIsNone(self.browser.tell('document.getElementById("x")'))
        self.assertIn('<b id=x>y</b> 100 V', self.browser.tell('document.getElementById("voltage-read").innerText'))

    def test_stopped(self):
        self.assertEqual(self.open(os.path.join(STUDIES, 'floating.txt')), 1)
        words = self.browser.tell('document.getElementById("end").innerText')
        for piece in ('stopped before step 101 (101 µs) by FLOATING (14) at node 3', 'Open at this step: SW 2–3', 'stray capacitance'):
            self.assertIn(piece, words)
        self.assertGreater(self.coloured('voltage', (0x8a, 0x4f, 0xb0)), 100)

    def test_refused(self):
        self.assertEqual(self.open(saved('refused.txt', text('study 1000 9 0\nC 3 0 13370000'))), 2)
        self.assertIn('27 branches of 495 nF', self.browser.tell('document.getElementById("end").innerText'))
        self.assertEqual(self.browser.tell('document.getElementById("line").innerText'), 'C→3→0→13370000\n      ^^^^^^^^')

    def test_names(self):
        saved('bank.emt', 'title A bank is switched on\nstep 1us\ntime 2ms\nVS bus 93.9kV\nfeeder: L bus cap 0.5mH\nbank: C cap ground 13.37uF\nR cap 0 1Mohm\n')
        command('make', 'bank.emt', '-o', 'named.txt')
        self.open(os.path.join(WORK, 'named.txt'))
        self.assertEqual(self.browser.tell('document.querySelector("h1").innerText'), 'A bank is switched on')
        self.assertEqual(self.browser.tell('Array.from(document.querySelectorAll(".choose label")).map((one) => one.innerText)'), ['v(bus)', 'v(cap)', 'i(feeder)', 'i(bank)', 'i29'])
