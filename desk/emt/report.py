"""`emt report`: one HTML file that needs nothing beside it, neither a network nor other files.

What was understood, what to watch, waveforms to zoom and read off (dygraphs, put into the file), peaks, how the run ended, the study text. A study that is
refused has its line and what is wrong with it in place of a run.
"""
import json
import os
from html import escape

from . import curves, faults, library, shown, stops, understood, watch
from .axes import Axis, Window, peak, thinned
from .quantities import CURRENT, TIME, VOLTAGE, count, said

HERE = os.path.dirname(os.path.abspath(__file__))
VALUES_MOST = 2_000_000  # in one file
VISIBLE = 8              # curves of a chart that are shown from the start
HONEST = ("Every voltage and current on this page is a number of the run's listing, as the proved calls of Zanguremi gave it, written in another unit; differences "
          'and sums of them are exact. This page works out no number of the solution. Time constants and the like under "what to watch" are its own estimates, to '
          'judge a step by, and no part of the solution.')


class NoReport(Exception):
    """A report cannot be made: there is no dygraphs."""


def dygraphs():
    """dygraph.min.js and its style sheet, of Debian's libjs-dygraphs or of the folder that EMT_DYGRAPHS names."""
    folder = os.environ.get('EMT_DYGRAPHS', '/usr/share/javascript/dygraphs')
    found = []
    for name in ('dygraph.min.js', 'dygraph.min.css'):
        try:
            with open(os.path.join(folder, name), encoding='utf-8') as file:
                found.append('\n'.join(line for line in file.read().split('\n') if 'sourceMappingURL' not in line))
        except OSError:
            raise NoReport(f'a report needs dygraphs, and there is no {folder}/{name}: apt-get install libjs-dygraphs (tools/setup does it)') from None
    return found


def own(name):
    with open(os.path.join(HERE, name), encoding='utf-8') as file:
        return file.read()


def table(head, rows, numbers=(), tight=()):
    """An HTML table of texts; numbers are the columns set to the right, tight those that stay on one line."""
    def cells(tag, texts):
        classes = {place: ' class=number' for place in numbers} | {place: ' class=tight' for place in tight}
        return ''.join(f'<{tag}{classes.get(place, "")}>{escape(text)}</{tag}>' for place, text in enumerate(texts))
    return '<table>' + (f'<tr>{cells("th", head)}</tr>' if head else '') + ''.join(f'<tr>{cells("td", row)}</tr>' for row in rows) + '</table>'


def listed(sentences):
    return '<ul>' + ''.join(f'<li>{escape(one)}</li>' for one in sentences) + '</ul>' if sentences else '<p>Nothing.</p>'


def ending(kind, sentences):
    return f'<div class="end {kind}" id="end">' + ''.join(f'<p>{escape(one)}</p>' for one in sentences) + '</div>'


def rounded(names):
    return [f'rounded when the study was made: {words}' for words in names.rounded]


# ---- waveforms

def steps_drawn(result, columns):
    """All steps, or where a file would have too many values those where some curve has an extreme."""
    window = Window(1, result.steps)
    if not columns or result.steps * len(columns) <= VALUES_MOST:
        return list(range(1, result.steps + 1))
    bits = max(2, VALUES_MOST // len(columns) // len(columns))
    return sorted({step for values in columns for step in thinned(values, window, bits)})


def data_of(result, drawn):
    """What the page's script draws: whole numbers of the listing, and by which power of ten they are written."""
    time = Axis.of(TIME, max(1, result.steps) * result.network.step)
    columns = {id(curve): curve.values(result) for curve in drawn}
    steps = steps_drawn(result, list(columns.values()))
    charts = []
    for quantity in (VOLTAGE, CURRENT):
        of_it = [curve for curve in drawn if curve.quantity is quantity]
        if of_it and steps:
            axis = Axis.of(quantity, max(max(map(abs, columns[id(curve)])) for curve in of_it))
            charts.append({'id': quantity.name, 'name': quantity.name, 'unit': axis.unit, 'places': axis.prefix - quantity.exponent, 'curves': [
                {'label': curve.label, 'visible': place < VISIBLE, 'values': [columns[id(curve)][step - 1] for step in steps]}
                for place, curve in enumerate(of_it)]})
    return {'step': result.network.step, 'steps': steps, 'time': {'unit': time.unit, 'places': time.prefix - TIME.exponent}, 'charts': charts}


def waveforms(result, data):
    if not data['charts']:
        return '<p>No full step was taken: there is nothing to draw.</p>'
    drawn = len(data['steps'])
    thin = '' if drawn == result.steps else (f' Of {count(result.steps)} steps {count(drawn)} are drawn, those where a curve has its least or largest value nearby; '
                                             'the listing and <code>emt csv</code> have all.')
    parts = ['<p class="how">Drag over a stretch of time to zoom, double-click or <button id="whole">whole run</button> to go back; the values at the cursor '
             f'stand below each chart.{thin}</p>']
    for name in (chart['id'] for chart in data['charts']):
        parts.append(f'<div class="chart" id="{name}"></div><p class="read" id="{name}-read"></p><div class="choose" id="{name}-choose"></div>')
    return '\n'.join(parts)


# ---- peaks

def peaks(result, names):
    """The nodes' peaks as the compiled call tells them; the branches' largest currents from the listing."""
    network, rows = result.network, []
    for node, (largest, step) in result.peaks.items():
        late = ', in the step that was not finished' if step > result.steps else ''
        rows.append((f'node {names.node(node)}', said(largest, VOLTAGE), said(step * network.step, TIME), count(step) + late))
    window, currents = Window(1, result.steps), []
    for group in (group for group in network.groups() if group[0].kind.branch):
        row = group[0]
        each = f', each of {len(group)} side by side' if len(group) > 1 else ''
        for end, values in (('', result.i), (' at its to end', result.i_to)):
            found = peak(values[row.branch], window) if row.branch in values else None
            if found:
                currents.append((names.branch(row) + each + end, said(found[0], CURRENT), said(found[1] * network.step, TIME), count(found[1])))
    head = ('largest', 'time', 'step')
    return ('<h3>Voltages, without sign</h3>' + table(('node',) + head, rows, (1, 2, 3)) if rows else '') + (
        '<h3>Currents, as they leave the from node</h3>' + table(('branch',) + head, currents, (1, 2, 3)) if currents else '')


# ---- the page

def study_text(text, faulty=0):
    lines = text.decode('utf-8', 'backslashreplace').split('\n')
    marked = [f'<span class="faulty">{escape(line)}</span>' if number == faulty else escape(line) for number, line in enumerate(lines, 1)]
    return '<h2>Study text</h2><pre id="text">' + '\n'.join(marked) + '</pre>'


def page(title, body, script=''):
    return f'''<!DOCTYPE html>
<html lang="en">
<head>
<meta charset="utf-8">
<title>{escape(title)}</title>
<style>
{own("report.css")}</style>
</head>
<body>
{body}
<footer>{escape(HONEST)} Made by emt {library.VERSION}.</footer>
{script}
</body>
</html>
'''


def of_run(result, names, path, texts):
    """The page of a study that was taken, whether its run was done or stopped."""
    network = result.network
    title = names.title or os.path.basename(path)
    drawn = curves.chosen(texts, network, names, curves.voltages(network, names) + curves.grouped_currents(network, names))
    data = data_of(result, drawn)
    body = '\n'.join([
        f'<h1>{escape(title)}</h1><p class="from">{escape(path)}</p>',
        ending('stopped' if result.stop else 'done', stops.ended(result, names)),
        '<h2>What was understood</h2>', ''.join(f'<p>{escape(line)}</p>' for line in understood.head(network)),
        table(('branch', 'what and where', 'value'), understood.rows(network, names, result), tight=(0, 1)), listed(watch.step_facts(network, names, result) + rounded(names)),
        '<h2>What to watch</h2>', listed(watch.watch(network, names, result)),
        '<h2>Waveforms</h2>', waveforms(result, data),
        '<h2>Peaks</h2>', peaks(result, names) if result.peaks else '<p>None.</p>',
        study_text(network.text)])
    script, style = dygraphs()
    held = json.dumps(data, separators=(',', ':'), ensure_ascii=False).replace('</', '<\\/')
    return page(title, body, f'<style>\n{style}\n</style>\n<script>\n{script}\n</script>\n<script type="application/json" id="data">{held}</script>\n'
                f'<script>\n{own("report.js")}</script>')


def of_refused(refused, path):
    """The page of a text that is not taken."""
    line, fault = faults.fault_of(refused)
    where = f'line {count(refused.line)}' if refused.line else 'the text'
    marks = shown.marked(*shown.cut(line.bytes, fault.start, fault.length)) if refused.line else []
    body = '\n'.join([
        f'<h1>{escape(os.path.basename(path))}</h1><p class="from">{escape(path)}</p>',
        ending('refused', [f'refused: {where}, {refused.name} ({refused.number}): {refused.words}', fault.wrong] + ([fault.hint] if fault.hint else [])),
        f'<pre id="line">{escape(chr(10).join(marks))}</pre>' if marks else '', study_text(refused.text[:65536], refused.line)])
    return page(os.path.basename(path), body)
