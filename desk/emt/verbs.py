"""The verbs of `emt`: what each reads, says and writes. Each answers the exit status."""
import os
import sys

from . import columns, curves, faults, friendly, names as names_, places, plot, quantities, report, shown, stops, understood, watch
from .axes import Window
from .make import make as made_of
from .quantities import TIME, counted, said
from .results import Listing, outcome
from .study import read, text_of, whole
from .words import Refused

DONE, STOPPED, REFUSED, FAILED = 0, 1, 2, 3


class Failed(Exception):
    """Something that is not the study's fault; its words go to standard error."""


class Study:
    """A study by its path: its text and the names beside it. '-' is standard input."""

    def __init__(self, path):
        try:
            if path == '-':
                self.path, self.text = '-', whole(sys.stdin.buffer)
            else:
                self.path = path if os.path.exists(path) else path + '.txt'
                self.text = text_of(self.path)
        except OSError as problem:
            raise Failed(f'{path}: {problem.strerror}') from None
        self.names, stale = names_.beside('' if path == '-' else self.path, self.text)
        if stale:
            tell(stale)

    @property
    def shown(self):
        return 'standard input' if self.path == '-' else self.path


def tell(words):
    print(words, file=sys.stderr)


def tell_refused(refused, path, out):
    """A refused text: the line with its field marked, what is wrong and what to do."""
    line, fault = faults.fault_of(refused)
    where = f', line {refused.line}' if refused.line else ''
    print(f'{path}{where}: refused, {refused.name} ({refused.number}): {refused.words}', file=out)
    if refused.line:
        for one in shown.marked(*shown.cut(line.bytes, fault.start, fault.length)):
            print('    ' + one, file=out)
    print(fault.wrong + (f'; {fault.hint}' if fault.hint else ''), file=out)
    return REFUSED


def tell_ended(result, study, out):
    words = stops.ended(result, study.names)
    print(f'{study.shown}: {words[0]}', file=out)
    for one in words[1:]:
        print('    ' + one, file=out)
    return STOPPED if result.stop else DONE


def check(asked):
    """What was understood and what to watch."""
    study = Study(asked.study)
    try:
        network = read(study.text)
    except Refused as refused:
        return tell_refused(refused, study.shown, sys.stdout)
    result = outcome(network)
    print(f'{study.shown}' + (f': {study.names.title}' if study.names.title else ''))
    print('\n'.join('  ' + line for line in understood.head(network) + watch.step_facts(network, study.names, result) + report.rounded(study.names)) + '\n')
    rows = understood.rows(network, study.names, result)
    widths = [max((len(row[place]) for row in rows), default=0) for place in (0, 1)]
    for row in rows:
        print(f'  {row[0]:>{widths[0]}}  {row[1]:<{widths[1]}}  {row[2]}')
    found = watch.watch(network, study.names, result)
    print('\nwhat to watch' + (':' if found else ': nothing'))
    for words in found:
        print('  - ' + words)
    print()
    return tell_ended(result, study, sys.stdout)


def run(asked):
    """The listing, byte for byte emtrun's."""
    study = Study(asked.study)
    out = sys.stdout.buffer
    try:
        network = read(study.text)
    except Refused as refused:
        out.write(f'bad\t{refused.line}\t{refused.number}\n'.encode())
        out.flush()
        return tell_refused(refused, study.shown, sys.stderr)
    listing = Listing(network)
    for piece in listing.pieces():
        out.write(piece)
    out.flush()
    if listing.stop:
        return tell_ended(outcome(network), study, sys.stderr)
    tell(f'{study.shown}: done: {counted(network.steps, "step")} taken, to {said(network.steps * network.step, TIME)}')
    return DONE


def make(asked):
    """A study text from a friendly one."""
    try:
        with open(asked.file, encoding='utf-8') as file:
            lines = file.read().split('\n')
    except (OSError, UnicodeDecodeError) as problem:
        raise Failed(f'{asked.file}: {getattr(problem, "strerror", None) or "no text in UTF-8"}') from None
    out = places.beside(asked.file, '.txt', asked.out)
    try:
        made = made_of(friendly.understood(lines))
    except friendly.NotUnderstood as problem:
        tell(f'{asked.file}, {problem}')
        if 0 < problem.line <= len(lines):
            tell('    ' + lines[problem.line - 1])
        return REFUSED
    roundings = [one.words for one in made.roundings]
    save_made(asked, out, made, roundings)
    network = read(made.text)
    print(f'{out}: {understood.head(network)[1]}; {names_.path_of(out)} has the names')
    for words in made.notes + [f'rounded: {words}' for words in roundings]:
        print('  ' + words)
    return DONE


def save_made(asked, out, made, roundings):
    """Writes the text and the map; a text that was not made is not overwritten."""
    if os.path.abspath(out) == os.path.abspath(asked.file):
        raise Failed(f'{asked.file} would be overwritten: say another place by -o')
    if os.path.exists(out) and not os.path.isdir(out):
        if not names_.made(out, text_of(out)) and not asked.force:
            raise Failed(f'{out} is there, and not as `emt make` left it: say another place by -o, or --force')
    write(out, made.text)
    write(names_.path_of(out), names_.written(made.names, made.text, os.path.basename(asked.file), roundings).encode())


def write(path, content):
    try:
        with open(path, 'wb') as file:
            file.write(content)
    except OSError as problem:
        raise Failed(f'{path}: {problem.strerror}') from None


def window_of(asked, result):
    times = [None if said_ is None else quantities.written(said_, TIME) for said_ in (asked.start, asked.end)]
    return Window.of(result, *times)


def bases_of(asked):
    """--per-unit 281.7kV: by the quantity of its unit."""
    found = {}
    for text in asked.per_unit:
        for quantity in (quantities.VOLTAGE, quantities.CURRENT):
            try:
                found[quantity] = quantities.written(text, quantity)
            except quantities.NotAQuantity:
                continue
    if len(found) != len(asked.per_unit) or not all(found.values()):
        raise Failed('--per-unit takes a voltage or a current with its unit, each once: --per-unit 281.7kV')
    return found


def plotted(asked):
    """A picture by gnuplot."""
    study = Study(asked.study)
    path = places.beside(study.path, '.svg', asked.out)
    result = outcome(study.text)
    chosen = curves.chosen(asked.curves, result.network, study.names, curves.voltages(result.network, study.names))
    title = study.names.title if asked.title is None else asked.title
    if result.stop:
        title += f'{" – " if title else ""}stopped before step {result.stop.step} by {result.stop.name}'
    ending = os.path.splitext(path)[1].lower()
    drawn, panels, time = plot.picture(result, chosen, window_of(asked, result), ending, title, bases_of(asked), asked.size, not asked.no_peaks)
    write(path, drawn)
    print(path)
    for panel in panels:
        for (curve, _), (value, step) in zip(panel.curves, panel.peaks):
            print(f'  {curve.label}: {panel.axis.written(value)} {panel.axis.unit} at {time.written(step * result.network.step)} {time.unit}')
    return tell_ended(result, study, sys.stderr)


def reported(asked):
    """One HTML file."""
    study = Study(asked.study)
    path = places.beside(study.path, '.html', asked.out)
    try:
        result = outcome(study.text)
    except Refused as refused:
        write(path, report.of_refused(refused, study.shown).encode())
        print(path)
        return tell_refused(refused, study.shown, sys.stderr)
    if asked.title is not None:
        study.names.title = asked.title
    write(path, report.of_run(result, study.names, study.shown, asked.curves).encode())
    print(path)
    return tell_ended(result, study, sys.stderr)


def tabled(asked):
    """Comma-separated values."""
    study = Study(asked.study)
    result = outcome(study.text)
    network = result.network
    chosen = curves.chosen(asked.curves, network, study.names, curves.voltages(network, study.names) + curves.currents(network, study.names))
    lines = columns.lines(result, chosen, window_of(asked, result))
    if asked.out:
        write(asked.out, ''.join(line + '\n' for line in lines).encode())
    else:
        for line in lines:
            sys.stdout.write(line + '\n')
        sys.stdout.flush()
    return tell_ended(result, study, sys.stderr)
