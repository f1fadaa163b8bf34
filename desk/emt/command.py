"""The command `emt`: its arguments, and how it ends."""
import argparse
import os
import sys

from . import bridge, clone, curves, library, places, plot, quantities, report, verbs
from .verbs import DONE, FAILED, tell, tell_refused
from .words import Refused

HONEST = ('Every voltage and current comes from the proved calls of Zanguremi (libemt.so): emt shows them in other units, takes sums and differences, and draws. '
          'It works out, changes and invents no number of a solution; time constants and other hints of `emt check` are estimates of its own.')
STATUS = ('Exit status: 0 done, 1 the run stopped, 2 the text is refused, 3 emt itself could not do it (no such file, a missing package, '
          'wrong arguments).')
PROBLEMS = (verbs.Failed, bridge.Gone, clone.NotMade, library.NoLibrary, places.NoPlace, plot.NoPicture, report.NoReport, curves.NoSuchCurve, quantities.NotAQuantity)


class Parser(argparse.ArgumentParser):
    """Wrong arguments end with 3, since 2 is a refused text."""

    def error(self, message):
        self.print_usage(sys.stderr)
        tell(f'{self.prog}: {message}')
        sys.exit(FAILED)


def size_of(text):
    width, cross, height = text.partition('x')
    if not (cross and width.isdigit() and height.isdigit() and 100 <= int(width) <= 10000 and 100 <= int(height) <= 10000):
        raise argparse.ArgumentTypeError('a size is as 900x600')
    return int(width), int(height)


def add(group, name, does, words, out='', curves_=False, window=False):
    """A verb, with the arguments that several have."""
    one = group.add_parser(name, help=words, description=f'{words[0].upper()}{words[1:]}. {HONEST}', epilog=STATUS)
    one.set_defaults(does=does)
    if name == 'make':
        one.add_argument('file', metavar='FILE', help='the text with names and units')
    else:
        one.add_argument('study', metavar='STUDY', help='a study text; - is standard input')
    if curves_:
        one.add_argument('curves', nargs='*', metavar='CURVE',
                         help="v2, i4, i4to (a line's current at its to end), v2-v3, names as v(bus) or bus, LABEL=v2")
    if window:
        one.add_argument('--from', dest='start', metavar='TIME', help='from this time on, as 1.5ms')
        one.add_argument('--to', dest='end', metavar='TIME', help='up to this time')
    if out:
        one.add_argument('-o', dest='out', metavar='FILE', help=out)
    return one


def parser():
    top = Parser(prog='emt', description=f'Studies of electromagnetic transients: check, run, make, plot, report. {HONEST}', epilog=STATUS)
    top.add_argument('--version', action='store_true', help='the library and its version')
    group = top.add_subparsers(metavar='VERB', parser_class=Parser)
    add(group, 'check', verbs.check, 'what was understood of a study, in engineering units, and what to watch')
    add(group, 'run', verbs.run, "the listing, byte for byte emtrun's; how it ended in words on standard error")
    one = add(group, 'make', verbs.make, 'a study text from one with names, units and comments; a map of names beside it', 'where the study goes (FILE with .txt)')
    one.add_argument('--force', action='store_true', help='overwrite a text that emt make has not made')
    one = add(group, 'plot', verbs.plotted, 'a picture by gnuplot, SVG, PDF or PNG: voltages above, currents below, peaks marked',
              'where it goes, by its ending .svg, .pdf or .png (STUDY.svg, beside the study)', curves_=True, window=True)
    one.add_argument('--title', help="the picture's title")
    one.add_argument('--per-unit', action='append', default=[], metavar='BASE', help='divide voltages by 281.7kV, or currents by 1kA')
    one.add_argument('--no-peaks', action='store_true', help='mark no peaks')
    one.add_argument('--size', type=size_of, metavar='WxH', help='in pixels (PDF: 50 to the cm)')
    one = add(group, 'report', verbs.reported, 'one HTML file that needs no network: what was understood, waveforms to zoom, peaks, how the run ended',
              'where it goes (STUDY.html, beside the study)', curves_=True)
    one.add_argument('--title', help="the report's title")
    add(group, 'csv', verbs.tabled, 'time and chosen columns in SI units, exact, as comma-separated values', 'where it goes (standard output)',
        curves_=True, window=True)
    return top


def arguments(words):
    """Curves may stand on both sides of options, which argparse by itself does not take."""
    top = parser()
    asked, rest = top.parse_known_args(words)
    if rest and (not hasattr(asked, 'curves') or any(word.startswith('-') for word in rest)):
        top.error('not understood: ' + ' '.join(rest))
    if rest:
        asked.curves += rest
    return asked


def main(words=None):
    for stream in (sys.stdout, sys.stderr):
        stream.reconfigure(encoding='utf-8', errors='backslashreplace')
    asked = arguments(words)
    try:
        if not asked.version and not hasattr(asked, 'does'):
            parser().print_help()
            return FAILED
        clone.make_library()
        if asked.version:
            print(library.version())
            return DONE
        return asked.does(asked)
    except Refused as refused:
        return tell_refused(refused, asked.study, sys.stderr)
    except PROBLEMS as problem:
        tell(f'emt: {problem}')
    except BrokenPipeError:  # whoever read the output has enough; Python must not try again at its end
        os.dup2(os.open(os.devnull, os.O_WRONLY), sys.stdout.fileno())
    except KeyboardInterrupt:
        tell('emt: interrupted')
    except OSError as problem:
        tell(f'emt: {problem.filename or "standard output"}: {problem.strerror}')
    return FAILED
