"""Refusal 1, FORM: what is wrong with the spelling of a line, and how it is written."""
import re

from .kinds import KINDS, STUDY
from .quantities import UNITS, WRITTEN, counted, exact, written
from .textline import Fault, form_of, units_of

COMMENTS = ('#', '*', '/', ';')
TABS = 'fields are parted by one tab, and nothing else'


def form(line, text):
    """Ends of lines first, then the word, then the fields."""
    if not text.data:
        return Fault(0, 0, 'the text is empty', f'its first line is {form_of(STUDY)}')
    if line.bytes.startswith(b'\xef\xbb\xbf'):
        return Fault(0, 3, 'three bytes of a byte-order mark stand before the text', 'save the file without it (plain UTF-8 or ASCII)')
    if not line.ended:
        return Fault(len(line.bytes), 0, 'the last line has no line feed at its end', 'end the file with a line feed')
    if not line.bytes:
        return Fault(0, 0, 'the line is empty', 'take it out; `emt make` takes blank lines and comments')
    if line.bytes.endswith(b'\r'):
        return Fault(len(line.bytes) - 1, 1, 'the line ends in CR LF, as under Windows', 'save the file with Unix line ends')
    return no_word(line) if line.kind is None else wrong_word(line) or wrong_fields(line)


def no_word(line):
    word = short(line.fields[0])
    if not word:
        return line.fault(0, 'the line begins with a tab', 'it begins with a word: ' + words())
    if word.startswith(COMMENTS):
        return line.fault(0, f"'{word}' is no word of a study", 'comments are for `emt make`')
    if ' ' in word:
        return Fault(line.bytes.index(b' '), 1, 'a space stands where a tab must be', TABS)
    near = [kind.word for kind in KINDS + (STUDY,) if kind.word.lower() == word.lower()]
    return line.fault(0, f"'{word}' is no word of a study", f'write {near[0]}' if near else 'the words are ' + words())


def short(field):
    """A field as text, its first characters."""
    text = field.decode('utf-8', 'backslashreplace')
    return text if len(text) <= 40 else text[:38] + '..'


def words():
    return ', '.join(kind.word for kind in KINDS)


def wrong_word(line):
    """`study` in another line than the first, or not there."""
    if (line.kind is STUDY) == (line.number == 1):
        return None
    if line.number == 1:
        return line.fault(0, 'the first line is not `study`', f'it is {form_of(STUDY)}')
    return line.fault(0, 'a second `study` line', 'a study has one, its first line')


def wrong_fields(line):
    """A badly spelt field, where their number is right or the field explains why it is not; or too many fields, or too few."""
    have, want, form_ = len(line.fields) - 1, len(line.kind.fields), f'the line is {form_of(line.kind)}'
    for place, (field, text) in enumerate(zip(line.kind.fields, line.fields[1:]), 1):
        wrong = spelling(field, text)
        if wrong and (have == want or b' ' in text or not text):
            return line.fault(place, *wrong)
    if have > want:
        start, _ = line.place(want + 1)
        return Fault(start, len(line.bytes) - start, counted(have - want, 'field') + ' too many', form_)
    if have < want:
        missing = ', '.join(field.name for field in line.kind.fields[have:])
        return Fault(len(line.bytes), 0, f'{counted(want - have, "field")} missing: {missing}', form_)
    return None


def spelling(field, text):
    """What is wrong with the spelling of a number, and a hint; None where it is spelt well."""
    if re.fullmatch(rb'0|-?[1-9][0-9]*' if field.low < 0 else rb'0|[1-9][0-9]*', text):
        return None
    shown = short(text)
    if not text:
        return 'the field is empty', 'between two fields stands one tab'
    if b' ' in text:
        return 'a space stands in a field', TABS
    if text == b'-0':
        return '-0 is no number here', 'write 0'
    if re.fullmatch(rb'-?0[0-9]+', text):
        return f'{shown} has a leading zero', 'a number begins with 1 to 9; 0 is 0'
    if re.fullmatch(rb'-[0-9]+', text):
        return f'a minus before the {field.name}', 'only the peak of a source may have one'
    unit = WRITTEN.fullmatch(shown)
    if field.quantity and unit and UNITS[unit.group(3)] is field.quantity:
        return f'{shown} has a unit', with_unit(field, shown)
    return f'{shown} is no whole number', f'{units_of(field)} stands here; `emt make` takes decimals, units and names'


def with_unit(field, shown):
    """What a value with a unit is in the text's units."""
    whole = written(shown, field.quantity) / exact(1, field.quantity)
    near = '' if whole.denominator == 1 else f' (to the nearest; {shown} is no whole number of them)'
    return f'{units_of(field)} stands here: {round(whole)}{near}'
