"""The text that `emt make` takes: names for nodes and branches, comments, decimals with units.

    title  A bank is switched on
    step   1us
    time   5ms

    supply: VS bus 115kV
    feeder: L  bus far 0.5mH
    bank:   C  far ground 13.37uF     # a comment

Every value is taken as an exact fraction of SI units. What is not understood raises NotUnderstood with the line and the words.
"""
import re
from collections import namedtuple

from .kinds import BY_WORD, KINDS, NODES
from .quantities import CURRENT, NUMBER, TIME, UNITS, NotAQuantity, written

GROUND = ('0', 'ground', 'gnd', 'earth')
NAME = re.compile(r'[A-Za-z_][A-Za-z0-9_.]*')
TAKEN = re.compile(r'[vi][0-9]+(to)?|' + '|'.join(GROUND), re.IGNORECASE)  # names that `emt plot` would read as something else
UNIT = re.compile('[pnuµμmkMG]?(' + '|'.join(UNITS) + ')')
HEAD = {'step': TIME, 'time': TIME, 'limit': CURRENT}
HEADS = ('title', 'step', 'time', 'steps', 'limit')

# values and options in SI units, by the fields' places in the kind's row
Element = namedtuple('Element', 'line name kind nodes values')


class NotUnderstood(Exception):
    """A line of a friendly text that `emt make` does not take: .line and .words."""

    def __init__(self, line, words):
        self.line, self.words = line, words
        super().__init__(f'line {line}: {words}')


class Friendly:
    """A friendly text, understood: .title, .step, .time, .steps, .limit (each with its line, or None), .elements."""

    def __init__(self):
        self.title, self.step, self.time, self.steps, self.limit, self.elements = '', None, None, None, None, []


def quantities(words):
    """Words with '280 ohm', a number and its unit apart, put together."""
    joined = []
    for word in words:
        if joined and re.fullmatch(NUMBER, joined[-1]) and UNIT.fullmatch(word):
            joined[-1] += word
        else:
            joined.append(word)
    return joined


def a_name(word, line, what):
    if not NAME.fullmatch(word):
        raise NotUnderstood(line, f"'{word}' is no name of a {what}: letters, digits, _ and ., a letter first")
    if TAKEN.fullmatch(word):
        raise NotUnderstood(line, f"a {what} cannot be called '{word}': that means something else to `emt plot`")
    return word


def node(word, line):
    if word.lower() in GROUND:
        return '0'
    if re.fullmatch('[0-9]+', word):
        if word != str(int(word)) or int(word) > NODES:
            raise NotUnderstood(line, f"there is no node {word}: numbers go from 1 to {NODES}, and any name will do")
        return word
    return a_name(word, line, 'node')


def value(word, quantity, line):
    try:
        return written(word, quantity)
    except NotAQuantity as problem:
        raise NotUnderstood(line, str(problem)) from None


def form_of(kind):
    """How a line of this kind is written."""
    words = ['NODE', 'NODE'] if kind.branch else ['NODE']
    words += [field.name.replace(' ', '-').upper() for field in kind.fields if field.quantity]
    return ' '.join([kind.word] + words + [f'[{field.option} TIME]' for field in kind.fields if field.option])


def element(line, name, words):
    """One branch or source; words begin with its kind."""
    kind = BY_WORD[words[0].upper()]
    ends = 2 if kind.branch else 1
    rest = quantities(words[1 + ends:])
    fields = [place for place, field in enumerate(kind.fields) if field.quantity]
    if len(words) <= ends or len(rest) < len(fields):
        raise NotUnderstood(line, f'too little for {kind.word}: {form_of(kind)}')
    values = {place: value(word, kind.fields[place].quantity, line) for place, word in zip(fields, rest)}
    rest = rest[len(fields):]
    options = {field.option: place for place, field in enumerate(kind.fields) if field.option}
    while rest:
        if rest[0].lower() not in options or options[rest[0].lower()] in values or len(rest) < 2:
            raise NotUnderstood(line, f"'{rest[0]}' is not understood here: {form_of(kind)}")
        values[options[rest[0].lower()]] = value(rest[1], TIME, line)
        rest = rest[2:]
    return Element(line, name, kind, tuple(node(word, line) for word in words[1:1 + ends]), values)


def head(text, line, words):
    """title, step, time, steps, limit: each once."""
    key = words[0].lower()
    if key == 'title':
        text.title = ' '.join(words[1:])
        return
    if getattr(text, key):
        raise NotUnderstood(line, f'a second `{key}`; the first is in line {getattr(text, key)[0]}')
    rest = quantities(words[1:])
    if len(rest) != 1:
        raise NotUnderstood(line, f'`{key}` has one value')
    if key == 'steps':
        if not re.fullmatch('[1-9][0-9]*', rest[0]):
            raise NotUnderstood(line, f"'{rest[0]}' is no number of steps")
        text.steps = (line, int(rest[0]))
    else:
        setattr(text, key, (line, value(rest[0], HEAD[key], line)))


def understood(lines):
    """A friendly text, by its lines."""
    text = Friendly()
    for number, line in enumerate(lines, 1):
        words = line.split('#', 1)[0].split()
        if not words:
            continue
        name = ''
        if words[0].endswith(':'):
            name, words = a_name(words[0][:-1], number, 'branch'), words[1:]
        if words and words[0].upper() in BY_WORD:
            text.elements.append(element(number, name, words))
        elif words and not name and words[0].lower() in HEADS:
            head(text, number, words)
        else:
            raise NotUnderstood(number, (f"'{words[0]}'" if words else 'the line') + ' is not understood: a line begins with '
                                + ', '.join(HEADS + tuple(kind.word for kind in KINDS)) + ', or with a name and a colon')
    return complete(text, len(lines))


def complete(text, last):
    if not text.step:
        raise NotUnderstood(last, '`step` is missing, the length of a step: step 1us')
    if bool(text.time) == bool(text.steps):
        raise NotUnderstood(last, 'how long the run is: either `time 20ms` or `steps 20000`')
    names = {}
    for one in text.elements:
        if one.name and names.setdefault(one.name, one.line) != one.line:
            raise NotUnderstood(one.line, f"'{one.name}' is the name of line {names[one.name]} already")
    clash = {end for one in text.elements for end in one.nodes} & set(names)
    if clash:
        raise NotUnderstood(names[min(clash)], f"'{min(clash)}' is a node's name too: give the branch another")
    return text
