"""The compiled calls, by ctypes over libemt.so: every number of a solution comes from here.

`Memory` lends what the calls work on (include/emt.h). Where the library is: EMT_LIBRARY, or libemt.so in lib/ or target/sharedlib/ of a folder above this
package, or where the system looks. EMT_BRIDGE=COMMAND asks a program of its own in place of a library (bridge.py), for processors that libemt.so is not for.
"""
import ctypes
import ctypes.util
import os
import platform
from ctypes import POINTER, byref, c_int64, c_size_t, c_uint8, c_uint64

from . import bridge

VERSION = '0.6.0'  # of include/emt.h; a library must have the first two numbers
NETWORK_WORDS, RECORD_WORDS, STORE_WORDS, TEXT_BYTES, WRITE_BYTES = 1024, 1024, 4096, 65536, 8192
LIST_BYTES = 1 << 20  # of one piece of a listing
NONE, MORE, STOPPED = 2, 100, 101  # of the answers: there is no such node or branch; emt_list's own two
LATCHES = 368  # where the records have a word for each row: of a breaker the step after which it parted

WORDS, BYTES, NUMBER = (POINTER(c_int64), c_size_t), (POINTER(c_uint8), c_size_t), (POINTER(c_uint64),)
SIGNATURES = {
    'emt_read': BYTES + WORDS + NUMBER,
    'emt_reset': 4 * WORDS,
    'emt_advance': 4 * WORDS + (c_uint64,) + NUMBER,
    'emt_node': 2 * WORDS + (c_uint64, POINTER(c_int64)) + 2 * NUMBER,
    'emt_areas': WORDS + NUMBER,
    'emt_area': WORDS + (c_uint64,) + NUMBER,
    'emt_row': WORDS + (c_uint64,) + NUMBER,
    'emt_list': 4 * WORDS + BYTES + 4 * NUMBER,
    'emt_write': WORDS + BYTES + NUMBER,
}


class NoLibrary(Exception):
    """There is no library, or one that cannot be loaded."""


def found(name):
    """Files of this name in lib/ or target/sharedlib/ of the folders above this package."""
    folder, paths = os.path.dirname(os.path.abspath(__file__)), []
    for _ in range(5):
        folder = os.path.dirname(folder)
        paths += [os.path.join(folder, *place, name) for place in ((), ('lib',), ('target', 'sharedlib'))]
    return [path for path in paths if os.path.exists(path)]


def library_path():
    """The library's file, or None."""
    return os.environ.get('EMT_LIBRARY') or next(iter(found('libemt.so')), None) or ctypes.util.find_library('emt')


def bridge_path():
    """The bridge's command where one is named, or where the library is for another processor."""
    if os.environ.get('EMT_BRIDGE') or platform.machine() == 'x86_64':
        return os.environ.get('EMT_BRIDGE')
    return next(iter(found('emt-bridge')), None)


def load():
    """The library, with the calls' signatures."""
    if bridge_path():
        return bridge.Bridge(bridge_path())
    path = library_path()
    if not path:
        raise NoLibrary('no libemt.so: tools/sharedlib makes it (and proves the calls first), tools/install puts it in place; EMT_LIBRARY=PATH names another')
    try:
        library = ctypes.CDLL(path)
    except OSError as problem:
        raise NoLibrary(f'{path} cannot be loaded: {problem}') from None
    tell = getattr(library, 'emt_version', None)
    if tell is None:
        raise NoLibrary(f'{path} is no libemt.so: it has no emt_version')
    tell.restype = ctypes.c_char_p
    if tell().decode().split('.')[:2] != VERSION.split('.')[:2]:
        raise NoLibrary(f'{path} is of version {tell().decode()}, and this is emt {VERSION}: words, calls or kinds of lines differ')
    for name, types in SIGNATURES.items():
        call = getattr(library, name)
        call.argtypes, call.restype = types, c_uint64
    return library


_library = None


def calls():
    global _library
    if _library is None:
        _library = load()
    return _library


def lent(words):
    return (c_int64 * words)()


class Memory:
    """What the caller lends: a network, and the records and line stores of a run over it."""

    def __init__(self):
        self.network, self.records = lent(NETWORK_WORDS), lent(RECORD_WORDS)
        self.froms, self.tos = lent(STORE_WORDS), lent(STORE_WORDS)

    def _all(self):
        return (self.network, NETWORK_WORDS, self.records, RECORD_WORDS, self.froms, STORE_WORDS, self.tos, STORE_WORDS)

    def read(self, text):
        """Answers the number, 0 where the text is taken, and the line."""
        line = c_uint64()
        held = (c_uint8 * max(1, len(text))).from_buffer_copy(text or b'\0')
        return calls().emt_read(held, len(text), self.network, NETWORK_WORDS, byref(line)), line.value

    def reset(self):
        return calls().emt_reset(*self._all())

    def advance(self, area):
        place = c_uint64()
        return calls().emt_advance(*self._all(), area, byref(place)), place.value

    def list(self, out):
        """Lists into a buffer: the number, how many bytes, and area, number and place of a stop."""
        told = [c_uint64() for _ in range(4)]
        answer = calls().emt_list(*self._all(), out, len(out), *map(byref, told))
        return (answer, *(word.value for word in told))

    def node(self, node):
        """The number, and a node's voltage, its peak and the peak's first step."""
        voltage, peak, step = c_int64(), c_uint64(), c_uint64()
        answer = calls().emt_node(self.network, NETWORK_WORDS, self.records, RECORD_WORDS, node, byref(voltage), byref(peak), byref(step))
        return answer, voltage.value, peak.value, step.value

    def parted(self, place):
        """Of the row in this place, from 0, the step after which it parted: a word of the records, 0 but of a breaker that has."""
        return self.records[LATCHES + place]

    def areas(self):
        """The number, and how many areas the network has."""
        return self._layout(calls().emt_areas)

    def area(self, node):
        """The number, and a node's area, from 1."""
        return self._layout(calls().emt_area, node)

    def row(self, branch):
        """The number, and a branch's row, from 1: sources have rows too."""
        return self._layout(calls().emt_row, branch)

    def _layout(self, call, *asked):
        told = c_uint64()
        return call(self.network, NETWORK_WORDS, *asked, byref(told)), told.value

    def write(self):
        out, written = (c_uint8 * WRITE_BYTES)(), c_uint64()
        answer = calls().emt_write(self.network, NETWORK_WORDS, out, WRITE_BYTES, byref(written))
        return answer, bytes(out[:written.value])


def version():
    """The version, and the library's or the bridge's file."""
    return f'emt {VERSION} over {calls()._name}'
