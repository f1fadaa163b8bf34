"""The compiled calls in a program of their own, for a Python that cannot load libemt.so, as on Arm: there tests/callers/bridge.c runs under the kit's emulator.

A call is a block of 64-bit words that is written to the program and comes back as the call has left it. Word 0 is the call's number and then its answer, word 1
an area, node or branch, words 2 to 5 what is answered beside it; from word 6 on stand place and length of network, records, line stores, and text or buffer.
"""
import ctypes
import shlex
import subprocess
from array import array

NUMBERS = {'emt_read': 0, 'emt_reset': 1, 'emt_advance': 2, 'emt_node': 3, 'emt_areas': 4, 'emt_area': 5, 'emt_row': 6, 'emt_list': 7, 'emt_write': 8}
# which of the lent pieces a call has: 0 to 3 are words, 4 is bytes; and at which word its answers beside the number begin
LENT = {'emt_read': (4, 0), 'emt_reset': (0, 1, 2, 3), 'emt_advance': (0, 1, 2, 3), 'emt_node': (0, 1), 'emt_areas': (0,), 'emt_area': (0,), 'emt_row': (0,),
        'emt_list': (0, 1, 2, 3, 4), 'emt_write': (0, 4)}
ASKED = ('emt_advance', 'emt_node', 'emt_area', 'emt_row')  # calls that are given a number
HEAD = 16


class Gone(Exception):
    """The program has ended."""


class Bridge:
    """As a library of ctypes, as far as it is called here: lent arrays with their lengths, numbers, and references to answers."""

    def __init__(self, command):
        self._name = command
        self.process = subprocess.Popen(shlex.split(command), stdin=subprocess.PIPE, stdout=subprocess.PIPE)

    def __getattr__(self, name):
        if name not in NUMBERS:
            raise AttributeError(name)
        return lambda *given: self.call(name, given)

    def exchanged(self, sent, length):
        """What comes back of what is sent; a program that is gone says nothing."""
        try:
            self.process.stdin.write(sent)
            self.process.stdin.flush()
        except BrokenPipeError:
            pass
        back = self.process.stdout.read(length)
        if len(back) != length:
            raise Gone(f'{self._name} has ended, with status {self.process.wait()}')
        return back

    def call(self, name, given):
        pieces = LENT[name]
        lent, rest = given[:2 * len(pieces)], list(given[2 * len(pieces):])
        asked = rest.pop(0) if name in ASKED else 0
        answers = [one._obj for one in rest]
        block, places = array('q', [NUMBERS[name], asked] + [0] * (HEAD - 2)), {}
        for which, held, length in zip(pieces, lent[::2], lent[1::2]):
            places[which], block[6 + 2 * which], block[7 + 2 * which] = len(block), len(block), length
            bytes_ = bytes(held)
            block.frombytes(bytes_ + bytes(-len(bytes_) % 8))
        back = array('q', self.exchanged(array('Q', [len(block)]).tobytes() + block.tobytes(), 8 * len(block)))
        for which, held in zip(pieces, lent[::2]):
            ctypes.memmove(held, back[places[which]:].tobytes(), ctypes.sizeof(held))
        for word, answer in enumerate(answers, 2):
            answer.value = back[word]
        return back[0]
