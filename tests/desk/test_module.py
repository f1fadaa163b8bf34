"""The module: reading, runs as arrays, refusals as exceptions, and what it shares with the C header."""
import os
import re
import subprocess
import tempfile
import unittest
from unittest import mock

from common import COUNT, STUDIES, TOP, WORK, dice, random_study, studies, text

import emt
from emt import kinds, library, words
from emt.bridge import Bridge, Gone


def header():
    with open(os.path.join(TOP, 'include', 'emt.h'), encoding='utf-8') as file:
        return file.read()


class Reading(unittest.TestCase):
    def test_what_is_read_is_written(self):
        for path in studies():
            network = emt.read(path)
            self.assertEqual(network.write(), network.text)

    def test_rows(self):
        network = emt.read(text('study 1000 1 7\nVS 1 -1000 1 0\nR 1 2 2000\nLINE 2 3 400000 2500\nSW 3 0 1000 4 5'))
        self.assertEqual((network.step, network.steps, network.limit, network.nodes, network.held), (1000, 1, 7, 3, {1}))
        self.assertEqual([(row.word, row.fields, row.line, row.branch) for row in network.rows],
                         [('VS', (1, -1000, 1, 0), 2, None), ('R', (1, 2, 2000), 3, 1), ('LINE', (2, 3, 400000, 2500), 4, 2), ('SW', (3, 0, 1000, 4, 5), 5, 3)])

    def test_refused(self):
        for given, number, name, line in ((b'', 1, 'FORM', 1), (text('study 1 1 0\nR 1 33 1000'), 2, 'NODE', 2), (b'x' * 65537, 7, 'SIZE', 0)):
            with self.assertRaises(emt.Refused) as caught:
                emt.read(given)
            self.assertEqual((caught.exception.number, caught.exception.name, caught.exception.line), (number, name, line))
            self.assertIn(caught.exception.words, str(caught.exception))

    def test_no_file(self):
        with self.assertRaises(FileNotFoundError):
            emt.read('/no/such/study.txt')

    def test_layout(self):
        network = emt.read(text('study 1000 1 0\nVS 1 5 1 0\nR 1 4 2000\nLINE 4 3 400000 2500\nIS 3 5 1 0\nSW 3 2 1000 4 5'))
        self.assertEqual((network.nodes, network.area_count, network.areas()), (4, 2, [[1, 4], [2, 3]]))
        self.assertEqual([network.area(node) for node in (1, 2, 3, 4)], [1, 2, 2, 1])
        self.assertEqual([row.line for row in network.branches], [3, 4, 6])
        self.assertEqual([row.line for row in network.sources], [2, 5])
        alone = emt.read(text('study 1000 1 0'))
        self.assertEqual((alone.nodes, alone.area_count, alone.areas(), alone.rows, alone.branches), (0, 0, [], [], []))

    def test_layout_of_random_studies(self):
        """Branch numbers count the text's lines but its sources'; an area's nodes are those that other branches than lines join, and no more."""
        roll = dice(3)
        for _ in range(COUNT):
            given = random_study(roll)
            try:
                network = emt.read(given)
            except emt.Refused:
                continue
            words = [line.split(b'\t')[0] for line in given.splitlines()]
            lines = [place for place, word in enumerate(words, 1) if word not in (b'study', b'VS', b'IS', b'VC')]
            self.assertEqual([(row.branch, row.line) for row in network.branches], list(enumerate(lines, 1)), given)
            joined = [{node} for node in range(1, network.nodes + 1)]
            for row in network.branches:
                if row.word != 'LINE' and 0 not in row.ends:
                    ends = [nodes for nodes in joined if nodes & set(row.ends)]
                    joined = [nodes for nodes in joined if nodes not in ends] + [set().union(*ends)]
            self.assertEqual(network.areas(), sorted(map(sorted, joined)), given)

    def test_areas_are_the_librarys(self):
        roll = dice(1)
        for _ in range(COUNT):
            given = random_study(roll)
            try:
                network = emt.read(given)
            except emt.Refused:
                continue
            memory, area = network.memory(), 1
            while memory.advance(area)[0] != 11:
                area += 1
            self.assertEqual((network.area_count, len(network.areas())), (area - 1, area - 1), given)


class Running(unittest.TestCase):
    def listed(self, result):
        """The lines that a run's arrays stand for."""
        lines = []
        for step in range(1, result.steps + 1):
            lines += [f'v\t{step}\t{node}\t{column[step - 1]}' for node, column in result.v.items()]
            lines += [f'i\t{step}\t{branch}\t{column[step - 1]}' + (f'\t{result.i_to[branch][step - 1]}' if branch in result.i_to else '') for branch, column in result.i.items()]
        stop = result.stop
        lines.append(f'stop\t{stop.step}\t{stop.area}\t{stop.number}\t{stop.place}' if stop else f'done\t{result.steps}')
        return '\n'.join(lines) + '\n'

    def test_arrays_are_the_listing(self):
        for path in studies():
            result = emt.outcome(path)
            self.assertEqual(self.listed(result).encode(), b''.join(emt.Listing(result.network).pieces()), path)

    def test_arrays_of_random_studies(self):
        roll, ends = dice(2), set()
        for _ in range(COUNT):
            given = random_study(roll)
            try:
                result = emt.outcome(given)
            except emt.Refused:
                continue
            ends.add(result.stop.number if result.stop else 0)
            self.assertEqual(self.listed(result).encode(), b''.join(emt.Listing(result.network).pieces()), given)
        self.assertLessEqual({0, 14, 16}, ends)

    def test_peaks_are_of_the_arrays(self):
        for path in studies():
            result = emt.outcome(path)
            for node, column in result.v.items():
                largest = max(map(abs, column))
                self.assertEqual(result.peaks[node], (largest, 1 + list(map(abs, column)).index(largest)), (path, node))

    def test_units(self):
        result = emt.run(text('study 1000 2 0\nVS 1 1001 1 0\nR 1 0 2000'))
        self.assertEqual(list(result.time), [1000, 2000])
        self.assertEqual((list(result.v[1]), list(result.i[1])), ([1001, 1001], [500500000000] * 2))
        self.assertEqual((list(result.volts(1)), list(result.amperes(1)), list(result.seconds())), ([100.1] * 2, [50.05] * 2, [1e-6, 2e-6]))

    def test_stopped(self):
        with self.assertRaises(emt.Stopped) as caught:
            emt.run(os.path.join(STUDIES, 'floating.txt'))
        stop = caught.exception
        self.assertEqual((stop.number, stop.name, stop.step, stop.area, stop.place, stop.place_is), (14, 'FLOATING', 101, 1, 3, 'node'))
        self.assertEqual((stop.run.steps, len(stop.run.v[3])), (100, 100))

    def test_few_words_a_step(self):
        """A step of one line only, whose words are fewer than those of the last line."""
        self.assertEqual(list(emt.outcome(text('study 1 9 0\nIS 1 5 1 0')).v[1]), [])
        self.assertEqual(list(emt.run(text('study 1 3 0\nVS 1 5 2 0')).v[1]), [0, 5, 5])

    def test_parted(self):
        """Of breakers by dice, what the listing shows: no current from the step after the one it parted after on, and there a zero or a change of sign."""
        roll, seen = dice(11), {'parted': 0, 'not': 0}
        for _ in range(2 * COUNT):
            load = roll.choice([f'R 2 0 {roll.randint(10 ** 5, 10 ** 8)}', f'L 2 0 {roll.randint(10 ** 6, 10 ** 9)}', f'C 2 0 {roll.randint(10 ** 3, 10 ** 6)}\nR 2 0 1000000'])
            closes = roll.randint(1, 9)
            result = emt.outcome(text(f'study {roll.choice([10000, 200000, 10 ** 6])} 60 {10 ** 15}\nVC 1 {roll.randint(-10 ** 5, 10 ** 5)} {roll.randint(1, 5)} {roll.randint(10000, 10 ** 5)}\n'
                                      f'SW 1 2 1000 {closes} {closes + roll.randint(1, 40)}\n{load}'))
            self.assertEqual(set(result.parted), {row.branch for row in result.network.branches if row.word == 'SW'})
            for branch, after in result.parted.items():
                closes, opens = result.network.branches[branch - 1].fields[3:5]
                current = [0] + list(result.i[branch])
                zeros = [step for step in range(max(opens - 1, closes + 1), result.steps + 1) if current[step] == 0 or current[step] * current[step - 1] < 0]
                if after <= result.steps:
                    self.assertEqual(after, min(zeros, default=0))
                seen['parted' if after else 'not'] += 1
        self.assertTrue(min(seen.values()) > 10, seen)

    def test_a_study_alone(self):
        result = emt.run(text('study 5 3 0'))
        self.assertEqual((result.steps, list(result.time), result.v), (3, [5, 10, 15], {}))


class Bridged(unittest.TestCase):
    """Through the program that is asked over a pipe every call gives what it gives by itself."""

    def test_every_call(self):
        kept, roll = library._library, dice(9)
        library.calls()
        direct, bridge = library._library, Bridge(os.environ['DESK_BRIDGE'])
        try:
            for given in [b'', b'x' * 65537] + [random_study(roll) for _ in range(COUNT // 20)]:
                told = []
                for library._library in (direct, bridge):
                    memory = library.Memory()
                    told.append([memory.read(given), memory.reset(), memory.advance(1), memory.node(1), memory.areas(), memory.area(2), memory.row(2), memory.row(99),
                                 memory.reset(), memory.write()])
                    out = (library.c_uint8 * 5000)()
                    told[-1] += [memory.list(out), bytes(out), bytes(memory.records), bytes(memory.froms), bytes(memory.tos), bytes(memory.network)]
                self.assertEqual(told[0], told[1], given)
        finally:
            library._library = kept
            bridge.process.stdin.close()
            bridge.process.stdout.close()
            bridge.process.wait()


    def test_a_bridge_that_has_ended(self):
        for command in ('true', 'sh -c "exit 7"'):
            with self.assertRaises(Gone) as caught:
                Bridge(command).emt_areas((library.c_int64 * 1024)(), 1024)
            self.assertIn('has ended, with status', str(caught.exception))


class Tables(unittest.TestCase):
    """The tables of kinds, limits, lengths and words are those of the C header."""

    def test_kinds(self):
        found = dict(re.findall(r'EMT_([A-Z]+) = ([0-9]+)', re.search(r'enum \{ EMT_R[^}]*\}', header()).group()))
        self.assertEqual({kind.word: str(kind.number) for kind in kinds.KINDS}, found)
        self.assertEqual({kind.word: kind.branch for kind in kinds.KINDS}, {word: word not in ('VS', 'IS', 'VC') for word in found})

    def test_latches(self):
        self.assertIn(f'#define EMT_LATCH(r) ({library.LATCHES} + (r))', header())

    def test_numbers(self):
        macros = dict(re.findall(r'#define EMT_([A-Z_]+) +(?:INT64_C\()?([0-9]+)\)?', header()))
        fields = {(kind.word, field.name): field for kind in kinds.KINDS + (kinds.STUDY,) for field in kind.fields}
        for name, number in (
                ('NODES', kinds.NODES), ('BRANCHES', kinds.BRANCHES), ('SOURCES', kinds.SOURCES), ('TEXT_BYTES', kinds.TEXT_BYTES), ('STORE_WORDS', kinds.SLOTS),
                ('CONDUCTANCE_MOST', kinds.CONDUCTANCE_MOST), ('NETWORK_WORDS', library.NETWORK_WORDS), ('RECORD_WORDS', library.RECORD_WORDS),
                ('STORE_WORDS', library.STORE_WORDS), ('WRITE_BYTES', library.WRITE_BYTES), ('STEP_LENGTH_MOST', fields['study', 'step length'].high),
                ('STEPS_MOST', fields['study', 'steps'].high), ('LIMIT_MOST', fields['study', 'balance limit'].high), ('MILLIOHM_LEAST', kinds.OHMS.low),
                ('MILLIOHM_MOST', kinds.OHMS.high), ('NANOHENRY_MOST', fields['L', 'inductance'].high), ('PICOFARAD_MOST', fields['C', 'capacitance'].high),
                ('TRAVEL_MOST', fields['LINE', 'travel time'].high), ('OPEN_MOST', kinds.OPEN.high), ('RISE_MOST', kinds.RISE.high), ('VOLTAGE_MOST', kinds.VOLTS.high),
                ('INJECTION_MOST', kinds.AMPERES.high), ('FREQUENCY_MOST', fields['VC', 'frequency'].high)):
            self.assertEqual(int(macros[name]), number, name)
        self.assertGreaterEqual(library.LIST_BYTES, int(macros['LIST_BYTES']))

    def test_ends_of_fields(self):
        """Each field at its ends is taken, and one past them is refused: by the reader itself."""
        samples = {'R': 'R 1 0 {}', 'L': 'L 1 0 {}', 'C': 'C 1 0 {}', 'LINE': 'LINE 1 2 {} {}', 'SW': 'SW 1 0 {} {} {}', 'VS': 'VS 1 {} {} {}', 'IS': 'IS 1 {} {} {}',
                   'VC': 'VC 1 {} {} {}', 'SWT': 'SWT 1 0 {} {} {}'}
        middle = {'travel time': 10 ** 6, 'first closed step': 1, 'first open step': 2, 'opening step': 2, 'first step': 1, 'steps of rise': 0, 'peak': 1, 'frequency': 50000}
        for kind in kinds.KINDS:
            fields = [field for field in kind.fields if field.name not in ('from', 'to', 'node')]
            good = [middle.get(field.name, 10 ** 6) for field in fields]
            for place, field in enumerate(fields):
                for number, taken in ((field.low, True), (field.high, True), (field.low - 1, False), (field.high + 1, False)):
                    if number < 0 and field.low >= 0 or kind.word in 'LC' and taken or field.name == 'travel time' and number < 10 ** 6:
                        continue
                    values = list(good)
                    values[place] = number
                    if field.name == 'first closed step':
                        values[place + 1] = kinds.OPEN.high
                    if field.name == 'travel time' and taken:
                        values[place] = 10 ** 9
                    answer = library.Memory().read(text('study 1000000 1 0\n' + samples[kind.word].format(*values)))[0]
                    self.assertEqual(answer, 0 if taken else 3, (kind.word, field.name, number))

    def test_words(self):
        """Names and numbers as the header has them; where there are words for C programs, the same words."""
        named = {name: int(number) for name, number in re.findall(r'^    EMT_([A-Z]+) = ([0-9]+),', header(), re.MULTILINE)}
        self.assertEqual({row.name: row.number for row in words.TABLE}, {name: number for name, number in named.items() if 1 <= number <= 17})
        path = os.path.join(TOP, 'include', 'emt_words.c')
        if not os.path.exists(path):
            self.skipTest('no include/emt_words.c')
        with open(path, encoding='utf-8') as file:
            found = re.findall(r'\{EMT_([A-Z]+), "([A-Z]+)", "([a-z]*)", "([^"]*)"\}', file.read())
        self.assertEqual([(row.name, row.name, row.place, row.words) for row in words.TABLE], [row for row in found if 1 <= named.get(row[0], 0) <= 17])

    def refused_library(self, path):
        """What is said of a library that is not taken."""
        with mock.patch.dict(os.environ, EMT_LIBRARY=path), mock.patch.object(library, 'bridge_path', lambda: None), self.assertRaises(emt.NoLibrary) as caught:
            library.load()
        return str(caught.exception)

    def test_no_library(self):
        self.assertIn('cannot be loaded', self.refused_library('/no/such/libemt.so'))

    def test_another_library(self):
        """One of another version, whose words or kinds of lines differ, and one that is something else."""
        for source, said in (('const char *emt_version(void) { return "0.5.9"; }', f'is of version 0.5.9, and this is emt {library.VERSION}'), ('int other;', 'it has no emt_version')):
            path = os.path.join(tempfile.mkdtemp(dir=WORK), 'libemt.so')
            subprocess.run(['cc', '-shared', '-fPIC', '-x', 'c', '-o', path, '-'], input=source, text=True, check=True)
            self.assertIn(said, self.refused_library(path))

    def test_version(self):
        self.assertEqual(library.VERSION, re.search(r'#define EMT_VERSION "(.*)"', header()).group(1))
