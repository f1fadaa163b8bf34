"""The pages: commands of README.md and docs/DESK.md do what stands under them, every verb and option is told, and the example in Python says what it should."""
import os
import re
import shlex
import shutil
import subprocess
import sys
import unittest

from common import TOP, WORK, emt as command, saved, text

PAGES = ('README.md', 'docs/DESK.md')


def blocks(page):
    """The blocks of a page, lines set in by four spaces."""
    with open(os.path.join(TOP, page), encoding='utf-8') as file:
        return [[line[4:] for line in block.split('\n')] for block in re.findall(r'(?:^    .*\n)+', file.read(), re.MULTILINE) for block in [block.rstrip('\n')]]


def needs(words):
    """Why a command cannot be run here, or ''."""
    if words[0] == 'plot' and not shutil.which('gnuplot'):
        return 'gnuplot'
    if words[0] == 'report' and not os.path.exists('/usr/share/javascript/dygraphs/dygraph.min.js'):
        return 'libjs-dygraphs'
    return ''


class Commands(unittest.TestCase):
    def test_commands(self):
        run = 0
        for page in PAGES:
            found = blocks(page)
            for place, block in enumerate(found):
                for line in block:
                    words = shlex.split(line, comments=True)
                    if not words or words[0] != 'tools/emt' or needs(words[1:]):
                        continue
                    if '>' in words:
                        words = words[:words.index('>')]
                    status, out, err = command(*(word.replace('/tmp/', WORK + '/') for word in words[1:]), folder=TOP)
                    self.assertEqual(status, 0, (page, line, err))
                    run += 1
                    if len(block) == 1 and place + 1 < len(found) and not found[place + 1][0].startswith('tools/'):
                        told = out.decode().replace(WORK + '/', '/tmp/').split('\n')
                        for due in (line for line in found[place + 1] if line and line.strip() != '..'):
                            self.assertIn(due, told, page)
        self.assertGreaterEqual(run, 8)

    def test_a_mistake(self):
        """The block that shows one is what is printed."""
        saved('study.txt', text('study 1000 1 0\nVS 1 5 1 0\nR 1 2 1000\nR 2 3 1000\nC 3 0 13370000'))
        told = command('check', 'study.txt')[1].decode().rstrip('\n').split('\n')
        for page in PAGES:
            self.assertIn(told, blocks(page), page)

    def test_everything_is_told(self):
        with open(os.path.join(TOP, 'docs', 'DESK.md'), encoding='utf-8') as file:
            page = file.read()
        verbs = re.findall(r'^    ([a-z]+) ', command('--help')[1].decode(), re.MULTILINE)
        self.assertEqual(verbs, ['check', 'run', 'make', 'plot', 'report', 'csv'])
        for verb in verbs:
            self.assertIn(f'`emt {verb} ', page)
            for option in set(re.findall(r'--[a-z-]+', command(verb, '--help')[1].decode())) - {'--help'}:
                self.assertIn(option, page, verb)
        for name in os.listdir(os.path.join(TOP, 'desk', 'emt')):
            module = name.split('.')[0]
            if module not in ('__init__', '__pycache__'):
                self.assertRegex(page, rf'\b{module}\b', name)

    def test_the_example(self):
        told = subprocess.run([sys.executable, os.path.join(TOP, 'examples', 'caller.py')], capture_output=True, text=True, env=dict(os.environ, PYTHONPATH=os.path.join(TOP, 'desk')))
        self.assertEqual((told.stdout.split('\n')[0], told.stderr), ('node 2 after step 1: 50.0 V', ''))
        self.assertIn('line 2: VALUE (3)', told.stdout)
