"""What the tests of the desk share: texts with spaces for tabs, the command with its outputs, studies by dice."""
import io
import os
import random
import subprocess
import sys

TOP = os.path.dirname(os.path.dirname(os.path.dirname(os.path.abspath(__file__))))
sys.dont_write_bytecode = True
sys.path.insert(0, os.path.join(TOP, 'desk'))
WORK = os.environ['DESK_WORK']  # a scratch folder, given by tests/desk.sh
STUDIES = os.path.join(TOP, 'studies')
COUNT = int(os.environ.get('DESK_COUNT', '250'))  # of each kind of random texts


def text(words):
    """Lines with their fields parted by spaces, as a study text."""
    return '\n'.join('\t'.join(line.split()) for line in words.strip().split('\n')).encode() + b'\n'


def saved(name, content):
    path = os.path.join(WORK, name)
    with open(path, 'wb') as file:
        file.write(content if isinstance(content, bytes) else content.encode())
    return path


def emt(*words, given=b'', folder=WORK):
    """The command, without a start of Python; answers its status, its standard output as bytes, and its standard error as text."""
    from emt.command import main
    kept, before = (sys.stdin, sys.stdout, sys.stderr), os.getcwd()
    sys.stdin, sys.stdout, sys.stderr = (io.TextIOWrapper(io.BytesIO(piece)) for piece in (given, b'', b''))
    os.chdir(folder)
    try:
        try:
            status = main(list(words))
        except SystemExit as end:
            status = end.code
        sys.stdout.flush()
        sys.stderr.flush()
        return status, sys.stdout.buffer.getvalue(), sys.stderr.buffer.getvalue().decode()
    finally:
        sys.stdin, sys.stdout, sys.stderr = kept
        os.chdir(before)


def started(words):
    """The command as a user starts it, in a shell: its status, outputs as text."""
    told = subprocess.run(['bash', '-c', 'set -o pipefail; ' + words.replace('emt ', os.path.join(TOP, 'tools', 'emt') + ' ', 1)], capture_output=True, cwd=WORK, text=True)
    return told.returncode, told.stdout, told.stderr


def studies():
    return sorted(os.path.join(STUDIES, name) for name in os.listdir(STUDIES) if name.endswith('.txt'))


def random_study(dice):
    """A study text that is mostly taken: a few nodes, branches of every kind, sources."""
    step, nodes = dice.choice([1, 100, 1000, 12345]), dice.randint(2, 8)
    lines = [f'study {step} {dice.randint(1, 40)} {dice.choice([0, 10 ** 9, 10 ** 12, 10 ** 15])}']
    for _ in range(dice.randint(1, 12)):
        one, other = dice.sample(range(nodes + 1), 2)
        far = dice.sample(range(1, nodes + 1), 2)
        start = dice.randint(1, 30)
        lines.append(dice.choice([
            f'R {one} {other} {dice.randint(1000, 10 ** 7)}', f'L {one} {other} {dice.randint(step, 10 ** 8)}', f'C {one} {other} {dice.randint(1, max(1, 400 * step))}',
            f'LINE {far[0]} {far[1]} {dice.randint(10 ** 4, 10 ** 6)} {dice.randint(step, 20 * step)}', f'{dice.choice(["SW", "SWT"])} {one} {other} 1000 {start} {start + dice.randint(1, 20)}',
            f'VC {far[0]} {dice.randint(-10 ** 6, 10 ** 6)} {start} {dice.randint(1, 10 ** 5)}',
            f'VS {far[0]} {dice.randint(-10 ** 6, 10 ** 6)} {start} {dice.randint(0, 5)}', f'IS {far[0]} {dice.randint(-10 ** 12, 10 ** 12)} {start} {dice.randint(0, 5)}']))
    return text('\n'.join(lines))


def dice(seed):
    return random.Random(seed)
