"""Reads a study of two resistors, runs it and prints the voltage between them: 50.0 V.

In a clone: PYTHONPATH=desk python3 examples/caller.py. Installed by tools/install PREFIX: PYTHONPATH=PREFIX/lib/python3/dist-packages.
"""
import emt

result = emt.run(b'study\t1000\t1\t0\nVS\t1\t1000\t1\t0\nR\t1\t2\t2000\nR\t2\t0\t2000\n')
print(f'node 2 after step {result.steps}: {result.v[2][-1] / 10} V')

try:
    emt.run(b'study\t1000\t1\t0\nC\t1\t0\t13370000\n')
except emt.Refused as refused:
    print(f'line {refused.line}: {refused.name} ({refused.number}), {refused.words}')
