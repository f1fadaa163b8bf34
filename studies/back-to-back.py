#!/usr/bin/env python3
"""studies/back-to-back beside its closed form: two banks and an inductance in series, one bank charged."""
from math import atan2, cos, exp, pi, sin, sqrt

from closed_form import Study, Told, listing

study = Study(__file__)
V = study.rows["VS"][0][1]
L = study.between("L", 2, 3)[0]
C1, C2 = sum(study.between("C", 1, 2)), sum(study.between("C", 4, 0))
R = 1 / sum(1 / each for each in study.between("SW", 3, 4))
closing = study.rows["SW"][0][3]
C = C1 * C2 / (C1 + C2)
a = R / (2 * L)
w = sqrt(1 / (L * C) - a * a)


def time(k):
    """As in bank.py: half a step before the closing step."""
    return (k - closing + 0.5) * study.step


def current(t):
    return V / (w * L) * exp(-a * t) * sin(w * t)


def voltage(t):
    """Of the bank that is switched on: its share of the charge."""
    return V * C / C2 * (1 - exp(-a * t) * (cos(w * t) + a / w * sin(w * t)))


v, i = listing()
inductor = len(study.between("C", 1, 2)) + 1  # its branch number: behind those of the first bank
told = Told()
steps = range(closing, len(v[4]))
told.value("inrush, crest", max(i[inductor]), current(atan2(w, a) / w), "kA", 1e3)
told.wave("inrush", i[inductor], lambda k: current(time(k)), steps)
told.value("second bank, crest", max(v[4]), voltage(pi / w), "kV", 1e3)
told.wave("second bank", v[4], lambda k: voltage(time(k)), steps)
told.end(0.03)
