#!/usr/bin/env python3
"""studies/bank beside its closed form: L, R and C in series, switched onto a constant voltage."""
from math import atan2, cos, exp, pi, sin, sqrt

from closed_form import Study, Told, listing

study = Study(__file__)
V = study.rows["VS"][0][1]
L = study.between("L", 1, 2)[0]
C = sum(study.between("C", 3, 0))
R, closing = study.rows["SW"][0][2:4]
a = R / (2 * L)
w = sqrt(1 / (L * C) - a * a)


def time(k):
    """A switch that closes at a step acts half a step before it: the trapezoidal rule takes the mean of the voltage on L before and after."""
    return (k - closing + 0.5) * study.step


def voltage(t):
    return V * (1 - exp(-a * t) * (cos(w * t) + a / w * sin(w * t)))


def current(t):
    return V / (w * L) * exp(-a * t) * sin(w * t)


v, i = listing()
told = Told()
steps = range(closing, len(v[3]))
told.value("bank, crest", max(v[3]), voltage(pi / w), "kV", 1e3)
told.wave("bank", v[3], lambda k: voltage(time(k)), steps)
told.value("inrush, crest", max(i[1]), current(atan2(w, a) / w), "kA", 1e3)
told.wave("inrush", i[1], lambda k: current(time(k)), steps)
told.end(0.03)
