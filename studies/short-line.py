#!/usr/bin/env python3
"""studies/short-line beside its closed form: a current that rises evenly, through L, C and R side by side and through an earthed line."""
from math import cos, exp, pi, sin, sqrt

from closed_form import Study, Told, listing

study = Study(__file__)
_, peak, start, rise = study.rows["IS"][0]
S = peak / (rise * study.step)
L, C, R = (study.between(word, 1, 2)[0] for word in ("L", "C", "R"))
Z, T = study.rows["LINE"][0][2:4]
a = 1 / (2 * R * C)
w = sqrt(1 / (L * C) - a * a)


def time(k):
    """The current starts from 0, without a jump: no half step."""
    return (k - start) * study.step


def source_side(t):
    return L * S * (1 - exp(-a * t) * (cos(w * t) + a / w * sin(w * t)))


def line_side(t):
    """A sawtooth: up by Z·S for two travel times, down for as long."""
    part = t % (4 * T)
    return Z * S * min(part, 4 * T - part)


v, _ = listing()
told = Told()
steps = range(start, len(v[2]))
source = [both - line for both, line in zip(v[2], v[1])]
told.value("line side, first crest", max(v[1]), line_side(2 * T), "kV", 1e3)
told.wave("line side", v[1], lambda k: line_side(time(k)), steps)
told.value("source side, crest", max(source), source_side(pi / w), "kV", 1e3)
told.wave("source side", source, lambda k: source_side(time(k)), steps)
told.wave("recovery voltage", v[2], lambda k: source_side(time(k)) + line_side(time(k)), steps)
told.end(0.03)
