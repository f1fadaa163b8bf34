#!/usr/bin/env python3
"""studies/arrester beside its closed form: the waves of a ramp between an arrester and an open end, and the rule U0 + 2·S·T for the highest voltage there."""
from functools import cache

from closed_form import Study, Told, listing

study = Study(__file__)
v, i = listing()
told = Told()
sources = {row[0]: row[1:] for row in study.rows["VS"]}


def circuit(number, feed, line, arrester):
    near, far, Z, T = line
    _, knee_node, slope, closing, _ = arrester
    knee = sources[knee_node][0]
    peak, start, rise = sources[feed[0]]
    wave = peak / 2  # what comes in: half of a source behind a resistor that is the line's surge impedance
    q, conducts = round(T / study.step), closing - start  # in steps, as all times n below: the travel time is a whole number of them

    @cache
    def back(n):
        """What the transformer has thrown back, one travel there and one back: an open end throws back the whole."""
        return onward(n - 2 * q) if n >= 2 * q else 0.0

    @cache
    def at_arrester(n):
        free = wave * min(n / rise, 1.0) + back(n)
        return free if n < conducts else (free * slope + knee * Z / 2) / (slope + Z / 2)

    def onward(n):
        """The wave that leaves for the transformer."""
        return at_arrester(n) - back(n) if n >= 0 else 0.0

    metres = round(T * 3e8)
    steepness = wave / (rise * study.step)
    steps = range(start, len(v[far]))
    first = closing + q  # where the arrester's answer arrives
    told.value(f"{metres} m: transformer, first crest, by the rule", v[far][first], min(2 * knee, knee + 2 * steepness * T), "kV", 1e3)
    told.wave(f"{metres} m: transformer", v[far], lambda k: 2 * onward(k - start - q), steps)
    told.wave(f"{metres} m: arrester", v[near], lambda k: at_arrester(k - start), steps)
    if min(i[3 * number + 3][closing:]) < 0:
        raise SystemExit(f"{metres} m: the arrester's current turns, and an arrester would not carry it")


for number, parts in enumerate(zip(study.rows["R"], study.rows["LINE"], study.rows["SW"])):
    circuit(number, *parts)
told.end(0.03)
