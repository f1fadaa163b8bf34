#!/usr/bin/env python3
"""studies/reclosing beside its closed form: a wave between a source behind a resistor and an open end, by the number of its returns."""
from closed_form import Study, Told, listing

study = Study(__file__)
v, _ = listing()
told = Told()
V = study.rows["VS"][0][1]


def line(what, sending, far, before):
    """The line between these nodes, which rests at the voltage `before` when it is closed on."""
    Z, T = next(row[2:4] for row in study.rows["LINE"] if row[0] == sending)
    switch = next(row for row in study.rows["SW"] if row[0] == 1 and row[1] == sending)
    R, closing = switch[2:4]
    q = round(T / study.step)
    E = (V - before) * Z / (Z + R)  # the wave that sets out
    r = (R - Z) / (R + Z)  # and what the source throws back of one that returns

    def returned(n):
        """n waves that have come back: the sum of r^j for j below n."""
        return (1 - r**n) / (1 - r)

    def far_end(k):
        arrived = (k - closing + q) // (2 * q)
        return before + 2 * E * returned(arrived)

    def sending_end(k):
        arrived = (k - closing) // (2 * q)
        return before + E + E * (1 + r) * returned(arrived)

    steps = range(closing, len(v[far]))
    told.value(f"{what}, far end, crest", max(v[far]), before + 2 * E, "kV", 1e3)
    told.wave(f"{what}, far end", v[far], far_end, steps)
    told.wave(f"{what}, sending end", v[sending], sending_end, steps)


line("no charge", 3, 4, 0.0)
line("trapped charge", 5, 6, -V)
line("trapped charge, closing resistor", 7, 8, -V)
told.end(0.03)
