"""What to watch in a study that is taken: where its results are coarser, or other, than a reader may think.

Each function looks at one thing and answers sentences, none where there is nothing to say. They judge values; of the run they look at what only it tells: how large
currents are beside their grains, when breakers parted, and what current a switch cut off.
"""
from math import exp, pi, sqrt

from . import times
from .kinds import BREAKER, STEPS_MOST, SWITCHES
from .quantities import CONDUCTANCE, CURRENT, TIME, about, count, said
from .study import may_part
from .understood import at, in_steps

RINGS, COARSE = 2, 0.2     # a step over so many time constants rings; over so many is coarse
LOSS_TOLD = 0.02           # of each half swing, by 1 Ω in its path
GRAINS_TOLD = 1000         # a current of fewer grains than this is told
ONE_OHM = 1000             # mΩ: the least of R and SW


def constant_words(constant, network, names, from_step):
    since = f' from {at(from_step, network)} on' if from_step > 1 else ''
    return f'{about(constant.seconds, "s")}, {constant.rule} of {names.branch(constant.row)}: {constant.words}{since}'


def step_facts(network, names, result):
    """The shortest time constant and the shortest travel time, in steps: told always."""
    facts, found = [], times.shortest(network, result.parted)
    if found:
        facts.append(f'shortest time constant {constant_words(found[0], network, names, found[1])}; {found[0].seconds / (network.step * 1e-9):.3g} steps')
    lines = [row for row in network.branches if row.word == 'LINE']
    if lines:
        row = min(lines, key=lambda one: one.fields[3])
        facts.append(f'shortest travel time {in_steps(row.fields[3], network.step)}, of {names.branch(row)}')
    return facts


def times_words(share):
    return f'{share:.3g}' if share < 1000 else count(round(share))


def step_length(network, names, result):
    found = times.shortest(network, result.parted)
    if not found:
        return []
    constant, from_step = found
    share = network.step * 1e-9 / constant.seconds
    if share <= COARSE:
        return []
    shortest = constant_words(constant, network, names, from_step)
    words = f'the step, {said(network.step, TIME)}, is {times_words(share)} times the shortest time constant ({shortest})'
    if share > RINGS:
        short = f'A step under {about(2 * constant.seconds, "s")} does not ring' if constant.seconds > 1e-9 else 'No step is short enough for it'
        return [f'{words}: what a jump brings into this branch rings from step to step and dies out slowly. {short}']
    return [f'{words}: what happens on this time is off by some {100 * share * share / 12:.2g} %. A fifth of it, {about(constant.seconds / 5, "s")}, is fine']


def undamped(network, names, result):
    """A C between held nodes and an L with nothing but L at its node have no time constant: what changes there rings for good."""
    fixed, told = network.held | {0}, []
    for group in network.groups():
        if group[0].word == 'C' and set(group[0].ends) <= fixed:
            told.append(f'{names.branch(group[0])}: between held nodes its current swings from step to step for good, once their voltage changes. '
                        'A resistor before it ends that')
    found, driven = {}, {row.ends[0] for row in network.sources if row.word == 'IS' and row.value}
    for step, _ in times.states(network, result.parted):
        for node in set(range(1, network.nodes + 1)) - fixed:
            words = {row.word for row in network.meeting(node) if network.closed(row, step, result.parted)}
            if words == {'L'} and node in driven:
                found.setdefault(node, step)
            elif words != {'L'}:
                driven.add(node)  # a current may flow through it when a switch leaves it to L alone
    return told + [f'node {names.node(node)} has nothing but L{f" from {at(step, network)} on" if step > 1 else ""}: its voltage swings from step to step, '
                   'once the current changes. A resistor or its stray capacitance beside the L ends that' for node, step in sorted(found.items())]


def travel_times(network, names, result):
    between = [row for row in network.branches if row.word == 'LINE' and row.fields[3] % network.step]
    if not between:
        return []
    listed = ', '.join(f'{names.branch(row)} ({in_steps(row.fields[3], network.step)})' for row in between)
    return [f'travel times between steps: {listed}. Each travel spreads a steep front over one step more; a step that divides the travel time spreads none']


def one_ohm(network, names, result):
    """1 Ω in the path of an L and C with a small √(L/C) damps what is not damped in the ideal circuit."""
    worst = {}
    for step, state in times.states(network, result.parted):
        for piece, capacitance, small in state.swinging():
            for resistor in small:
                rows = [row for row in resistor.rows if row.word != 'LINE' and row.value == ONE_OHM]
                impedance = sqrt(piece.value / capacitance)
                loss = 1 - exp(-pi * resistor.value / (2 * impedance))
                in_path = state.without(piece, small, resistor) != capacitance
                if len(rows) == len(resistor.rows) and loss > LOSS_TOLD and in_path and loss > worst.get(rows[0].branch, (0,))[0]:
                    worst[rows[0].branch] = (loss, rows, piece, capacitance, impedance, resistor.value)
    return [f'{names.branch(rows[0])}{f" and {len(rows) - 1} beside it" if len(rows) > 1 else ""}: {about(ohms, "Ω")} is not small beside √(L/C) = '
            f'{about(impedance, "Ω")} ({about(piece.value, "H")}, {about(capacitance, "F")}): each half swing loses some {100 * loss:.2g} %. '
            'More of them side by side have less'
            for loss, rows, piece, capacitance, impedance, ohms in worst.values()]


def grains(network, names, result):
    """Voltages are whole numbers of 0.1 V, so a branch's current moves by its conductance times 0.1 V; 1 S is 0.1 A."""
    told = []
    for group in network.groups():
        row = group[0]
        if not row.kind.branch:
            continue
        grain = network.conductance(row)
        largest = max((abs(current) for one in group for current in result.i[one.branch]), default=0)
        at_one_ohm = row.word in ('R',) + SWITCHES and row.value == ONE_OHM
        if largest and (at_one_ohm or (grain >= 10 ** 7 and largest < GRAINS_TOLD * grain)):
            told.append(f'{names.branch(row)}: its current comes in grains of {said(grain, CURRENT)} (0.1 V at {said(grain, CONDUCTANCE)}); '
                        f'the largest is {about_current(largest)}')
    return told


def about_current(number):
    return about(number * 1e-10, 'A', 4)


def cut_off(row, result):
    """The current that a timed switch cuts off when it opens; 0 where there is none, or the run does not come so far."""
    opens = row.fields[4] if row.word in SWITCHES and row.word != BREAKER else STEPS_MOST + 1
    return result.i[row.branch][opens - 2] if opens <= min(result.network.steps, result.steps + 1) else 0


def jumps_of(row, result):
    """The steps at which a row jumps, with a word for it: a switch that closes on a network no longer at rest or cuts off a current, a source that is there at once."""
    if row.word in SWITCHES:
        found = [('closing', row.fields[3])] if row.fields[3] > 1 else []
        return found + ([('opening', row.fields[4])] if cut_off(row, result) else [])
    at_once = row.word == 'VC' or (row.word in ('VS', 'IS') and row.fields[3] == 0)
    return [('', row.fields[2])] if at_once and row.value else []


def jumps(network, names, result):
    """A jump at step k is a rise over the step before it, so that L and C feel it half a step early."""
    areas = {network.area(max(row.ends)) for row in network.branches if row.word in ('L', 'C')}
    stirred = {node for node in range(1, network.nodes + 1) if network.area(node) in areas}
    found = [f'{names.place(group[0])}{word and " " + word} at {at(step, network)}' for group in network.groups() if set(group[0].ends) & stirred
             for word, step in jumps_of(group[0], result) if step <= network.steps]
    if not found:
        return []
    what, acts = ('a jump', 'It acts') if len(found) == 1 else ('jumps', 'Each acts')
    half = said(network.step * 5, TIME._replace(exponent=-10))
    return [f'{what} into L or C: {", ".join(found)}. {acts} as a rise over the step before, so half a step, {half}, early: beside a formula, count its time from there']


def breakers(network, names, result):
    """An SW that was told to open and did not part; one that parted at a zero of grains."""
    told = []
    for row in (group[0] for group in network.groups() if group[0].word == BREAKER):
        after, grain = result.parted[row.branch], network.conductance(row)
        if not after and may_part(row) <= result.steps:
            told.append(f'{names.branch(row)}: told to open at {at(row.fields[4], network)}, it was still closed when the run {"stopped" if result.stop else "ended"}: its current '
                        f'has no zero from step {count(may_part(row))} on. An SWT opens whatever its current is')
        elif 1 < after <= result.steps and result.i[row.branch][after - 1] == 0 != result.i[row.branch][after - 2]:
            told.append(f'{names.branch(row)}: it parted after {at(after, network)}, where its current was listed as 0, which is below half a grain of {said(grain, CURRENT)}: '
                        'the zero itself comes a little later')
    return told


def chopping(network, names, result):
    return [f'{names.branch(row)}: it opens at {at(row.fields[4], network)} on {about_current(abs(cut_off(row, result)))}, which it cuts off. An SW waits for the zero of its current'
            for row in (group[0] for group in network.groups()) if cut_off(row, result)]


def limit(network, names, result):
    free = [node for node in range(1, network.nodes + 1) if node not in network.held]
    worst = max(free, key=network.rounding, default=None)
    if worst is None or network.rounding(worst) <= network.limit:
        return []
    needed = network.rounding(worst)
    return [f'the balance limit, {said(network.limit, CURRENT)}, is below what the rounding of voltages to 0.1 V may leave over: {said(needed, CURRENT)} at node '
            f'{names.node(worst)}. A run may stop by UNBALANCED with nothing wrong; {needed} in the first line is enough for that']


def stairs(network, names, result):
    """The cosine of a VC comes from 1,024 places a period: with shorter steps than that its voltage stands still and then moves by a stair."""
    told = []
    for row in (row for row in network.sources if row.word == 'VC' and row.value):
        stair = 10 ** 12 / (1024 * row.fields[3])  # ns
        if network.step < stair:
            high = about(abs(row.value) * 0.1 * 2 * pi / 1024, 'V')
            told.append(f'{names.place(row)}: its voltage moves in {count(1024)} stairs a period, one each {about(stair * 1e-9, "s")} and of up to {high}; '
                        'the step is shorter, so L and C feel the stairs')
    return told


def past_the_end(network, names, result):
    found = [f'{names.place(row)} ({at(row.fields[3 if row.word in SWITCHES else 2], network)})' for row in network.rows
             if row.word not in ('R', 'L', 'C', 'LINE') and row.fields[3 if row.word in SWITCHES else 2] > network.steps]
    opening = [f'{names.place(row)} ({at(row.fields[4], network)})' for row in network.branches
               if row.word in SWITCHES and row.fields[3] <= network.steps < row.fields[4] <= STEPS_MOST]
    return [f'the run ends with step {count(network.steps)}, before these {what}: {", ".join(rows)}' for what, rows in (('begin', found), ('open', opening)) if rows]


LOOKS = (step_length, undamped, travel_times, one_ohm, grains, jumps, breakers, chopping, stairs, limit, past_the_end)


def watch(network, names, result):
    """All sentences, in the order above."""
    return [words for look in LOOKS for words in look(network, names, result)]
