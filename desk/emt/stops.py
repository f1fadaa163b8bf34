"""How a run ended, in words; of one that stopped, what is known of its place and what to do."""
from .kinds import SWITCHES
from .quantities import CURRENT, TIME, VOLTAGE, counted, said
from .understood import at, value_words


def floating(stop, network, names):
    here = [row for row in network.branches if row.word in SWITCHES and not network.closed(row, stop.step, stop.run.parted) and network.area(max(row.ends)) == stop.area]
    why = f'Open at this step: {", ".join(names.branch(row) for row in here)}. ' if here else ''
    if not network.meeting(stop.place):
        return f'{why}No branch leads to node {names.node(stop.place)} at all'
    return f'{why}Put in what holds the node, as its stray capacitance: C→{stop.place}→0→200 is 200 pF to ground'


def beyond_range(stop, network, names):
    before = stop.run.v[stop.place]
    last = f'One step before, it had {said(before[-1], VOLTAGE)}. ' if before else ''
    return (f'{last}A source that is too strong, a resonance, or an inductor whose current was cut off with next to no capacitance at its node: '
            'its voltage goes up to the current times √(L/C)')


def unbalanced(stop, network, names):
    needed = network.rounding(stop.place)
    if needed > network.limit:
        return (f'The limit is {said(network.limit, CURRENT)}; the rounding of voltages to 0.1 V may leave {said(needed, CURRENT)} over here. '
                f'{needed} as the limit, third in the first line, is enough for this node')
    return 'The limit is above what the rounding of voltages may leave over here: values at this node lie too many powers of ten apart'


def history(stop, network, names):
    row = network.branches[stop.place - 1]
    return f'It is {names.place(row)}, {value_words(row, network)}: look for a source that drives a short circuit'


HINTS = {14: floating, 15: beyond_range, 16: unbalanced, 17: history}


def place_words(stop, network, names):
    if stop.place_is == 'branch':
        return names.branch(network.branches[stop.place - 1])
    return f'node {stop.place}' + (f' ({names.nodes[stop.place]})' if stop.place in names.nodes else '')


def ended(result, names):
    """One sentence or a few: how the run ended."""
    network, stop = result.network, result.stop
    if not stop:
        return [f'done: {counted(network.steps, "step")} taken, to {said(network.steps * network.step, TIME)}']
    return [f'stopped before {at(stop.step, network)} by {stop.name} ({stop.number}) at {place_words(stop, network, names)}, area {stop.area}: {stop.words}',
            HINTS[stop.number](stop, network, names),
            f'{counted(result.steps, "full step")} before it {"is" if result.steps == 1 else "are"} as listed' if result.steps else 'No full step was taken']
