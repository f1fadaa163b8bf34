"""What was understood of a study, in engineering units: one line for each row, and the head."""
from .kinds import BREAKER, STEPS_MOST
from .quantities import CURRENT, FREQUENCY, TIME, VOLTAGE, count, counted, decimal, said
from .study import may_part


def in_steps(time, step):
    """'1 ms = 100 steps'; between steps '12.34 µs = 12.34 steps', to three digits behind the point."""
    if time % step == 0:
        return f'{said(time, TIME)} = {counted(time // step, "step")}'
    thousandths = time * 1000 // step
    sign = '=' if time * 1000 % step == 0 else '≈'
    return f'{said(time, TIME)} {sign} {decimal(thousandths, 3)} steps'


def at(step, network):
    """'step 101 (1.01 ms)'."""
    return f'step {count(step)} ({said(step * network.step, TIME)})'


def switch_words(row, network, result=None):
    closes, opens = row.fields[3], row.fields[4]
    words = f'closed from {at(closes, network)}'
    if opens > STEPS_MOST:
        return words + ' on'
    if row.word != BREAKER:
        return f'{words}, open from {at(opens, network)} whatever its current is'
    words += f', told to open at {at(opens, network)}: it parts at the first current zero from step {count(may_part(row))} on'
    after = result.parted[row.branch] if result else 0
    if after:
        return f'{words}, here after {at(after, network)}'
    return words + (', here not at all' if result and may_part(row) <= result.steps else '')


def source_words(row, network):
    _, peak, start, last = row.fields
    words = f'{said(peak, CURRENT if row.word == "IS" else VOLTAGE)} from {at(start, network)}'
    if peak == 0 and row.word != 'IS':
        return '0 V: the node is earthed'
    if row.word == 'VC':
        return f'{words} on, {said(last, FREQUENCY)}, first at its crest'
    return words + (f', rising over {in_steps(last * network.step, network.step)}' if last else ', at once')


def value_words(row, network, result=None):
    """What stands behind the places of a row."""
    if not row.kind.branch:
        return source_words(row, network)
    words = said(row.value, row.kind.fields[2].quantity)
    if row.word == 'LINE':
        return f'{words}, {in_steps(row.fields[3], network.step)}'
    return words if row.word in ('R', 'L', 'C') else f'{words}, {switch_words(row, network, result)}'


def head(network):
    things = ((network.nodes, 'node'), (len(network.branches), 'branch'), (len(network.sources), 'source'), (network.area_count, 'area'))
    return [f'step {said(network.step, TIME)}, {counted(network.steps, "step")}: {said(network.step * network.steps, TIME)} in all; '
            f'balance limit {said(network.limit, CURRENT)}',
            ', '.join(counted(*thing) for thing in things)]


def rows(network, names, result=None):
    """For each row: branch number or '', what and where, and its values; with a run, when its breakers parted. Equal branches side by side are one."""
    found = []
    for group in network.groups():
        first, last = group[0].branch or '', group[-1].branch
        many = f'{len(group)} side by side, each ' if len(group) > 1 else ''
        found.append((f'{first}–{last}' if many else str(first), names.place(group[0]), many + value_words(group[0], network, result)))
    return found
