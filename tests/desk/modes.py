"""Random networks of R and C, or of R and L, with the time constant of their fastest mode worked out by another way: power iteration on the network's equations."""


def solved(matrix, right):
    """x with matrix · x = right."""
    size, rows = len(matrix), [row + [one] for row, one in zip(matrix, right)]
    for column in range(size):
        best = max(range(column, size), key=lambda row: abs(rows[row][column]))
        rows[column], rows[best] = rows[best], rows[column]
        for row in range(column + 1, size):
            factor = rows[row][column] / rows[column][column]
            rows[row] = [one - factor * other for one, other in zip(rows[row], rows[column])]
    found = [0.0] * size
    for row in reversed(range(size)):
        found[row] = (rows[row][size] - sum(rows[row][column] * found[column] for column in range(row + 1, size))) / rows[row][row]
    return found


def times(matrix, vector):
    return [sum(one * other for one, other in zip(row, vector)) for row in matrix]


def fastest(turn, size):
    """The time constant of the fastest mode of dx/dt = -turn(x), whose modes all decay."""
    state, rate = [1 + 0.1 * place for place in range(size)], 1.0
    for _ in range(150):
        state = turn(state)
        rate = max(map(abs, state))
        state = [one / rate for one in state]
    return 1 / rate


class Random:
    """A network of 2 to 5 free nodes behind a source: .text, and .seconds of its fastest mode."""

    def __init__(self, roll, word):
        self.free = roll.randint(2, 5)
        self.lines, self.conductances, self.stores = ['study 1000 1 0', 'VS 1 1 1 0'], self.zero(), self.zero()
        self.ends, self.henries = [], []
        for node in range(2, self.free + 2):
            other = roll.choice([one for one in range(self.free + 2) if one != node])
            for far in (other, 0):
                ohms = int(10 ** roll.uniform(3.5, 8))
                self.lines.append(f'R {node} {far} {ohms}')
                self.join(self.conductances, node, far, 1000 / ohms)
            self.store(roll, word, node, roll.choice([0, other]) if word == 'L' else 0)
        if roll.random() < 0.5:
            self.store(roll, word, *roll.sample(range(2, self.free + 2), 2))
        self.text = '\n'.join(self.lines)
        self.seconds = fastest(*((self.charges, self.free) if word == 'C' else (self.currents, len(self.henries))))

    def zero(self):
        return [[0.0] * self.free for _ in range(self.free)]

    def join(self, matrix, node, far, weight):
        for one, other in ((node, far), (far, node)):
            if one >= 2:
                matrix[one - 2][one - 2] += weight
                if other >= 2:
                    matrix[one - 2][other - 2] -= weight

    def store(self, roll, word, node, far):
        if word == 'C':
            value = int(10 ** roll.uniform(1, 5))
            self.join(self.stores, node, far, value * 1e-12)
        else:
            value = int(10 ** roll.uniform(3, 8))
            self.ends.append((node, far))
            self.henries.append(value * 1e-9)
        self.lines.append(f'{word} {node} {far} {value}')

    def charges(self, volts):
        return solved(self.stores, times(self.conductances, volts))

    def currents(self, amperes):
        into = [0.0] * self.free
        for (node, far), current in zip(self.ends, amperes):
            for end, sign in ((node, 1), (far, -1)):
                if end >= 2:
                    into[end - 2] += sign * current
        volts = [0.0, 0.0] + solved(self.conductances, into)
        return [(volts[node] - volts[far]) / henry for (node, far), henry in zip(self.ends, self.henries)]
