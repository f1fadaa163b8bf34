"""Read by the checks beside the studies (studies/NAME.py): a study's lines and a listing in V, A, Ω, H, F and s, and how a difference is told.

A check takes the listing on standard input, as in

    ./emtrun-study studies/bank | studies/bank.py

and takes all values from the study's own text; from another, of the same lines with other values, where its path is given. Its last line is the largest
difference; the status is 0 where that is at most what the page says."""
import sys
from collections import defaultdict

SI = {"R": 1e-3, "SW": 1e-3, "LINE": 1e-3, "L": 1e-9, "C": 1e-12, "VS": 1e-1, "IS": 1e-10}


class Study:
    """The lines of the text beside a check: `step` in s, and of each kind of line a list of its fields, nodes and steps as they are and the value in SI units."""

    def __init__(self, check):
        path = sys.argv[1] if len(sys.argv) > 1 else check.removesuffix(".py") + ".txt"
        rows = [line.rstrip("\n").split("\t") for line in open(path)]
        self.step = int(rows[0][1]) * 1e-9
        self.rows = defaultdict(list)
        for word, *fields in rows[1:]:
            numbers = [int(field) for field in fields]
            place = 1 if word in ("VS", "IS") else 2
            numbers[place] *= SI[word]
            if word == "LINE":
                numbers[3] *= 1e-9
            self.rows[word].append(numbers)

    def between(self, word, a, b):
        """The values of all branches of a kind between two nodes."""
        return [row[2] for row in self.rows[word] if {row[0], row[1]} == {a, b}]


def listing(stream=sys.stdin):
    """Voltages by node and currents by branch, each a list with the value of step k in place k; 0 at step 0."""
    found = {"v": defaultdict(lambda: [0.0]), "i": defaultdict(lambda: [0.0])}
    end = ""
    for line in stream:
        fields = line.rstrip("\n").split("\t")
        if fields[0] in found:
            found[fields[0]][int(fields[2])].append(int(fields[3]) * (1e-1 if fields[0] == "v" else 1e-10))
        else:
            end = fields[0]
    if end != "done":
        sys.exit(f"the listing ends in '{end}', not in 'done'")
    return found["v"], found["i"]


class Told:
    """Tells differences in percent of the closed form's crest, and keeps the largest."""

    def __init__(self):
        self.largest = 0.0

    def _tell(self, what, percent):
        self.largest = max(self.largest, percent)
        print(f"{what}: {percent:.4f} %")

    def value(self, what, listed, closed, unit, size):
        """One number: the listing's and the closed form's."""
        self._tell(f"{what}: {listed / size:.3f} {unit} listed, {closed / size:.3f} {unit} by the closed form", abs(listed - closed) / abs(closed) * 100)

    def wave(self, what, listed, closed, steps):
        """A curve: `listed[k]` beside `closed(k)` at each of these steps."""
        pairs = [(listed[k], closed(k)) for k in steps]
        crest = max(abs(y) for _, y in pairs)
        self._tell(f"{what}: the largest difference of {len(pairs)} steps, of the crest", max(abs(x - y) for x, y in pairs) / crest * 100)

    def end(self, most):
        print(f"largest difference: {self.largest:.4f} % (at most {most} %)")
        sys.exit(self.largest > most)
