"""Zanguremi from Python: read a study, run it, have its numbers by node and branch.

    import emt
    result = emt.run('studies/energisation.txt')
    result.v[5]          # the voltage of node 5 in 0.1 V, step after step: whole numbers, as listed
    result.peaks[5]      # its largest voltage without sign, and the first step where it came

A text that is not taken raises emt.Refused (.number, .name, .line, .words); a run that stops raises emt.Stopped (.number, .name, .step, .area, .place,
.words, and .run with the steps before). Every number of a solution is one that the proved calls gave: this package only carries it.
"""
from .library import NoLibrary
from .results import Listing, Run, outcome, run
from .study import Network, Row, read
from .words import Refusal, Refused, Stopped

__all__ = ['read', 'run', 'outcome', 'Network', 'Row', 'Run', 'Listing', 'Refusal', 'Refused', 'Stopped', 'NoLibrary']
