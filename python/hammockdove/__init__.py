"""A client of the program `hammockdove`, an exact solver for discrete maximisation.

    >>> from hammockdove import Knapsack, Solver
    >>> result = Solver().solve(Knapsack(10, profits=[60, 50, 70], weights=[5, 4, 6]))
    >>> result.value, result.assignment, result.is_best
    (120, (0, 1, 1), True)

The program is proved; this package is not. What a result says of bounds and of best solutions is what the program printed.
"""

from .answers import Outcome, PartOutcome, PartResult, Result, Stop, Verdict
from .errors import (
    CoverRefused,
    HammockdoveError,
    InputTooLong,
    InstanceRefused,
    InvalidInstance,
    JournalDamaged,
    JournalRefused,
    NotBegun,
    ProgramFailed,
    Refused,
    ReportRefused,
    ReportsRefused,
    TableRefused,
    TextRefused,
    UnknownProblem,
    WordsRefused,
)
from .instances import PROBLEMS, Instance, Knapsack, Max2Sat, MaxCut, Qubo, Table, Tardiness, Tsptw
from .journal import Part
from .progress import Progress
from .solver import Interrupted, PartInterrupted, Solver

__all__ = [
    "PROBLEMS", "CoverRefused", "HammockdoveError", "InputTooLong", "Instance", "InstanceRefused", "Interrupted", "InvalidInstance",
    "JournalDamaged", "JournalRefused", "Knapsack", "Max2Sat", "MaxCut", "NotBegun", "Outcome", "Part", "PartInterrupted", "PartOutcome",
    "PartResult", "ProgramFailed", "Progress", "Qubo", "Refused", "ReportRefused", "ReportsRefused", "Result", "Solver", "Stop", "Table",
    "TableRefused", "Tardiness", "TextRefused", "Tsptw", "UnknownProblem", "Verdict", "WordsRefused",
]  # fmt: skip
