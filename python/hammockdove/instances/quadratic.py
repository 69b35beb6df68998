"""Quadratic binary optimisation."""

from __future__ import annotations

from collections.abc import Mapping, Sequence
from dataclasses import dataclass
from typing import Any, ClassVar, Self

from ..errors import InvalidInstance
from ..texts import Tokens, lines_of
from .base import Instance, are_choices, row, whole


@dataclass(frozen=True)
class Qubo(Instance):
    """Variables from 0, and lines `(i, j, weight)` with `i <= j`. Lines of the same variables add up.

    A solution gives each variable 0 or 1; its value is the sum of the lines both of whose variables are 1.
    """

    model: ClassVar[str] = "qubo"
    variables: int
    lines: Sequence[tuple[int, int, int]]

    def __post_init__(self) -> None:
        variables = whole(self.variables, "variables")
        lines = []
        for at, line in enumerate(self.lines):
            i, j, weight = (whole(it, f"lines[{at}]") for it in row(line, (3,), f"lines[{at}]", "two variables and a weight"))
            if not 0 <= i <= j < variables:
                raise InvalidInstance(f"lines[{at}] has the variables {i} and {j}, which must be in order and among 0 to {variables - 1}")
            lines.append((i, j, weight))
        object.__setattr__(self, "variables", variables)
        object.__setattr__(self, "lines", tuple(lines))

    @classmethod
    def from_matrix(cls, matrix: Any) -> Self:
        """Of a square matrix, of lists or numpy: the two weights of each pair are added."""
        count = len(matrix)
        if any(len(weights) != count for weights in matrix):
            raise InvalidInstance("the matrix is not square")
        sums = ((i, j, matrix[i][j] + (matrix[j][i] if i < j else 0)) for i in range(count) for j in range(i, count))
        return cls(count, [line for line in sums if line[2] != 0])

    @classmethod
    def from_weights(cls, weights: Mapping[tuple[int, int], int], variables: int | None = None) -> Self:
        """Of a weight for pairs of variables in either order. Without `variables` there are as many as the greatest one needs."""
        count = max((max(pair) + 1 for pair in weights), default=0) if variables is None else variables
        return cls(count, [(min(pair), max(pair), weight) for pair, weight in weights.items()])

    @property
    def size(self) -> int:
        return self.variables

    def text(self) -> str:
        lines = (f"{i + 1} {j + 1} {weight}" for i, j, weight in self.lines)
        return "".join(f"{line}\n" for line in (f"{self.variables} {len(self.lines)}", *lines))

    @classmethod
    def from_text(cls, text: str) -> Self:
        tokens = Tokens(lines_of(text))
        variables = tokens.take("the number of variables").whole("the number of variables", least=0)
        count = tokens.take("the number of lines").whole("the number of lines", least=0)
        lines = []
        for _ in range(count):
            i = tokens.take("a variable").whole("a variable", least=1, most=variables)
            j = tokens.take("a variable").whole("a variable", least=i, most=variables)
            lines.append((i - 1, j - 1, tokens.take("a weight").whole("a weight")))
        tokens.end("the lines")
        return cls(variables, lines)

    def value(self, assignment: Sequence[int]) -> int | None:
        if not are_choices(assignment, self.size, 2):
            return None
        return sum(weight for i, j, weight in self.lines if assignment[i] == 1 and assignment[j] == 1)
