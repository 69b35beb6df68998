"""Weighted MAX-2SAT."""

from __future__ import annotations

from collections.abc import Iterable, Sequence
from dataclasses import dataclass
from typing import ClassVar, Self

from ..errors import InvalidInstance
from ..texts import Token, Tokens, lines_of, starts_with
from .base import Instance, are_choices, row, whole, wholes

Clause = tuple[int, tuple[int, ...]]


@dataclass(frozen=True)
class Max2Sat(Instance):
    """Variables from 1, and clauses `(weight, literals)` of at most two literals; a negated variable has a minus.

    A solution gives each variable 0 or 1; its value is the weight of the satisfied clauses.
    """

    model: ClassVar[str] = "max2sat"
    variables: int
    clauses: Sequence[tuple[int, Sequence[int]]]

    def __post_init__(self) -> None:
        variables = whole(self.variables, "variables")
        clauses: list[Clause] = []
        for at, clause in enumerate(self.clauses):
            weight, literals = row(clause, (2,), f"clauses[{at}]", "a weight and a list of literals")
            found = wholes(row(literals, (0, 1, 2), f"the literals of clauses[{at}]", "a list of at most two"), f"clauses[{at}]")
            if any(not 1 <= abs(it) <= variables for it in found):
                raise InvalidInstance(f"clauses[{at}] must have literals of the variables 1 to {variables}, not {found!r}")
            clauses.append((whole(weight, f"the weight of clauses[{at}]"), found))
        object.__setattr__(self, "variables", variables)
        object.__setattr__(self, "clauses", tuple(clauses))

    @classmethod
    def from_clauses(cls, clauses: Iterable[Sequence[int]], variables: int | None = None) -> Self:
        """Of clauses of weight 1. Without `variables` there are as many as the greatest one that stands in a clause."""
        found = [row(clause, (0, 1, 2), f"clauses[{at}]", "a list of at most two literals") for at, clause in enumerate(clauses)]
        count = max((abs(it) for literals in found for it in literals), default=0) if variables is None else variables
        return cls(count, [(1, literals) for literals in found])

    @property
    def size(self) -> int:
        return self.variables

    @property
    def total(self) -> int:
        """The weight of all clauses."""
        return sum(weight for weight, _ in self.clauses)

    def text(self) -> str:
        lines = (" ".join(map(str, (weight, *literals, 0))) for weight, literals in self.clauses)
        return "".join(f"{line}\n" for line in (f"p wcnf {self.variables} {len(self.clauses)}", *lines))

    @classmethod
    def from_text(cls, text: str) -> Self:
        tokens = Tokens(lines_of(text, starts_with("c")))
        if (begin := tokens.take("'p'")).text != "p":
            begin.refuse("'p' must stand here")
        if (form := tokens.take("'wcnf' or 'cnf'")).text not in ("wcnf", "cnf"):
            form.refuse("'wcnf' or 'cnf' must stand here")
        variables = tokens.take("the number of variables").whole("the number of variables", least=0)
        count = tokens.take("the number of clauses")
        top, ahead = None, tokens.peek()
        if form.text == "wcnf" and ahead is not None and ahead.line == count.line:
            top = tokens.take("top").whole("top", least=1)
        clauses: list[Clause] = []
        for _ in range(count.whole("the number of clauses", least=0)):
            weight = 1
            if form.text == "wcnf":
                token = tokens.take("a weight")
                weight = token.whole("a weight", least=0)
                if top is not None and weight >= top:
                    token.refuse(f"a weight of at least top, {top}, makes a hard clause, which this form does not have")
            clauses.append((weight, _literals(tokens, variables)))
        ahead = tokens.peek()
        if ahead is not None and not ahead.text.startswith("%"):
            ahead.refuse("nothing may stand after the clauses")
        return cls(variables, clauses)

    def value(self, assignment: Sequence[int]) -> int | None:
        if not are_choices(assignment, self.size, 2):
            return None
        return sum(weight for weight, literals in self.clauses if is_satisfied(literals, assignment))


def is_satisfied(literals: Iterable[int], assignment: Sequence[int]) -> bool:
    """Whether one of the literals holds."""
    return any(assignment[abs(it) - 1] == (it > 0) for it in literals)


def _literals(tokens: Tokens, variables: int) -> tuple[int, ...]:
    found: list[int] = []
    while True:
        token: Token = tokens.take("a literal or 0")
        literal = token.whole("a literal", least=-variables, most=variables)
        if literal == 0:
            return tuple(found)
        if len(found) == 2:
            token.refuse("a clause has at most two literals")
        found.append(literal)
