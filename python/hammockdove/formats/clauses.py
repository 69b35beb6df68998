"""Clauses: weighted CNF, old and new, and CNF as SATLIB has it."""

from __future__ import annotations

from dataclasses import dataclass, field

from ..errors import TextRefused
from ..instances import Max2Sat
from ..texts import Line, Token, Tokens, lines_of, starts_with
from .base import Converted, Form, Reading, only_one

_MOST_WEIGHT = 2**48


@dataclass
class _Clauses:
    """The soft and the hard clauses of a file."""

    soft: list[tuple[int, tuple[int, ...]]] = field(default_factory=list)
    hard: list[tuple[int, ...]] = field(default_factory=list)
    variables: int = 0

    def take(self, weight: int | None, literals: tuple[int, ...]) -> None:
        """Adds a clause, which is hard where it has no weight."""
        self.variables = max(self.variables, *(abs(it) for it in literals), 0)
        if weight is None:
            self.hard.append(literals)
        else:
            self.soft.append((weight, literals))


def read_wcnf(text: str, number: int = 1) -> Converted:
    """Old: `p wcnf V C` and perhaps `top`, then clauses, each after its weight. New: no such line, and hard clauses begin with `h`."""
    lines = lines_of(text, starts_with("c"))
    if number != 1 and lines:
        only_one(number, lines[0].first)
    if lines and lines[0].first.text == "p":
        return _weighted(_old(lines))
    found = _Clauses()
    tokens = Tokens(lines)
    while (token := tokens.peek()) is not None:
        weight = tokens.take("a weight")
        found.take(None if token.text == "h" else weight.whole("a weight or 'h'", least=0), _literals(tokens, None))
    return _weighted(found)


def read_cnf(text: str, number: int = 1) -> Converted:
    """`p cnf V C`, then clauses, each of weight 1. A `%` ends the file, as in SATLIB."""
    lines = lines_of(text, starts_with("c"))
    found, count = _head(lines, "cnf", 4)
    if number != 1:
        only_one(number, lines[0].first)
    tokens, clauses = Tokens(lines[1:]), _Clauses(variables=found)
    while (token := tokens.peek()) is not None and not token.text.startswith("%"):
        if len(clauses.soft) == count:
            token.refuse(f"only {count} clauses are announced")
        clauses.take(1, _literals(tokens, found))
    _require(len(clauses.soft), count, lines)
    return _weighted(clauses)


def _old(lines: list[Line]) -> _Clauses:
    head = lines[0]
    variables, count = _head(lines, "wcnf", 5)
    top = head[4].whole("top", least=1) if len(head) > 4 else None
    found, tokens = _Clauses(variables=variables), Tokens(lines[1:])
    while (token := tokens.peek()) is not None and not token.text.startswith("%"):
        if len(found.soft) + len(found.hard) == count:
            token.refuse(f"only {count} clauses are announced")
        weight = tokens.take("a weight").whole("a weight", least=0)
        is_hard = top is not None and weight >= top
        found.take(None if is_hard else weight, _literals(tokens, variables))
    _require(len(found.soft) + len(found.hard), count, lines)
    return found


def _head(lines: list[Line], form: str, most: int) -> tuple[int, int]:
    """The numbers of variables and of clauses that the line of `p` announces."""
    if not lines or lines[0].first.text != "p":
        at = lines[0].first if lines else Token("", 1, 1)
        at.refuse(f"'p {form}' must stand here")
    head = lines[0]
    head.require(4, f"the line is 'p {form}', the number of variables and the number of clauses")
    if head[1].text != form:
        head[1].refuse(f"'{form}' must stand here")
    if len(head) > most:
        head[most].refuse("nothing may follow on this line")
    return head[2].whole("the number of variables", least=0), head[3].whole("the number of clauses", least=0)


def _require(found: int, announced: int, lines: list[Line]) -> None:
    if found < announced:
        raise TextRefused(f"{announced} clauses are announced and {found} stand here", lines[-1].number, lines[-1].end)


def _literals(tokens: Tokens, variables: int | None) -> tuple[int, ...]:
    found: list[int] = []
    while True:
        token = tokens.take("a literal or 0")
        literal = token.whole("a literal", least=None if variables is None else -variables, most=variables)
        if literal == 0:
            return tuple(found)
        if len(found) == 2:
            token.refuse("MAX-2SAT has at most two literals in a clause")
        found.append(literal)


def _weighted(found: _Clauses) -> Converted:
    """Gives each hard clause more weight than all soft ones have together."""
    soft = sum(weight for weight, _ in found.soft)
    hard = soft + 1
    total = soft + hard * len(found.hard)
    if total > _MOST_WEIGHT:
        raise TextRefused(f"the weights come to {total} in all, and the program's may come to 2^48")
    notes = []
    if found.hard:
        notes.append(
            f"{len(found.hard)} hard clauses get the weight {hard}: all of them hold exactly if the value is at least {hard * len(found.hard)}"
        )
    notes.append(f"MaxSAT solvers print the weight that is not satisfied: it is {total} less the value")
    instance = Max2Sat(found.variables, [*found.soft, *((hard, literals) for literals in found.hard)])
    reading = Reading("unsatisfied weight", sign=-1, offset=total, hard_from=hard * len(found.hard) if found.hard else None)
    return Converted(instance, reading, tuple(notes))


FORMS = (
    Form("wcnf", "weighted clauses, old or new, with hard ones", read_wcnf, (".wcnf",)),
    Form("cnf", "clauses of SATLIB", read_cnf, (".cnf",)),
)
