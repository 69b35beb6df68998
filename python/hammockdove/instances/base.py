"""What all instances share."""

from __future__ import annotations

import operator
from abc import ABC, abstractmethod
from collections.abc import Iterable, Sequence
from typing import Any, ClassVar, Self

from ..errors import InvalidInstance

PROBLEMS: dict[str, type[Instance]] = {}
"""The class of each problem, by the program's name for it."""


class Instance(ABC):
    """An instance of one problem.

    A further problem is one more subclass with a `model`: it is then in `PROBLEMS`, and the solver, `convert` and the benchmark know it.
    Ranges are left to the program, which refuses a number outside its range with its place.
    """

    model: ClassVar[str]
    """The program's name of the problem."""

    def __init_subclass__(cls, **words: Any) -> None:
        super().__init_subclass__(**words)
        PROBLEMS[cls.model] = cls

    @property
    @abstractmethod
    def size(self) -> int:
        """How many decisions a solution has."""

    @abstractmethod
    def text(self) -> str:
        """The text that the program reads."""

    @classmethod
    @abstractmethod
    def from_text(cls, text: str) -> Self:
        """The instance that a text of the program's own form spells. Raises `TextRefused` with the place of the first fault."""

    @abstractmethod
    def value(self, assignment: Sequence[int]) -> int | None:
        """What an assignment is worth, or None where it is no feasible solution.

        This is Python's own evaluation, by the problem's definition. It is there to compare with, and nothing of it is proved.
        """


def whole(number: Any, what: str) -> int:
    """The whole number that a Python or numpy number is: 2 and 2.0 are taken, 2.5 is refused, nothing is rounded."""
    try:
        return operator.index(number)
    except TypeError:
        pass
    try:
        found = int(number)
    except (TypeError, ValueError, OverflowError):
        raise InvalidInstance(f"{what} must be a whole number, not {number!r}") from None
    if isinstance(number, str) or found != number:
        raise InvalidInstance(f"{what} must be a whole number, not {number!r}; scale the instance first")
    return found


def wholes(numbers: Iterable[Any], what: str) -> tuple[int, ...]:
    """Whole numbers of a list or an array; a refusal names the one at fault, from 0."""
    if isinstance(numbers, str) or not hasattr(numbers, "__iter__"):
        raise InvalidInstance(f"{what} must be a list of whole numbers, not {numbers!r}")
    return tuple(whole(number, f"{what}[{at}]") for at, number in enumerate(numbers))


def row(found: Any, counts: Sequence[int], what: str, needs: str) -> tuple[Any, ...]:
    """The members of a list, a tuple or a row of an array, of which there must be one of these numbers; a refusal says what is needed."""
    try:
        members = None if isinstance(found, str) else tuple(found)
    except TypeError:
        members = None
    if members is None or len(members) not in counts:
        raise InvalidInstance(f"{what} must be {needs}, not {found!r}")
    return members


def are_choices(assignment: Sequence[int], size: int, choices: int) -> bool:
    """Whether these are `size` decisions, each from 0 to below `choices`."""
    return len(assignment) == size and all(0 <= it < choices for it in assignment)
