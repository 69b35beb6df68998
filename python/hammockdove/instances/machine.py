"""One machine with weighted tardiness. Programs before this problem answer it with `UnknownProblem`."""

from __future__ import annotations

from collections.abc import Sequence
from dataclasses import dataclass
from typing import ClassVar, Self

from ..errors import InvalidInstance
from ..texts import Tokens, lines_of
from .base import Instance, wholes


@dataclass(frozen=True)
class Tardiness(Instance):
    """Jobs with a processing time, a weight and a due time.

    A solution is an order of all jobs, from 0; its value is the negated sum of weight times tardiness.
    """

    model: ClassVar[str] = "tardiness"
    processing: Sequence[int]
    weights: Sequence[int]
    due: Sequence[int]

    def __post_init__(self) -> None:
        found = [wholes(getattr(self, name), name) for name in ("processing", "weights", "due")]
        if len({len(it) for it in found}) > 1:
            raise InvalidInstance("processing, weights and due must be as many")
        for name, numbers in zip(("processing", "weights", "due"), found):
            object.__setattr__(self, name, numbers)

    @property
    def size(self) -> int:
        return len(self.processing)

    def text(self) -> str:
        rows = (f"{p} {w} {d}" for p, w, d in zip(self.processing, self.weights, self.due))
        return "".join(f"{row}\n" for row in (self.size, *rows))

    @classmethod
    def from_text(cls, text: str) -> Self:
        tokens = Tokens(lines_of(text))
        count = tokens.take("the number of jobs").whole("the number of jobs", least=0)
        names = ("a processing time", "a weight", "a due time")
        rows = [[tokens.take(name).whole(name, least=0) for name in names] for _ in range(count)]
        tokens.end("the jobs")
        return cls(*([row[at] for row in rows] for at in range(3)))

    def value(self, assignment: Sequence[int]) -> int | None:
        if sorted(assignment) != list(range(self.size)):
            return None
        now = late = 0
        for job in assignment:
            now += self.processing[job]
            late += self.weights[job] * max(0, now - self.due[job])
        return -late
