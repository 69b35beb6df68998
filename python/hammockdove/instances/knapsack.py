"""Bounded knapsack."""

from __future__ import annotations

from collections.abc import Iterable, Sequence
from dataclasses import dataclass
from typing import Any, ClassVar, Self

from ..errors import InvalidInstance
from ..texts import Tokens, lines_of
from .base import Instance, row, whole, wholes


@dataclass(frozen=True)
class Knapsack(Instance):
    """A capacity, and items with a profit, a weight and a number of copies, which is 1 for each where `copies` is not given.

    A solution gives each item a number of copies; its value is the total profit.
    """

    model: ClassVar[str] = "knapsack"
    capacity: int
    profits: Sequence[int]
    weights: Sequence[int]
    copies: Sequence[int] | None = None

    def __post_init__(self) -> None:
        profits, weights = wholes(self.profits, "profits"), wholes(self.weights, "weights")
        copies = (1,) * len(profits) if self.copies is None else wholes(self.copies, "copies")
        if not len(profits) == len(weights) == len(copies):
            raise InvalidInstance(f"{len(profits)} profits, {len(weights)} weights and {len(copies)} copies: they must be as many")
        for name, found in (("capacity", whole(self.capacity, "capacity")), ("profits", profits), ("weights", weights), ("copies", copies)):
            object.__setattr__(self, name, found)

    @classmethod
    def from_items(cls, capacity: int, items: Iterable[Sequence[Any]]) -> Self:
        """Of rows `profit, weight` or `profit, weight, copies`."""
        rows = [row(item, (2, 3), f"items[{at}]", "a profit, a weight and perhaps copies") for at, item in enumerate(items)]
        return cls(capacity, [it[0] for it in rows], [it[1] for it in rows], [it[2] if len(it) > 2 else 1 for it in rows])

    @property
    def items(self) -> list[tuple[int, int, int]]:
        """Profit, weight and copies of each item."""
        return list(zip(self.profits, self.weights, self.copies or ()))

    @property
    def size(self) -> int:
        return len(self.profits)

    def text(self) -> str:
        lines = (f"{profit} {weight}" + (f" {copies}" if copies != 1 else "") for profit, weight, copies in self.items)
        return "".join(f"{line}\n" for line in (f"{self.size} {self.capacity}", *lines))

    @classmethod
    def from_text(cls, text: str) -> Self:
        tokens = Tokens(lines_of(text))
        count = tokens.take("the number of items").whole("the number of items", least=0)
        capacity = tokens.take("the capacity").whole("the capacity", least=0)
        items = []
        for _ in range(count):
            profit = tokens.take("a profit").whole("a profit", least=0)
            weight = tokens.take("a weight")
            copies, ahead = 1, tokens.peek()
            if ahead is not None and ahead.line == weight.line:
                last = tokens.take("copies")
                copies, ahead = last.whole("copies", least=0), tokens.peek()
                if ahead is not None and ahead.line == last.line:
                    ahead.refuse("nothing may follow the copies on their line")
            items.append((profit, weight.whole("a weight", least=0), copies))
        tokens.end("the items")
        return cls.from_items(capacity, items)

    def value(self, assignment: Sequence[int]) -> int | None:
        if len(assignment) != self.size or any(not 0 <= taken <= copies for taken, (_, _, copies) in zip(assignment, self.items)):
            return None
        if sum(taken * weight for taken, weight in zip(assignment, self.weights)) > self.capacity:
            return None
        return sum(taken * profit for taken, profit in zip(assignment, self.profits))
