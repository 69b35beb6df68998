"""A dynamic program of your own as a table, in JSON. Programs before this problem answer it with `UnknownProblem`."""

from __future__ import annotations

import json
from collections.abc import Mapping, Sequence
from dataclasses import dataclass
from typing import Any, ClassVar, Self

from ..errors import InvalidInstance, TextRefused
from .base import Instance, whole


@dataclass(frozen=True)
class Table(Instance):
    """Layers of states, with `next`, `gain`, `gap`, `merge` and `rough` as lists, and the value of the root, which is state 0.

    A solution is a list of decisions along `next`; its value is the root's and its gains together.
    """

    model: ClassVar[str] = "table"
    layers: Sequence[Mapping[str, Any]]
    root_value: int = 0

    def __post_init__(self) -> None:
        if not self.layers or not all(isinstance(it, Mapping) for it in self.layers):
            raise InvalidInstance("layers must be a list of at least one mapping")
        object.__setattr__(self, "layers", tuple(dict(it) for it in self.layers))
        object.__setattr__(self, "root_value", whole(self.root_value, "root_value"))

    @property
    def size(self) -> int:
        return len(self.layers) - 1

    def text(self) -> str:
        document = {"layers": list(self.layers), "root_value": self.root_value}
        return json.dumps(document, separators=(",", ":"), default=_plain) + "\n"

    @classmethod
    def from_text(cls, text: str) -> Self:
        try:
            document = json.loads(text)
        except json.JSONDecodeError as fault:
            raise TextRefused(f"no JSON: {fault.msg}", fault.lineno, fault.colno) from None
        if not isinstance(document, dict) or not isinstance(document.get("layers"), list):
            raise TextRefused("the document must be an object with a list of layers")
        return cls(document["layers"], document.get("root_value", 0))

    def value(self, assignment: Sequence[int]) -> int | None:
        if len(assignment) != self.size:
            return None
        state, total = 0, self.root_value
        for layer, decision in zip(self.layers, assignment):
            row = layer["next"][state]
            if not 0 <= decision < len(row) or row[decision] is None:
                return None
            total += layer["gain"][state][decision]
            state = row[decision]
        return total


def _plain(found: Any) -> Any:
    """A numpy number or array as JSON has it."""
    return found.tolist() if hasattr(found, "tolist") else whole(found, "a number of the table")
