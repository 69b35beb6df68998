"""The travelling salesman with time windows."""

from __future__ import annotations

from collections.abc import Sequence
from dataclasses import dataclass
from typing import Any, ClassVar, Self

from ..errors import InvalidInstance
from ..texts import Tokens, lines_of, starts_with
from .base import Instance, row, whole, wholes


@dataclass(frozen=True)
class Tsptw(Instance):
    """A distance for each ordered pair of nodes, and an opening and a closing for each node. Node 0 is where a tour begins and ends.

    A solution is the order of the other nodes, and then 0; its value is the negated time of the return.
    """

    model: ClassVar[str] = "tsptw"
    distances: Sequence[Sequence[int]]
    windows: Sequence[tuple[int, int]]

    def __post_init__(self) -> None:
        distances = tuple(wholes(ways, f"distances[{at}]") for at, ways in enumerate(self.distances))
        if not distances or any(len(ways) != len(distances) for ways in distances):
            raise InvalidInstance("the distances must be a square matrix of at least one row")
        if len(self.windows) != len(distances):
            raise InvalidInstance(f"there must be an opening and a closing for each of the {len(distances)} nodes, not {len(self.windows)}")
        rows = (row(window, (2,), f"windows[{at}]", "an opening and a closing") for at, window in enumerate(self.windows))
        windows = tuple((whole(it[0], f"windows[{at}]"), whole(it[1], f"windows[{at}]")) for at, it in enumerate(rows))
        object.__setattr__(self, "distances", distances)
        object.__setattr__(self, "windows", windows)

    @classmethod
    def from_networkx(cls, graph: Any, windows: dict[Any, tuple[int, int]], start: Any, weight: str = "weight") -> Self:
        """Of a complete networkx graph, directed or not, whose edges weigh the way; `start` becomes node 0, the others keep their order."""
        names = [start, *(name for name in graph.nodes if name != start)]
        for u in names:
            for v in names:
                if u != v and not graph.has_edge(u, v):
                    raise InvalidInstance(f"the graph is not complete: it has no edge from {u!r} to {v!r}")
        distances = [[0 if u == v else graph[u][v][weight] for v in names] for u in names]
        return cls(distances, [windows[name] for name in names])

    @property
    def size(self) -> int:
        return len(self.distances)

    def text(self) -> str:
        lines = (" ".join(map(str, numbers)) for numbers in (*self.distances, *self.windows))
        return "".join(f"{line}\n" for line in (self.size, *lines))

    @classmethod
    def from_text(cls, text: str) -> Self:
        tokens = Tokens(lines_of(text, starts_with("#")))
        count = tokens.take("the number of nodes").whole("the number of nodes", least=1)
        distances = [[tokens.take("a distance").whole("a distance", least=0) for _ in range(count)] for _ in range(count)]
        windows = []
        for _ in range(count):
            opening = tokens.take("an opening").whole("an opening", least=0)
            windows.append((opening, tokens.take("a closing").whole("a closing", least=opening)))
        tokens.end("the windows")
        return cls(distances, windows)

    def value(self, assignment: Sequence[int]) -> int | None:
        arrivals = self.arrivals(assignment)
        return None if arrivals is None else -arrivals[-1]

    def arrivals(self, assignment: Sequence[int]) -> list[int] | None:
        """When each node of the order is begun, after waiting for its opening; None where the order is no feasible tour."""
        if sorted(assignment) != list(range(self.size)) or assignment[-1] != 0:
            return None
        now, at, found = self.windows[0][0], 0, []
        for node in assignment:
            now += self.distances[at][node] if node != at else 0
            if now > self.windows[node][1]:
                return None
            now, at = max(now, self.windows[node][0]), node
            found.append(now)
        return found
