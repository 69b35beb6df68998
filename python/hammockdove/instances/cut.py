"""Maximum cut."""

from __future__ import annotations

from collections.abc import Hashable, Iterable, Sequence
from dataclasses import dataclass, field
from typing import Any, ClassVar, Self

from ..errors import InvalidInstance
from ..texts import Token, Tokens, lines_of
from .base import Instance, are_choices, row, whole


@dataclass(frozen=True)
class MaxCut(Instance):
    """Vertices from 0, and edges `(i, j, weight)` between them. Edges on one pair add up, a loop counts nothing.

    A solution puts each vertex on side 0 or 1, the first on side 0; its value is the weight of the edges across. `names` are the
    vertices' own names where they have some; `sides` gives them back.
    """

    model: ClassVar[str] = "maxcut"
    vertices: int
    edges: Sequence[tuple[int, int, int]]
    names: Sequence[Hashable] = field(default=())

    def __post_init__(self) -> None:
        vertices = whole(self.vertices, "vertices")
        edges = []
        for at, edge in enumerate(self.edges):
            i, j, weight = (whole(it, f"edges[{at}]") for it in row(edge, (3,), f"edges[{at}]", "two vertices and a weight"))
            if not (0 <= i < vertices and 0 <= j < vertices):
                raise InvalidInstance(f"edges[{at}] joins {i} and {j}, and the vertices are 0 to {vertices - 1}")
            edges.append((i, j, weight))
        if self.names and len(self.names) != vertices:
            raise InvalidInstance(f"{len(self.names)} names for {vertices} vertices")
        for name, found in (("vertices", vertices), ("edges", tuple(edges)), ("names", tuple(self.names))):
            object.__setattr__(self, name, found)

    @classmethod
    def from_networkx(cls, graph: Any, weight: str = "weight") -> Self:
        """Of a networkx graph or multigraph; an edge without the attribute weighs 1. A directed graph is refused."""
        if graph.is_directed():
            raise InvalidInstance("a directed graph: to_undirected() keeps one of two opposite edges, so add their weights first")
        names = list(graph.nodes)
        at = {name: index for index, name in enumerate(names)}
        return cls(len(names), [(at[u], at[v], found) for u, v, found in graph.edges(data=weight, default=1)], names)

    @classmethod
    def from_matrix(cls, matrix: Any) -> Self:
        """Of a symmetric matrix of weights, of lists or numpy; its diagonal counts nothing."""
        count = len(matrix)
        if any(len(weights) != count for weights in matrix):
            raise InvalidInstance("the matrix is not square")
        for i in range(count):
            for j in range(i):
                if matrix[i][j] != matrix[j][i]:
                    raise InvalidInstance(f"the matrix is not symmetric: it has {matrix[i][j]} at {i}, {j} and {matrix[j][i]} at {j}, {i}")
        return cls(count, [(i, j, matrix[i][j]) for i in range(count) for j in range(i + 1, count) if matrix[i][j] != 0])

    @property
    def size(self) -> int:
        return self.vertices

    def text(self) -> str:
        lines = (f"{i + 1} {j + 1} {weight}" for i, j, weight in self.edges)
        return "".join(f"{line}\n" for line in (f"{self.vertices} {len(self.edges)}", *lines))

    @classmethod
    def from_text(cls, text: str) -> Self:
        tokens = Tokens(lines_of(text))
        vertices = tokens.take("the number of vertices").whole("the number of vertices", least=0)
        count = tokens.take("the number of edges").whole("the number of edges", least=0)

        def vertex(token: Token) -> int:
            return token.whole("a vertex", least=1, most=vertices) - 1

        edges = []
        for _ in range(count):
            i, j = vertex(tokens.take("a vertex")), vertex(tokens.take("a vertex"))
            edges.append((i, j, tokens.take("a weight").whole("a weight")))
        tokens.end("the edges")
        return cls(vertices, edges)

    def value(self, assignment: Sequence[int]) -> int | None:
        if not are_choices(assignment, self.size, 2) or (assignment and assignment[0] != 0):
            return None
        return sum(weight for i, j, weight in self.edges if assignment[i] != assignment[j])

    def sides(self, assignment: Sequence[int]) -> tuple[list[Hashable], list[Hashable]]:
        """The vertices of side 0 and of side 1, by their names where they have some."""
        names: Iterable[Hashable] = self.names or range(self.vertices)
        both: tuple[list[Hashable], list[Hashable]] = ([], [])
        for name, side in zip(names, assignment):
            both[side].append(name)
        return both
