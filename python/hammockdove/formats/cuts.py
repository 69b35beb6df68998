"""Graphs: rudy, which G-set and the Biq Mac library use, and DIMACS."""

from __future__ import annotations

from ..errors import TextRefused
from ..instances import MaxCut
from ..texts import Line, Token, lines_of, starts_with
from .base import Converted, Form, Reading, only_one, scale_note, scaled

_DESCRIPTORS = ("n", "d", "v", "x")


def read_rudy(text: str, number: int = 1) -> Converted:
    """`n m`, then `m` lines of two vertices from 1 and a weight, which is 1 where it is absent. Comments begin with `#`, `%` or `c`."""
    lines = lines_of(text, starts_with("#", "%", "c"))
    if not lines:
        raise TextRefused("the number of vertices must stand here", 1, 1)
    only_one(number, lines[0].first)
    lines[0].only(2, "the first line has the number of vertices and the number of edges")
    vertices, count = lines[0][0].whole("the number of vertices", least=0), lines[0][1].whole("the number of edges", least=0)
    rows = lines[1:]
    if len(rows) < count:
        raise TextRefused(f"{count} edges are announced and {len(rows)} stand here", lines[-1].number, lines[-1].end)
    if len(rows) > count:
        rows[count].first.refuse(f"only {count} edges are announced")
    for row in rows:
        row.require(2, "an edge has two vertices and perhaps a weight")
        if len(row) > 3:
            row[3].refuse("an edge has two vertices and perhaps a weight")
    return _cut(vertices, [(row, 0) for row in rows], ())


def read_dimacs(text: str, number: int = 1) -> Converted:
    """`p edge n m`, then lines `e i j`, or `a i j w` with a weight. A pair that stands twice without weights is one edge."""
    lines = lines_of(text, starts_with("c"))
    if not lines or lines[0].first.text != "p":
        at = lines[0].first if lines else Token("", 1, 1)
        at.refuse("the first line must be 'p edge', the number of vertices and the number of edges")
    only_one(number, lines[0].first)
    lines[0].only(4, "the first line is 'p edge', the number of vertices and the number of edges")
    vertices, announced = lines[0][2].whole("the number of vertices", least=0), lines[0][3].whole("the number of edges", least=0)
    rows: list[tuple[Line, int]] = []
    dropped, seen = 0, set()
    for row in lines[1:]:
        if row.first.text in _DESCRIPTORS:
            dropped += 1
            continue
        if row.first.text not in ("e", "a"):
            row.first.refuse("an edge begins with 'e' or 'a'")
        row.require(3, "an edge has two vertices")
        if len(row) > 4:
            row[4].refuse("an edge has two vertices and perhaps a weight")
        pair = frozenset((row[1].text, row[2].text))
        if len(row) == 4 or pair not in seen:
            rows.append((row, 1))
        seen.add(pair)
    notes = [f"{dropped} lines that describe vertices are left out"] if dropped else []
    if len(rows) != announced:
        notes.append(f"{announced} edges are announced, and {len(rows)} different ones were read")
    return _cut(vertices, rows, tuple(notes))


def _cut(vertices: int, rows: list[tuple[Line, int]], notes: tuple[str, ...]) -> Converted:
    """The cut of lines whose edge begins at a token of that number."""
    given = [row[at + 2] for row, at in rows if len(row) > at + 2]
    weights, scale = scaled(given, "a weight")
    rest = iter(weights)
    edges, pairs, twice = [], set(), 0
    for row, at in rows:
        i, j = _vertex(row[at], vertices), _vertex(row[at + 1], vertices)
        edges.append((i, j, next(rest) if len(row) > at + 2 else scale))
        pair = (min(i, j), max(i, j))
        twice += pair in pairs
        pairs.add(pair)
    if len(given) < len(rows):
        notes += (f"{len(rows) - len(given)} edges have no weight: they weigh 1",)
    if twice:
        notes += (f"{twice} edges join a pair that an edge before them joins: their weights add up",)
    return Converted(MaxCut(vertices, edges), Reading("weight across", scale), notes + scale_note("weights", scale))


def _vertex(token: Token, vertices: int) -> int:
    if token.text == "0":
        token.refuse("vertices are numbered from 1; a file that numbers them from 0 is not of this form")
    return token.whole("a vertex", least=1, most=vertices) - 1


FORMS = (
    Form("rudy", "a graph of rudy, G-set or the Biq Mac library", read_rudy, (".rud", ".rudy", ".mc", ".gset")),
    Form("dimacs", "a graph of DIMACS", read_dimacs, (".col", ".clq", ".dimacs")),
)
