"""Tours with time windows: lists, as Lopez-Ibanez has them, files of Dumas, and files of Ascheuer, Fischetti and Groetschel (AFG)."""

from __future__ import annotations

import re
from collections.abc import Sequence
from dataclasses import replace
from math import isqrt

from ..errors import TextRefused
from ..instances import Tsptw
from ..texts import Line, Token, Tokens, lines_of, starts_with
from .base import Converted, Form, Reading, only_one, scale_note, scaled

_LAST = "999"
_DUMAS_FIELDS = 7
_TRAVEL = "the value is the negated time of the return; tables that give the time on the way leave out what is waited and served"


def read_list(text: str, number: int = 1) -> Converted:
    """`n`, the distances by row, then an opening and a closing for each node; numbers may have decimals. Comments begin with `#`."""
    lines = lines_of(text, starts_with("#"))
    tokens = Tokens(lines)
    first = tokens.take("the number of nodes")
    only_one(number, first)
    count = first.whole("the number of nodes", least=1)
    found = [tokens.take("a distance") for _ in range(count * count)] + [tokens.take("a window") for _ in range(2 * count)]
    tokens.end("the windows")
    return _tour(found, count, ())


def read_afg(text: str, number: int = 1) -> Converted:
    """TSPLIB's keywords: DIMENSION, EDGE_WEIGHT_SECTION with a full matrix, TIME_WINDOW_SECTION with a node, an opening and a closing."""
    lines = lines_of(text, separator=":")
    sections = {line.first.text: at for at, line in enumerate(lines) if line.first.text[0].isalpha()}
    for name in ("DIMENSION", "EDGE_WEIGHT_SECTION", "TIME_WINDOW_SECTION"):
        if name not in sections:
            raise TextRefused(f"the section {name} is not there", lines[-1].number if lines else 1, lines[-1].end if lines else 1)
    only_one(number, lines[0].first)
    _require_full_matrix(lines, sections)
    dimension = lines[sections["DIMENSION"]]
    dimension.only(2, "DIMENSION is followed by the number of nodes")
    count = dimension[1].whole("the number of nodes", least=1)
    distances = Tokens(_section(lines, sections["EDGE_WEIGHT_SECTION"]))
    found = [distances.take("a distance") for _ in range(count * count)]
    distances.end("the distances")
    windows = _section(lines, sections["TIME_WINDOW_SECTION"])
    for at, line in enumerate(windows[:count], 1):
        line.only(3, "a window is a node, an opening and a closing")
        line[0].whole("the number of the node", least=at, most=at)
        found += [line[1], line[2]]
    if len(windows) < count:
        raise TextRefused(f"windows of {count} nodes must stand here", lines[-1].number, lines[-1].end)
    if len(windows) > count and windows[count].first.text != "-1":
        windows[count].first.refuse("nothing may stand after the windows")
    return _tour(found, count, ())


def read_dumas(text: str, number: int = 1) -> Converted:
    """Rows of number, x, y, demand, opening, closing and service, up to number 999. Distances are Euclidean, rounded down.

    The service of a node is added to the ways out of it, and the first row is node 0.
    """
    every = lines_of(text)
    head = next((at for at, line in enumerate(every) if line.first.text.upper().startswith("CUST")), None)
    if head is None:
        raise TextRefused("a line that begins with CUST NO. must stand before the rows", 1, 1)
    only_one(number, every[head].first)
    rows = every[head + 1 :]
    end = next((at for at, line in enumerate(rows) if line.first.text == _LAST), len(rows))
    for line in rows[:end]:
        line.only(_DUMAS_FIELDS, "a row has a number, x, y, a demand, an opening, a closing and a service time")
    if not end:
        raise TextRefused("rows of nodes must stand here", every[head].number, every[head].end)
    rows = rows[:end]
    distances = _euclidean(rows)
    for line in rows:
        for at, what in ((4, "an opening"), (5, "a closing"), (6, "a service time")):
            if line[at].decimal(what) % 1:
                line[at].refuse(f"{what} must be whole, since distances are")
    service = [int(line[6].decimal("a service time")) for line in rows]
    ways = [[way + service[i] if i != j else 0 for j, way in enumerate(row)] for i, row in enumerate(distances)]
    windows = [(int(line[4].decimal("an opening")), int(line[5].decimal("a closing"))) for line in rows]
    _require_windows([(line[4], line[5]) for line in rows])
    notes = ["distances are Euclidean and rounded down; the service of a node is part of the ways out of it"]
    if (triple := _broken_triangle(ways)) is not None:
        notes.append(f"the rounding breaks the triangle inequality, from {triple[0]} by {triple[1]} to {triple[2]}: published values may be of mended distances")
    return Converted(Tsptw(ways, windows), Reading("return time", sign=-1), (*notes, _TRAVEL))


def join_end_depot(converted: Converted) -> Converted:
    """Makes node 0 of a file whose last node is the end of the way: ways into the last node become ways into node 0.

    The tour then ends with the closing of the last node. An opening of the last node that is later than that of node 0 is refused,
    since a tour's end does not wait.
    """
    tour = converted.instance
    if not isinstance(tour, Tsptw) or tour.size < 2:
        raise TextRefused("only a tour of at least two nodes has an end depot")
    if tour.windows[-1][0] > tour.windows[0][0]:
        raise TextRefused(f"the end depot opens at {tour.windows[-1][0]}, later than node 0, at {tour.windows[0][0]}")
    rows = [[0 if i == 0 else row[-1], *row[1:-1]] for i, row in enumerate(tour.distances[:-1])]
    windows = [(tour.windows[0][0], tour.windows[-1][1]), *tour.windows[1:-1]]
    notes = (*converted.notes, f"node {tour.size - 1}, the end depot, is node 0 now")
    return replace(converted, instance=Tsptw(rows, windows), notes=notes)


def _tour(found: list[Token], count: int, notes: tuple[str, ...]) -> Converted:
    """The tour of the tokens of distances by row, and then of windows."""
    pairs = [(found[at], found[at + 1]) for at in range(count * count, len(found), 2)]
    _require_windows(pairs)
    numbers, scale = scaled(found, "a time")
    rows = [numbers[at * count : (at + 1) * count] for at in range(count)]
    windows = [(numbers[at], numbers[at + 1]) for at in range(count * count, len(numbers), 2)]
    notes = (*notes, *scale_note("times", scale), _TRAVEL)
    return Converted(Tsptw(rows, windows), Reading("return time", scale, sign=-1), notes)


def _require_windows(pairs: Sequence[tuple[Token, Token]]) -> None:
    for opening, closing in pairs:
        if closing.decimal("a closing") < opening.decimal("an opening"):
            closing.refuse(f"a closing must not be before its opening, {opening.text}")


def _require_full_matrix(lines: list[Line], sections: dict[str, int]) -> None:
    for name, wanted in (("EDGE_WEIGHT_TYPE", "EXPLICIT"), ("EDGE_WEIGHT_FORMAT", "FULL_MATRIX")):
        if name in sections and (line := lines[sections[name]]) and len(line) > 1 and line[1].text != wanted:
            line[1].refuse(f"{name} must be {wanted}")


def _section(lines: list[Line], at: int) -> list[Line]:
    """The lines after a keyword, up to the next one."""
    end = next((it for it in range(at + 1, len(lines)) if re.match(r"[A-Z_]{2,}\Z", lines[it].first.text)), len(lines))
    return lines[at + 1 : end]


def _euclidean(rows: list[Line]) -> list[list[int]]:
    """Distances rounded down, without an error of floating numbers."""
    xs, scale_x = scaled([line[1] for line in rows], "a coordinate")
    ys, scale_y = scaled([line[2] for line in rows], "a coordinate")
    scale = max(scale_x, scale_y)
    points = [(x * (scale // scale_x), y * (scale // scale_y)) for x, y in zip(xs, ys)]
    return [[isqrt((x - u) ** 2 + (y - v) ** 2) // scale for u, v in points] for x, y in points]


def _broken_triangle(ways: list[list[int]]) -> tuple[int, int, int] | None:
    nodes = range(len(ways))
    for i in nodes:
        for k in nodes:
            if i != k and (far := next((j for j in nodes if j not in (i, k) and ways[i][k] + ways[k][j] < ways[i][j]), None)) is not None:
                return i, k, far
    return None


FORMS = (
    Form("tsptw", "a list of distances and windows, as Lopez-Ibanez has it", read_list, (".tsptw",)),
    Form("dumas", "coordinates and windows of Dumas", read_dumas, (".dumas",)),
    Form("afg", "a matrix and windows of Ascheuer, Fischetti and Groetschel", read_afg, (".tw",)),
)
