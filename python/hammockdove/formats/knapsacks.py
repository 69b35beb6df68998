"""Knapsacks: Pisinger's files, OR-Library's with one constraint, and lists of values and weights."""

from __future__ import annotations

from collections.abc import Sequence
from decimal import Decimal

from ..errors import TextRefused
from ..instances import Knapsack
from ..texts import Line, Token, Tokens, lines_of
from .base import Converted, Form, Reading, only_one, scale_note, scaled

_CSV_FIELDS = ("n", "c", "z")


def read_pisinger(text: str, number: int = 1) -> Converted:
    """Files of instances as `knapPI`, with lines `n`, `c`, `z` and rows with commas; or the generator's: `n`, rows, then the capacity."""
    lines = lines_of(text, separator=",")
    if not lines:
        raise TextRefused("an instance must stand here", 1, 1)
    if len(lines[0]) == 1 and lines[0].first.text.isdigit():
        only_one(number, lines[0].first)
        return _generated(lines)
    starts = [at for at, line in enumerate(lines) if line.first.text == "n"]
    if not 1 <= number <= len(starts):
        raise TextRefused(f"the file has {len(starts)} instances, and number {number} was asked for", lines[0].number, 1)
    notes = (f"the file has {len(starts)} instances, and number {number} was taken",) if len(starts) > 1 else ()
    return _hard_one(lines[starts[number - 1] :], notes)


def _hard_one(lines: list[Line], notes: tuple[str, ...]) -> Converted:
    """The instance whose lines `n`, `c` and `z` these lines begin with."""
    head: dict[str, Token] = {}
    at = 0
    while at < len(lines) and lines[at].first.text.isalpha():
        if lines[at].first.text in _CSV_FIELDS:
            lines[at].only(2, f"'{lines[at].first.text}' is followed by one number")
            head[lines[at].first.text] = lines[at][1]
        at += 1
    for name in ("n", "c"):
        if name not in head:
            raise TextRefused(f"a line '{name}' must stand before the items", lines[0].number, 1)
    count = head["n"].whole("the number of items", least=0)
    rows = _rows(lines[at : at + count], count, 4, "an item is a number, a profit, a weight and whether it is taken", lines[-1])
    instance = _instance(head["c"], rows)
    known = Decimal(head["z"].whole("the best value")) if "z" in head else None
    taken = [line[3].whole("whether it is taken", least=0, most=1) for line in rows]
    if known is not None:
        notes += (f"the file's best value is {known}",)
        if instance.value(taken) != known:
            notes += ("the file's own solution does not have that value",)
    return Converted(instance, Reading("profit"), notes, known)


def _generated(lines: list[Line]) -> Converted:
    """`n`, a line of number, profit and weight for each item, and the capacity."""
    count = lines[0].first.whole("the number of items", least=0)
    rows = _rows(lines[1 : 1 + count], count, 3, "an item is a number, a profit and a weight", lines[-1])
    last = Tokens(lines[1 + count :])
    if last.peek() is None:
        raise TextRefused("the capacity must stand after the items", lines[-1].number, lines[-1].end)
    capacity = last.take("the capacity")
    last.end("the capacity")
    return Converted(_instance(capacity, rows), Reading("profit"))


def _rows(rows: list[Line], count: int, fields: int, what: str, last: Line) -> list[Line]:
    for at, line in enumerate(rows, 1):
        line.only(fields, what)
        line[0].whole("the number of the item", least=at, most=at)
    if len(rows) < count:
        raise TextRefused(f"{count} items are announced and {len(rows)} stand here", last.number, last.end)
    return rows


def _instance(capacity: Token, rows: list[Line]) -> Knapsack:
    items = [(line[1].whole("a profit", least=0), line[2].whole("a weight", least=0)) for line in rows]
    return Knapsack.from_items(capacity.whole("the capacity", least=0), items)


def read_mknap(text: str, number: int = 1) -> Converted:
    """How many instances, and for each `n m best`, the profits, the weights of each constraint and the capacities. Taken where `m` is 1."""
    tokens = Tokens(lines_of(text))
    first = tokens.take("the number of instances")
    instances = first.whole("the number of instances", least=1)
    if not 1 <= number <= instances:
        raise TextRefused(f"the file has {instances} instances, and number {number} was asked for", first.line, first.column)
    for at in range(1, number + 1):
        count = tokens.take("the number of items").whole("the number of items", least=0)
        constraints = tokens.take("the number of constraints")
        known = tokens.take("the best value").decimal("the best value")
        rows = constraints.whole("the number of constraints", least=1)
        profits = [tokens.take("a profit") for _ in range(count)]
        weights = [tokens.take("a weight") for _ in range(count * rows)]
        capacities = [tokens.take("a capacity") for _ in range(rows)]
    if rows != 1:
        constraints.refuse("a knapsack has one constraint")
    if number == instances:
        tokens.end("the last instance")
    notes = (f"the file has {instances} instances, and number {number} was taken",) if instances > 1 else ()
    best = known if known else None
    notes += (f"the file's best value is {best:f}",) if best is not None else ()
    return _scaled_items(capacities[0], profits, weights, None, notes, best)


def read_list(text: str, number: int = 1) -> Converted:
    """`n capacity`, then a line of profit and weight, and perhaps copies, for each item; numbers may have decimals.

    After the items a solution may stand, a 0 or 1 for each item.
    """
    lines = lines_of(text)
    if not lines:
        raise TextRefused("the number of items must stand here", 1, 1)
    only_one(number, lines[0].first)
    lines[0].only(2, "the first line has the number of items and the capacity")
    count, rows = lines[0][0].whole("the number of items", least=0), lines[1:]
    if len(rows) < count:
        raise TextRefused(f"{count} items are announced and {len(rows)} stand here", lines[-1].number, lines[-1].end)
    for line in rows[:count]:
        line.require(2, "an item is a profit, a weight and perhaps copies")
        if len(line) > 3:
            line[3].refuse("an item is a profit, a weight and perhaps copies")
    copies = [line[2].whole("copies", least=0) if len(line) > 2 else 1 for line in rows[:count]]
    taken, rest = [], Tokens(rows[count:])
    if rest.peek() is not None:
        taken = [rest.take("whether an item is taken").whole("whether an item is taken", least=0, most=1) for _ in range(count)]
        rest.end("the solution")
    profits, weights = [line[0] for line in rows[:count]], [line[1] for line in rows[:count]]
    found = _scaled_items(lines[0][1], profits, weights, copies, (), None)
    if not taken:
        return found
    value = found.instance.value(taken)
    told = "does not fit" if value is None else f"is worth {found.reading.of(value):f}"
    return Converted(found.instance, found.reading, (*found.notes, f"the file's own solution {told}"))


def _scaled_items(
    capacity: Token, profits: Sequence[Token], weights: Sequence[Token], copies: Sequence[int] | None, notes: tuple[str, ...], known: Decimal | None
) -> Converted:
    """Profits have a scale of their own; that of weights changes no value."""
    values, scale = scaled(profits, "a profit")
    loads, of_weights = scaled([capacity, *weights], "a weight")
    notes += scale_note("profits", scale)
    if of_weights > 1:
        notes += (f"weights have decimals: they and the capacity were multiplied by {of_weights}, which changes no value",)
    return Converted(Knapsack(loads[0], values, loads[1:], copies), Reading("profit", scale), notes, known)


FORMS = (
    Form("pisinger", "a knapsack of Pisinger, with commas or as the generator writes it", read_pisinger, (".csv", ".in")),
    Form("mknap", "a knapsack of OR-Library, with one constraint", read_mknap, (".mknap",)),
    Form("knapsack", "a list of values and weights", read_list, (".kp",)),
)
