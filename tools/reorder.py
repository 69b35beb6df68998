#!/usr/bin/env python3
"""Puts an instance into a new order, which makes most searches much shorter: the items of a knapsack by falling profit for each unit of weight, the vertices of
a cut and the variables of a MAX-2SAT instance or of a quadratic one by falling weight.

    tools/reorder.py MODEL FILE                      prints the instance of FILE, renumbered
    tools/reorder.py MODEL FILE --back < REPORT      prints a report on that, with its assignment in the numbers of FILE

MODEL is knapsack, maxcut, max2sat or qubo. The weight of a vertex or a variable is the sum of the sizes of the weights that it has a part in. FILE is read as
the Python client reads it: a text that is no instance is refused with the place of its first fault. Nothing of this is proved: `digest` and `check` speak of
the instance in its new order.
"""

from __future__ import annotations

import os
import sys
from collections.abc import Callable, Iterable, Sequence
from pathlib import Path

sys.path.insert(0, str(Path(__file__).resolve().parent.parent / "python"))

try:
    from hammockdove import HammockdoveError, Instance, Knapsack, Max2Sat, MaxCut, Qubo
except ModuleNotFoundError:
    sys.exit("reorder.py: Python does not find the client `hammockdove`; add its folder to PYTHONPATH")


def falling(weights: Sequence[float]) -> list[int]:
    """The old places in their new order: the greatest weight first."""
    return sorted(range(len(weights)), key=lambda at: -weights[at])


def by_weight(count: int, parts: Iterable[tuple[int, Iterable[int]]]) -> list[int]:
    """The order by the sizes of the weights in which each place has a part."""
    total = [0] * count
    for weight, members in parts:
        for member in set(members):
            total[member] += abs(weight)
    return falling(total)


def places_of(order: Sequence[int]) -> list[int]:
    """The new place of each old one."""
    places = [0] * len(order)
    for new, old in enumerate(order):
        places[old] = new
    return places


def of_knapsack(instance: Knapsack) -> tuple[list[int], Knapsack]:
    items = instance.items
    order = falling([profit / weight if weight else float("inf") for profit, weight, _ in items])
    return order, Knapsack.from_items(instance.capacity, [items[at] for at in order])


def of_cut(instance: MaxCut) -> tuple[list[int], MaxCut]:
    order = by_weight(instance.vertices, ((weight, (i, j)) for i, j, weight in instance.edges))
    place = places_of(order)
    ends = ((sorted((place[i], place[j])), weight) for i, j, weight in instance.edges)
    return order, MaxCut(instance.vertices, [(i, j, weight) for (i, j), weight in ends])


def of_qubo(instance: Qubo) -> tuple[list[int], Qubo]:
    order = by_weight(instance.variables, ((weight, (i, j)) for i, j, weight in instance.lines))
    place = places_of(order)
    ends = ((sorted((place[i], place[j])), weight) for i, j, weight in instance.lines)
    return order, Qubo(instance.variables, [(i, j, weight) for (i, j), weight in ends])


def of_clauses(instance: Max2Sat) -> tuple[list[int], Max2Sat]:
    order = by_weight(instance.variables, ((weight, [abs(it) - 1 for it in literals]) for weight, literals in instance.clauses))
    place = places_of(order)

    def moved(literal: int) -> int:
        variable = place[abs(literal) - 1] + 1
        return variable if literal > 0 else -variable

    return order, Max2Sat(instance.variables, [(weight, tuple(map(moved, literals))) for weight, literals in instance.clauses])


KINDS: dict[str, tuple[type[Instance], Callable]] = {
    "knapsack": (Knapsack, of_knapsack),
    "maxcut": (MaxCut, of_cut),
    "max2sat": (Max2Sat, of_clauses),
    "qubo": (Qubo, of_qubo),
}


def put_back(model: str, order: Sequence[int], line: str) -> str:
    """The line of an assignment in the old numbers; of a cut vertex 1 is on side 0."""
    words = line.split()
    if words[:1] != ["assignment"]:
        return line
    given = [int(word) for word in words[1:]]
    if len(given) != len(order):
        raise ValueError(f"an assignment of {len(given)} numbers to an instance of {len(order)}")
    values = [given[place] for place in places_of(order)]
    if model == "maxcut" and values and values[0] == 1:
        values = [1 - value for value in values]
    return " ".join(["assignment", *map(str, values)])


def run(model: str, file: str, back: bool) -> None:
    kind, reordered = KINDS[model]
    order, instance = reordered(kind.from_text(Path(file).read_text(encoding="utf-8")))
    if not back:
        sys.stdout.write(instance.text())
        return
    for line in sys.stdin:
        print(put_back(model, order, line.rstrip("\n")))


def main() -> None:
    if len(sys.argv) not in (3, 4) or sys.argv[1] not in KINDS or sys.argv[3:] not in ([], ["--back"]):
        sys.exit(__doc__)
    model, file = sys.argv[1:3]
    try:
        run(model, file, len(sys.argv) == 4)
        sys.stdout.flush()
    except BrokenPipeError:
        # Whoever reads has enough; the interpreter flushes once more at its end.
        os.dup2(os.open(os.devnull, os.O_WRONLY), sys.stdout.fileno())
    except OSError as fault:
        sys.exit(f"reorder.py: {file}: {fault.strerror}")
    except (HammockdoveError, ValueError) as fault:
        sys.exit(f"reorder.py: {file}: {fault}")


if __name__ == "__main__":
    main()
