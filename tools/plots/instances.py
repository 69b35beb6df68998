#!/usr/bin/env python3
"""The instances that `generate MODEL N SEED` draws, and their translations for other solvers.

    tools/plots/instances.py MODEL N SEED [FORM]     prints one of them

FORM is `own` (the text that this program reads), `wcnf` (clasp, toulbar2) or `lp` (cbc, glpsol). The draws are those of docs/FORMATS.md.
A wcnf tells the weight that is *not* satisfied: `value_of_cost` gives the value back. Tours and jobs have no translation here.
"""
import sys


def draws(seed):
    """The numbers that are drawn from the seed."""
    state = seed
    while True:
        state = (1103515245 * state + 12345) % 2**31
        yield state // 65536


def knapsack(size, seed):
    """The capacity, and the profit, the weight and the copies of each item."""
    drawn = draws(seed)
    items = [(1 + next(drawn) % 100, 1 + next(drawn) % 50, 1 + next(drawn) % 3) for _ in range(size)]
    return sum(weight * copies for _, weight, copies in items) // 2, items


def cut(size, seed):
    """The edges, each with its two vertices from 1 and its weight."""
    drawn = draws(seed)
    edges = []
    for first in range(1, size + 1):
        for second in range(first + 1, size + 1):
            if next(drawn) % 4 == 0:
                weight = next(drawn) % 21 - 10
                if weight:
                    edges.append((first, second, weight))
    return edges


def clauses(size, seed):
    """The clauses, each with its weight and its two literals."""
    drawn = draws(seed)
    made = []
    for _ in range(3 * size):
        literals = []
        for _ in range(2):
            variable = 1 + next(drawn) % size
            literals.append(-variable if next(drawn) % 2 else variable)
        made.append((1 + next(drawn) % 10, literals))
    return made


def tour(size, seed):
    """The distances by row, and the window of each node."""
    drawn = draws(seed)
    distances = [[0 if i == j else 10 + next(drawn) % 41 for j in range(size)] for i in range(size)]
    time, windows = 0, [(0, 0)]
    for node in range(1, size):
        time += distances[node - 1][node]
        windows.append((max(0, time - 40), time + 40))
    windows[0] = (0, time + distances[size - 1][0] + 40)
    return distances, windows


def jobs(size, seed):
    """The processing time, the weight and the due time of each job."""
    drawn = draws(seed)
    return [(1 + next(drawn) % 10, 1 + next(drawn) % 10, next(drawn) % (10 * size)) for _ in range(size)]


def cut_clauses(edges):
    """Clauses of which one is not satisfied exactly if an edge gives away its weight."""
    made = []
    for first, second, weight in edges:
        if weight > 0:
            made += [(weight, [first, second]), (weight, [-first, -second])]
        else:
            made += [(-weight, [first, -second]), (-weight, [-first, second])]
    return made


def wcnf(variables, weighted):
    lines = [f"p wcnf {variables} {len(weighted)} {sum(w for w, _ in weighted) + 1}"]
    lines += [f"{weight} {' '.join(map(str, literals))} 0" for weight, literals in weighted]
    return "\n".join(lines) + "\n"


def lp(goal, limits, bounds, whole):
    """A program in the LP format of CPLEX, which cbc and glpsol read."""
    wrapped = " ".join(goal) or "0 x1"
    lines = ["Maximize", f" obj: {wrapped}", "Subject To"]
    lines += [f" c{number}: {limit}" for number, limit in enumerate(limits, 1)]
    lines += ["Bounds"] + [f" {bound}" for bound in bounds] + ["General"] + [f" {name}" for name in whole] + ["End"]
    return "\n".join(lines).replace(" + ", "\n + ") + "\n"


def knapsack_lp(size, seed):
    capacity, items = knapsack(size, seed)
    goal = [f"+ {profit} x{i}" for i, (profit, _, _) in enumerate(items, 1)]
    weight = " ".join(f"+ {weight} x{i}" for i, (_, weight, _) in enumerate(items, 1))
    names = [f"x{i}" for i in range(1, size + 1)]
    bounds = [f"0 <= x{i} <= {copies}" for i, (_, _, copies) in enumerate(items, 1)]
    return lp(goal, [f"{weight} <= {capacity}"], bounds, names)


def cut_lp(size, seed):
    goal, limits = [], []
    for number, (first, second, weight) in enumerate(cut(size, seed), 1):
        a, b, across = f"x{first}", f"x{second}", f"y{number}"
        goal.append(f"{'+' if weight > 0 else '-'} {abs(weight)} {across}")
        if weight > 0:
            limits += [f"{across} - {a} - {b} <= 0", f"{across} + {a} + {b} <= 2"]
        else:
            limits += [f"{across} - {a} + {b} >= 0", f"{across} + {a} - {b} >= 0"]
    names = [f"x{i}" for i in range(1, size + 1)] + [f"y{i}" for i in range(1, len(goal) + 1)]
    return lp(goal, limits, ["x1 = 0"] + [f"0 <= {name} <= 1" for name in names[1:]], names)


def own(model, size, seed):
    if model == "knapsack":
        capacity, items = knapsack(size, seed)
        lines = [f"{size} {capacity}"] + [" ".join(map(str, item)) for item in items]
    elif model == "maxcut":
        edges = cut(size, seed)
        lines = [f"{size} {len(edges)}"] + [" ".join(map(str, edge)) for edge in edges]
    elif model == "tsptw":
        distances, windows = tour(size, seed)
        lines = [str(size)] + [" ".join(map(str, row)) for row in distances + windows]
    elif model == "tardiness":
        lines = [str(size)] + [" ".join(map(str, job)) for job in jobs(size, seed)]
    else:
        made = clauses(size, seed)
        lines = [f"p wcnf {size} {len(made)}"] + [f"{w} {' '.join(map(str, ls))} 0" for w, ls in made]
    return "\n".join(lines) + "\n"


def text(model, size, seed, form):
    if form == "own":
        return own(model, size, seed)
    if form == "lp":
        return {"knapsack": knapsack_lp, "maxcut": cut_lp}[model](size, seed)
    return wcnf(size, cut_clauses(cut(size, seed)) if model == "maxcut" else clauses(size, seed))


def value_of_cost(model, size, seed, cost):
    """The value of a solution whose wcnf leaves this weight unsatisfied."""
    if model == "maxcut":
        return sum(weight for _, _, weight in cut(size, seed) if weight > 0) - cost
    return sum(weight for weight, _ in clauses(size, seed)) - cost


if __name__ == "__main__":
    if len(sys.argv) not in (4, 5):
        sys.exit(__doc__)
    model, size, seed = sys.argv[1], int(sys.argv[2]), int(sys.argv[3])
    sys.stdout.write(text(model, size, seed, (sys.argv[4:] or ["own"])[0]))
