#!/usr/bin/env python3
"""Times of this program and of other solvers on drawn instances, one process at a time.

    tools/plots/measure.py SOLVER=PATH .. [--sizes MODEL=N,N] [--limit SECONDS] [--out FILE]

SOLVER is `hammockdove`, `plain` (another program with the same words), `toulbar2`, `clasp`, `cbc` or `glpsol`. Each line of the output is
MODEL, N, SEED, SOLVER, processor seconds (user and system), and the value, or `limit` where the limit came first. A solver that met the limit
is not tried on greater sizes. Where two solvers give different values the last line says so, and the status is 1.
"""
import argparse
import os
import re
import resource
import subprocess
import sys
import tempfile

import instances

FORMS = {"hammockdove": "own", "plain": "own", "toulbar2": "wcnf", "clasp": "wcnf", "cbc": "lp", "glpsol": "lp"}
SOLVES = {
    "knapsack": ("hammockdove", "plain", "cbc", "glpsol"),
    "maxcut": ("hammockdove", "plain", "toulbar2", "clasp", "cbc"),
    "max2sat": ("hammockdove", "plain", "toulbar2", "clasp"),
    "tsptw": ("hammockdove", "plain"),
    "tardiness": ("hammockdove",),
}
SIZES = {"knapsack": [100, 200, 400, 700, 1000], "maxcut": [20, 30, 40, 44, 48, 50], "max2sat": [20, 40, 60, 70, 80, 84], "tsptw": [50, 100, 150, 200],
         "tardiness": [10, 20, 25, 30, 35, 40]}
COST = {"toulbar2": rb"Optimum: (\d+)", "clasp": rb"Optimization\s*: (\d+)"}


def command(solver, path, model, file, limit):
    if solver in ("hammockdove", "plain"):
        return [path, "solve", model]
    if solver == "toulbar2":
        return [path, file]
    if solver == "clasp":
        return [path, "--quiet=1,1", file]
    if solver == "cbc":
        return [path, file, "solve", "solution", file + ".sol"]
    return [path, "--lp", file, "-o", file + ".sol"]


def value_in(solver, output, file, model, size, seed):
    """The proved value that the solver printed, or none."""
    if solver in ("hammockdove", "plain"):
        found = re.match(rb"proved\nvalue (-?\d+)", output)
        return found and int(found[1])
    if solver == "cbc":
        found = re.search(rb"Result - Optimal solution found\s+Objective value:\s+(-?[\d.]+)", output)
        return found and abs(round(float(found[1])))
    if solver == "glpsol":
        with open(file + ".sol", "rb") as solution:
            found = re.search(rb"INTEGER OPTIMAL\nObjective:\s+obj = (-?[\d.e+]+)", solution.read())
        return found and round(float(found[1]))
    if solver == "clasp" and b"OPTIMUM FOUND" not in output:
        return None
    found = re.search(COST[solver], output)
    return found and instances.value_of_cost(model, size, seed, int(found[1]))


def timed(solver, path, model, size, seed, limit):
    with tempfile.TemporaryDirectory() as room:
        form = FORMS[solver]
        file = os.path.join(room, "instance." + ("txt" if form == "own" else form))
        with open(file, "w") as out:
            out.write(instances.text(model, size, seed, form))
        before = resource.getrusage(resource.RUSAGE_CHILDREN)
        with open(file, "rb") as source:
            limits = lambda: resource.setrlimit(resource.RLIMIT_CPU, (limit, limit + 1))
            done = subprocess.run(command(solver, path, model, file, limit), stdin=source, stdout=subprocess.PIPE,
                                  stderr=subprocess.DEVNULL, preexec_fn=limits)
        after = resource.getrusage(resource.RUSAGE_CHILDREN)
        seconds = after.ru_utime + after.ru_stime - before.ru_utime - before.ru_stime
        try:
            value = value_in(solver, done.stdout, file, model, size, seed)
        except OSError:
            value = None
        return seconds, value


def main():
    words = argparse.ArgumentParser(description=__doc__, formatter_class=argparse.RawDescriptionHelpFormatter)
    words.add_argument("solvers", nargs="+")
    words.add_argument("--sizes", action="append", default=[])
    words.add_argument("--seed", type=int, default=1)
    words.add_argument("--limit", type=int, default=60)
    words.add_argument("--out")
    asked = words.parse_args()
    paths = dict(solver.split("=", 1) for solver in asked.solvers)
    sizes = dict(SIZES)
    for choice in asked.sizes:
        model, _, numbers = choice.partition("=")
        sizes[model] = [int(number) for number in numbers.split(",") if number]
    out = open(asked.out, "a") if asked.out else sys.stdout
    differ = 0
    for model, solvers in SOLVES.items():
        late = set()
        for size in sizes[model]:
            values = set()
            for solver in solvers:
                if solver not in paths or solver in late:
                    continue
                seconds, value = timed(solver, paths[solver], model, size, asked.seed, asked.limit)
                if value is None:
                    late.add(solver)
                else:
                    values.add(value)
                print(model, size, asked.seed, solver, f"{seconds:.3f}", "limit" if value is None else value, file=out, flush=True)
            if len(values) > 1:
                differ += 1
                print(f"# {model} {size}: {sorted(values)}", file=out, flush=True)
    sys.exit(1 if differ else 0)


if __name__ == "__main__":
    main()
