"""Instances of quadratic optimisation: the program's answers against all assignments, and against the cut that each instance equals.

Run as `python3 tools/edge/quadratics.py PROGRAM [COUNT]`. Each of COUNT small random instances (2,000 if not given) is solved by
`PROGRAM solve qubo`. Its value must be the greatest of all assignments, its assignment must have that value, and the maximum cut with
one vertex more must weigh twice as much. One line in ten repeats an earlier pair of variables.
"""

import itertools
import random
import subprocess
import sys


def value_of(lines, xs):
    """The sum of the lines both of whose variables are 1."""
    return sum(q for i, j, q in lines if xs[i - 1] == 1 and xs[j - 1] == 1)


def best_of(n, lines):
    """The greatest value of all assignments."""
    return max(value_of(lines, xs) for xs in itertools.product((0, 1), repeat=n))


def text_of(n, lines):
    return "".join([f"{n} {len(lines)}\n"] + [f"{i} {j} {q}\n" for i, j, q in lines])


def cut_of(n, lines):
    """The graph whose cuts weigh twice the value: vertex 1 is on the side of 0, and vertex i + 1 stands for variable i."""
    edges = []
    for i, j, q in lines:
        if i == j:
            edges.append((1, i + 1, 2 * q))
        else:
            edges += [(1, i + 1, q), (1, j + 1, q), (i + 1, j + 1, -q)]
    return text_of(n + 1, edges)


def drawn(draw):
    """An instance of up to nine variables, of a density and a size of weights that are drawn too."""
    n = draw.randint(0, 9)
    density = draw.choice((0.2, 0.5, 0.9))
    most = draw.choice((1, 5, 100, 250_000_000))
    lines = [
        (i, j, draw.randint(-most, most))
        for i in range(1, n + 1)
        for j in range(i, n + 1)
        if draw.random() < density
    ]
    draw.shuffle(lines)
    if most <= 100:
        lines += [(i, j, draw.randint(-most, most)) for i, j, _ in lines if draw.random() < 0.1]
    return n, lines


def solved(program, problem, text):
    """The value and the assignment that the program finds."""
    run = subprocess.run([program, "solve", problem], input=text.encode(), capture_output=True, check=False)
    rows = run.stdout.decode().splitlines()
    assert run.returncode == 0 and rows[0] == "proved", (problem, text, run)
    assignment = [int(x) for x in rows[2].split()[1:]]
    return int(rows[1].split()[1]), assignment


def main():
    program = sys.argv[1]
    count = int(sys.argv[2]) if len(sys.argv) > 2 else 2000
    draw = random.Random(57)
    for number in range(count):
        n, lines = drawn(draw)
        text = text_of(n, lines)
        best = best_of(n, lines)
        value, assignment = solved(program, "qubo", text)
        assert value == best, (text, value, best)
        assert value_of(lines, assignment) == best, (text, assignment)
        if all(abs(q) <= 100 for _, _, q in lines):
            cut, _ = solved(program, "maxcut", cut_of(n, lines))
            assert cut == 2 * best, (text, cut, best)
    print(f"{count} instances agree")


if __name__ == "__main__":
    main()
