#!/usr/bin/env python3
"""Makes a table from a small dynamic program that is written in Python.

    python3 tools/table.py PROGRAM.py > problem.json

`./hammockdove solve table < problem.json` tests the laws of the document and solves it; docs/OWN_PROBLEM.md has examples.

PROGRAM.py is a module with these names:

    layers                      the number of decisions of a solution
    initial()                   the first state
    decisions(layer, state)     the decisions that are allowed there, numbers from 0 on
    step(layer, state, d)       the state that a decision leads to
    gain(layer, state, d)       what it adds to the value, a whole number
    merge(layer, x, y)          optional: a state that can do what x and y can
    root_value                  optional: the value before the first decision, 0 without it

A state is any value that can be a key of a dictionary; two states of a layer that are equal are one. The value of a solution
is to be as great as possible: costs are negative gains.

The tool enumerates the states of each layer, and works from the last layer back: the rough bound of a state is what its best
continuation gains, and the gap of a state to another is the least with which every continuation of the other is matched,
decision by decision. A merge is the state whose gaps to both are least. One of the two always has a gap to the other, the one
that leads on for more layers, so there is always such a state. With `merge` a merge is the state that it gives, which is added
where it is new, unless that has no gap to both. A layer that no decision leads to has one state, which is not reached: then there is
no solution. With `--states` the states and their numbers go to standard error.

A table has at most 64 decisions in a row, 32 states in a layer, 32 decisions in a state, and numbers of at most 2^50 in size.
The tool says which limit a program passes, and where.
"""

import argparse
import importlib.util
import json
import sys

MOST_LAYERS = 64
MOST_STATES = 32
MOST_CHOICES = 32
MOST_NUMBER = 2**50


class Unreached:
    """The state of a layer that no decision leads to."""

    def __repr__(self):
        return "not reached"


class TableError(Exception):
    """A program that has no table, with the reason."""


def load(path):
    """The module at the path, which has all names of a program."""
    spec = importlib.util.spec_from_file_location("program", path)
    if spec is None:
        raise TableError(f"{path} is no module: its name has to end in .py")
    module = importlib.util.module_from_spec(spec)
    try:
        spec.loader.exec_module(module)
    except OSError as fault:
        raise TableError(f"{path}: {fault.strerror}") from None
    for name in ("layers", "initial", "decisions", "step", "gain"):
        if not hasattr(module, name):
            raise TableError(f"{path} has no {name}")
    return module


class Layer:
    """The states of a layer, with what their decisions lead to: moves[state][decision] is (next state, gain)."""

    def __init__(self, number):
        self.number = number
        self.states = []
        self.moves = []
        self.places = {}

    def add(self, state):
        """The number of the state, which is added where it is new."""
        if state not in self.places:
            if len(self.states) == MOST_STATES:
                raise TableError(
                    f"layer {self.number} has more than {MOST_STATES} states, one of them {state!r}"
                )
            self.places[state] = len(self.states)
            self.states.append(state)
        return self.places[state]


def whole(number, what):
    """The number, where it is a whole one of at most 2^50 in size."""
    if isinstance(number, bool) or not isinstance(number, int):
        raise TableError(f"{what} is {number!r}, which is no whole number")
    if abs(number) > MOST_NUMBER:
        raise TableError(f"{what} is {number}, which is more than 2^50 in size")
    return number


def moves_of(program, k, state):
    """The next state and the gain of each decision of a state of the program."""
    moves = {}
    for d in program.decisions(k, state):
        where = f"decision {d!r} of the state {state!r} at layer {k}"
        if isinstance(d, bool) or not isinstance(d, int) or d < 0:
            raise TableError(f"{where} is no number from 0 on")
        if d >= MOST_CHOICES:
            raise TableError(f"{where} is not below {MOST_CHOICES}")
        gain = whole(program.gain(k, state, d), f"the gain of {where}")
        moves[d] = (program.step(k, state, d), gain)
    return moves


def add_merges(program, layer):
    """Adds the state that each two states of the layer have in common."""
    if not hasattr(program, "merge"):
        return
    # States that are added here are merged in their turn.
    for s, second in enumerate(layer.states):
        for first in layer.states[:s]:
            layer.add(program.merge(layer.number, first, second))
            layer.add(program.merge(layer.number, second, first))


def enumerate_layers(program):
    """The layers with the states that are reached in them."""
    n = program.layers
    if isinstance(n, bool) or not isinstance(n, int) or n < 0:
        raise TableError(f"layers is {n!r}, which is no number from 0 on")
    if n > MOST_LAYERS:
        raise TableError(f"there are {n} layers of decisions, more than {MOST_LAYERS}")
    layers = [Layer(k) for k in range(n + 1)]
    layers[0].add(program.initial())
    for layer in layers:
        if not layer.states:
            layer.add(Unreached())
            layer.moves.append({})
            continue
        add_merges(program, layer)
        for state in layer.states:
            moves = moves_of(program, layer.number, state) if layer.number < n else {}
            layer.moves.append(moves)
            for after, _ in moves.values():
                layers[layer.number + 1].add(after)
    return layers


def rough_bounds(layer, after, rough_after):
    """What the best continuation of each state gains, and None where it has none."""
    bounds = []
    for moves in layer.moves:
        best = None
        for state, gain in moves.values():
            rest = rough_after[after.places[state]]
            if rest is not None and (best is None or gain + rest > best):
                best = gain + rest
        bounds.append(best)
    return bounds


def gap_between(covering, covered, after, gaps_after):
    """The least gap with which each decision of the second state is matched by one of the first, or None."""
    gap = 0
    for state, gain in covered.values():
        least = None
        for other, its_gain in covering.values():
            following = gaps_after[after.places[other]][after.places[state]]
            if following is None:
                continue
            need = gain + following - its_gain
            if least is None or need < least:
                least = need
        if least is None:
            return None
        gap = max(gap, least)
    return gap


def covering(gaps, x, s):
    """The state with gaps to both of which the greater is least, and of such states the first."""
    choices = [
        (max(row[x], row[s]), z)
        for z, row in enumerate(gaps)
        if row[x] is not None and row[s] is not None
    ]
    return min(choices)[1]


def merge_of(program, layer, gaps, x, s):
    """The state that stands for two."""
    if x != s and hasattr(program, "merge"):
        z = layer.places[program.merge(layer.number, layer.states[x], layer.states[s])]
        if gaps[z][x] is not None and gaps[z][s] is not None:
            return z
    return covering(gaps, x, s)


def solve_back(program, layers):
    """The rough bounds, gaps and merges of each layer."""
    tables = []
    after, rough, gaps = None, None, None
    for layer in reversed(layers):
        states = range(len(layer.states))
        if after is None:
            rough, gaps = [0 for _ in states], [[0 for _ in states] for _ in states]
        else:
            moves, following = layer.moves, gaps
            rough = rough_bounds(layer, after, rough)
            gaps = [[gap_between(moves[a], moves[s], after, following) for s in states] for a in states]
        merges = [[merge_of(program, layer, gaps, x, s) for s in states] for x in states]
        tables.append((rough, gaps, merges))
        after = layer
    tables.reverse()
    return tables


def table_of_layer(layer, after, rough, gaps, merges):
    """The layer as an object of the document."""
    where = f"at layer {layer.number}"
    for s, bound in enumerate(rough):
        if bound is not None:
            whole(bound, f"the rough bound of the state {layer.states[s]!r} {where}")
    for a, row in enumerate(gaps):
        for s, gap in enumerate(row):
            if gap is not None:
                whole(gap, f"the gap of {layer.states[a]!r} to {layer.states[s]!r} {where}")
    table = {"states": len(layer.states), "gap": gaps, "merge": merges, "rough": rough}
    if after is None:
        return table
    choices = 1 + max((d for moves in layer.moves for d in moves), default=0)
    table["choices"] = choices
    table["next"] = []
    table["gain"] = []
    for moves in layer.moves:
        row = [moves.get(d) for d in range(choices)]
        table["next"].append([move and after.places[move[0]] for move in row])
        table["gain"].append([move and move[1] for move in row])
    return table


def make(program):
    """The document of a program, and its layers with their states."""
    root_value = whole(getattr(program, "root_value", 0), "root_value")
    layers = enumerate_layers(program)
    tables = solve_back(program, layers)
    following = layers[1:] + [None]
    document = {
        "root_value": root_value,
        "layers": [
            table_of_layer(layer, after, *table)
            for layer, after, table in zip(layers, following, tables)
        ],
    }
    return document, layers


def text_of(document):
    """The canonical text of a document."""
    return json.dumps(document, sort_keys=True, separators=(",", ":")) + "\n"


def main(words):
    parser = argparse.ArgumentParser(description=__doc__, formatter_class=argparse.RawDescriptionHelpFormatter)
    parser.add_argument("program", metavar="PROGRAM.py", help="a module with layers, initial, decisions, step and gain")
    parser.add_argument("--states", action="store_true", help="tell the states with their numbers")
    arguments = parser.parse_args(words)
    try:
        document, layers = make(load(arguments.program))
    except TableError as error:
        print(f"table: {error}", file=sys.stderr)
        return 1
    if arguments.states:
        for layer in layers:
            for number, state in enumerate(layer.states):
                print(f"layer {layer.number} state {number}: {state!r}", file=sys.stderr)
    sys.stdout.write(text_of(document))
    return 0


if __name__ == "__main__":
    sys.exit(main(sys.argv[1:]))
