#!/usr/bin/env python3
"""Tests of tools/table.py: python3 -m unittest tools/test_table.py, at the top of the repository."""

import itertools
import json
import pathlib
import random
import sys
import types
import unittest

sys.path.insert(0, str(pathlib.Path(__file__).parent))
import table  # noqa: E402

EXAMPLES = pathlib.Path(__file__).parent.parent / "examples" / "table"


def best_of_program(program):
    """The greatest value of a solution, by trying all of them, and None where there is none."""

    def best_from(k, state):
        if k == program.layers:
            return 0
        found = None
        for d in program.decisions(k, state):
            rest = best_from(k + 1, program.step(k, state, d))
            if rest is not None:
                value = program.gain(k, state, d) + rest
                found = value if found is None else max(found, value)
        return found

    best = best_from(0, program.initial())
    return None if best is None else getattr(program, "root_value", 0) + best


def best_of_document(document):
    """The same, of the table, by all lists of decisions along the next states."""
    layers = document["layers"]
    best = None
    choices = [range(layer["choices"]) for layer in layers[:-1]]
    for decisions in itertools.product(*choices):
        value, state = document["root_value"], 0
        for layer, d in zip(layers, decisions):
            if layer["next"][state][d] is None:
                break
            value += layer["gain"][state][d]
            state = layer["next"][state][d]
        else:
            best = value if best is None else max(best, value)
    return best


def rests(document, k, state):
    """What each continuation of a state gains."""
    layers = document["layers"]
    if k == len(layers) - 1:
        return [0]
    gains = []
    for after, gain in zip(layers[k]["next"][state], layers[k]["gain"][state]):
        if after is not None:
            gains += [gain + rest for rest in rests(document, k + 1, after)]
    return gains


class Laws(unittest.TestCase):
    """What a table must keep, by its meaning: all continuations of all states are tried."""

    def keeps_laws(self, document):
        for k, layer in enumerate(document["layers"]):
            with self.subTest(layer=k):
                self.keeps_shape(layer)
                self.keeps_laws_of_layer(document, k, layer)

    def keeps_shape(self, layer):
        m = layer["states"]
        self.assertIn(m, range(1, table.MOST_STATES + 1))
        for rows in (layer["gap"], layer["merge"]):
            self.assertEqual([len(row) for row in rows], [m] * m)
        for number in layer["rough"] + [g for row in layer["gap"] for g in row]:
            self.assertTrue(number is None or abs(number) <= table.MOST_NUMBER)

    def keeps_laws_of_layer(self, document, k, layer):
        states = range(layer["states"])
        gap = layer["gap"]
        gains = [rests(document, k, s) for s in states]
        for s in states:
            self.assertEqual(gap[s][s], 0)
            self.assertEqual(layer["rough"][s], max(gains[s], default=None))
        for a, s in itertools.product(states, states):
            z = layer["merge"][a][s]
            self.assertIsNotNone(gap[z][a])
            self.assertIsNotNone(gap[z][s])
            if gap[a][s] is not None and gains[s]:
                self.assertGreaterEqual(max(gains[a]) + gap[a][s], max(gains[s]))
            for b in states:
                if gap[a][b] is not None and gap[b][s] is not None:
                    self.assertLessEqual(gap[a][s], gap[a][b] + gap[b][s])


class Examples(Laws):
    """The worked examples."""

    # Found by trying all orders, all plans and all texts.
    BEST = {"jobs": -6, "lots": -99, "brackets": 63}

    def test_best(self):
        for name, best in self.BEST.items():
            with self.subTest(example=name):
                program = table.load(EXAMPLES / f"{name}.py")
                self.assertEqual(best_of_program(program), best)

    def test_tables(self):
        for name in self.BEST:
            with self.subTest(example=name):
                document, _ = table.make(table.load(EXAMPLES / f"{name}.py"))
                stored = (EXAMPLES / f"{name}.json").read_text()
                self.assertEqual(table.text_of(document), stored)

    def test_laws(self):
        for name in ("jobs", "brackets"):
            with self.subTest(example=name):
                self.keeps_laws(table.make(table.load(EXAMPLES / f"{name}.py"))[0])


def drawn(seed):
    """A program of up to five layers, with transitions and gains that are drawn, some of them to dead ends."""
    draw = random.Random(seed)
    n = draw.randrange(6)
    moves = {}
    for k, state in itertools.product(range(n), range(4)):
        allowed = [d for d in range(3) if draw.random() < 0.6]
        moves[k, state] = {d: (draw.randrange(4), draw.randint(-9, 9)) for d in allowed}
    program = types.SimpleNamespace(
        layers=n,
        root_value=draw.randint(-9, 9),
        initial=lambda: 0,
        decisions=lambda k, s: list(moves[k, s]),
        step=lambda k, s, d: moves[k, s][d][0],
        gain=lambda k, s, d: moves[k, s][d][1],
    )
    if seed % 2:
        program.merge = lambda k, x, y: max(x, y)
    return program


class Drawn(Laws):
    """Programs that are drawn."""

    def test_drawn(self):
        for seed in range(300):
            with self.subTest(seed=seed):
                program = drawn(seed)
                document, _ = table.make(program)
                self.assertEqual(best_of_document(document), best_of_program(program))
                self.keeps_laws(document)
                self.assertEqual(json.loads(table.text_of(document)), document)

    def test_no_solution(self):
        for last in range(3):
            with self.subTest(last=last):
                document, layers = table.make(plain(layers=3, decisions=lambda k, s: [0] if k < last else []))
                self.assertIsNone(best_of_document(document))
                self.keeps_laws(document)
                self.assertEqual(repr(layers[3].states), "[not reached]")


def plain(**changes):
    """A program of two layers with one state in each, with changes."""
    names = {
        "layers": 2,
        "initial": lambda: 0,
        "decisions": lambda k, s: [0],
        "step": lambda k, s, d: 0,
        "gain": lambda k, s, d: 1,
    }
    return types.SimpleNamespace(**{**names, **changes})


class Refusals(unittest.TestCase):
    """Programs that have no table."""

    CASES = [
        ({"layers": 65}, "65 layers of decisions, more than 64"),
        ({"layers": -1}, "layers is -1"),
        ({"layers": 1, "decisions": lambda k, s: [32]}, "not below 32"),
        ({"layers": 1, "decisions": lambda k, s: ["left"]}, "no number from 0 on"),
        ({"decisions": lambda k, s: range(32), "step": lambda k, s, d: (s, d)}, "layer 2 has more than 32 states"),
        ({"gain": lambda k, s, d: 2**50 + 1}, "more than 2^50 in size"),
        ({"gain": lambda k, s, d: 0.5}, "no whole number"),
        ({"gain": lambda k, s, d: 2**50}, "the rough bound of the state 0 at layer 0"),
        ({"root_value": 2**51}, "root_value is"),
    ]

    def test_refusals(self):
        for changes, reason in self.CASES:
            with self.subTest(reason=reason):
                with self.assertRaises(table.TableError) as caught:
                    table.make(plain(**changes))
                self.assertIn(reason, str(caught.exception))

    def test_limits_are_kept(self):
        wide = plain(layers=64, decisions=lambda k, s: range(32), step=lambda k, s, d: d, gain=lambda k, s, d: d)
        document, layers = table.make(plain(layers=64))
        self.assertEqual(len(document["layers"]), 65)
        wide.layers = 2
        document, layers = table.make(wide)
        self.assertEqual([len(layer.states) for layer in layers], [1, 32, 32])


if __name__ == "__main__":
    unittest.main()
