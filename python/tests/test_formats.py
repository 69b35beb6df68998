"""Every converter on the samples, against evaluations of the files of their own, and every refusal with its place."""

import itertools
import math
import unittest
from decimal import Decimal

from support import PROGRAM, SAMPLES, TOP, ProgramCase, best_of, needs_program

from hammockdove import PROBLEMS, Outcome, Solver, TextRefused
from hammockdove.formats import FORMS, convert, join_end_depot


def sample(name):
    return (SAMPLES / name).read_text()


def rows_of(text, skip=("#", "c", "!")):
    return [line.split() for line in text.splitlines() if line.strip() and not line.startswith(skip)]


def best_cut(edges, vertices):
    """The greatest weight across, over all sides."""
    sides = itertools.product((0, 1), repeat=vertices)
    return max(sum((w for i, j, w in edges if side[i - 1] != side[j - 1]), Decimal(0)) for side in sides)


def rudy(text):
    (vertices, _), *rows = rows_of(text)
    return best_cut([(int(r[0]), int(r[1]), Decimal(r[2] if len(r) > 2 else 1)) for r in rows], int(vertices))


def dimacs(text):
    pairs = {frozenset(map(int, row[1:])) for row in rows_of(text) if row[0] == "e"}
    return best_cut([(*pair, Decimal(1)) for pair in pairs], 6)


def least_unsatisfied(clauses, variables):
    """The least unsatisfied soft weight of (weight or None for hard, literals); None where hard clauses can't all hold."""
    costs = []
    for values in itertools.product((False, True), repeat=variables):
        broken = [weight for weight, literals in clauses if not any(values[abs(it) - 1] == (it > 0) for it in literals)]
        if None not in broken:
            costs.append(sum(broken))
    return min(costs, default=None)


def wcnf(text):
    rows, top = rows_of(text), None
    if rows[0][0] == "p":
        top = int(rows.pop(0)[4])
    clauses = [(None if row[0] == "h" or int(row[0]) == top else int(row[0]), [int(it) for it in row[1:-1]]) for row in rows]
    return least_unsatisfied(clauses, 4)


def cnf(text):
    rows = rows_of(text.partition("%")[0])[1:]
    return least_unsatisfied([(1, [int(it) for it in row[:-1]]) for row in rows], 4)


def earliest(distance, windows):
    """The earliest return to node 0, over all orders."""
    found = []
    for order in itertools.permutations(range(1, len(windows))):
        now, at = windows[0][0], 0
        for node in (*order, 0):
            now = now + distance(at, node)
            if now > windows[node][1]:
                break
            now, at = max(now, windows[node][0]), node
        else:
            found.append(now)
    return min(found, default=None)


def tsptw(text):
    (count,), *rows = [[Decimal(it) for it in row] for row in rows_of(text)]
    return earliest(lambda i, j: rows[i][j], rows[int(count) :])


def dumas(text):
    rows = [[float(it) for it in row] for row in rows_of(text) if row[0].isdigit() and row[0] != "999"]

    def way(i, j):
        return math.floor(math.hypot(rows[i][1] - rows[j][1], rows[i][2] - rows[j][2])) + int(rows[i][6])

    return earliest(way, [(int(row[4]), int(row[5])) for row in rows])


def afg(text):
    matrix = [list(map(int, row)) for row in rows_of(text.partition("SECTION\n")[2].partition("TIME")[0])]
    windows = [tuple(map(int, row[1:])) for row in rows_of(text.partition("WINDOW_SECTION\n")[2].partition("EOF")[0])]
    return earliest(lambda i, j: matrix[i][j], windows)


def best_packing(items, capacity):
    """The greatest profit of (profit, weight) items, each taken or not."""
    packings = itertools.product((0, 1), repeat=len(items))
    fitting = (it for it in packings if sum(x * w for x, (_, w) in zip(it, items)) <= capacity)
    return max(sum(x * p for x, (p, _) in zip(it, items)) for it in fitting)


def generator(text):
    (_,), *rows, (capacity,) = rows_of(text)
    return best_packing([(int(row[1]), int(row[2])) for row in rows], int(capacity))


def values_and_weights(text):
    (count, capacity), *rows = rows_of(text)
    return best_packing([(Decimal(p), Decimal(w)) for p, w in rows[: int(count)]], Decimal(capacity))


OWN = (
    ("rudy", "bridges.mc", rudy),
    ("rudy", "wheel.rudy", rudy),
    ("rudy", "halves.mc", rudy),
    ("dimacs", "prism.col", dimacs),
    ("wcnf", "wishes.wcnf", wcnf),
    ("wcnf", "rota.wcnf", wcnf),
    ("wcnf", "rota-old.wcnf", wcnf),
    ("wcnf", "clash.wcnf", wcnf),
    ("cnf", "ring.cnf", cnf),
    ("tsptw", "van.tsptw", tsptw),
    ("dumas", "stops.dumas", dumas),
    ("afg", "crane.tw", afg),
    ("pisinger", "two.csv", lambda text: 24),
    ("pisinger", "made.in", generator),
    ("mknap", "two.mknap", lambda text: best_packing([(10, 5), (13, 7), (4, 3), (6, 4)], 12)),
    ("knapsack", "bag.kp", values_and_weights),
)


class RoundTripTests(unittest.TestCase):
    def test_samples_against_all_solutions_of_the_files(self):
        for form, name, own in OWN:
            with self.subTest(name):
                text = sample(name)
                found = convert(form, text)
                choices = found.instance.size if found.instance.model == "tsptw" else 2
                value = best_of(found.instance, choices)
                wanted = own(text)
                if wanted is None:
                    self.assertFalse(found.reading.hard_hold(value))
                else:
                    self.assertTrue(found.reading.hard_hold(value))
                    self.assertEqual(found.reading.of(value), wanted)
                    self.assertEqual(found.reading.value_of(found.reading.of(value)), value)

    def test_converted_texts_read_back(self):
        for form, name, _ in OWN:
            instance = convert(form, sample(name)).instance
            again = PROBLEMS[instance.model].from_text(instance.text())
            self.assertEqual(again.text(), instance.text(), name)

    def test_end_depot(self):
        found = join_end_depot(convert("afg", sample("way.tw")))
        self.assertEqual(found.instance.distances, ((0, 4, 6), (5, 0, 3), (7, 2, 0)))
        self.assertEqual(found.instance.windows, ((0, 40), (0, 20), (5, 25)))
        self.assertEqual(best_of(found.instance, 3), -13)
        self.assertRaises(TextRefused, join_end_depot, convert("rudy", sample("bridges.mc")))

    def test_every_form_has_a_sample(self):
        self.assertEqual({form for form, _, _ in OWN}, set(FORMS))
        named = {name for _, name, _ in OWN} | {"way.tw", "README.md"}
        self.assertEqual({path.name for path in SAMPLES.iterdir()}, named)
        table = (TOP / "docs/FILES.md").read_text()
        for name in FORMS:
            self.assertIn(f"`{name}`", table)

    def test_several_instances_in_a_file(self):
        self.assertEqual(convert("pisinger", sample("two.csv"), 2).instance.text(), "3 9\n7 4\n13 9\n5 4\n")
        self.assertEqual(convert("pisinger", sample("two.csv"), 2).known, 13)
        self.assertRaises(TextRefused, convert, "pisinger", sample("two.csv"), 3)
        self.assertRaises(TextRefused, convert, "rudy", sample("bridges.mc"), 2)
        self.assertEqual(convert("mknap", sample("two.mknap")).known, 23)

    def test_notes(self):
        for form, name, words in (
            ("rudy", "halves.mc", "multiplied by 100"),
            ("rudy", "wheel.rudy", "10 edges have no weight"),
            ("wcnf", "rota.wcnf", "3 hard clauses get the weight 9"),
            ("tsptw", "van.tsptw", "multiplied by 100"),
            ("dumas", "stops.dumas", "rounded down"),
            ("pisinger", "two.csv", "the file's best value is 24"),
            ("knapsack", "bag.kp", "the file's own solution is worth 4.5"),
        ):
            with self.subTest(name):
                self.assertIn(words, " / ".join(convert(form, sample(name)).notes))

    def test_hard_clauses(self):
        found = convert("wcnf", sample("rota.wcnf"))
        value = best_of(found.instance, 2)
        self.assertEqual(found.reading.told(value), "unsatisfied weight 2; all hard clauses hold")
        self.assertEqual(found.reading.told(found.reading.hard_from - 1), "not all hard clauses hold")

    def test_repeated_edges_add_up(self):
        found = convert("rudy", "2 2\n1 2 3\n2 1 4\n")
        self.assertEqual(best_of(found.instance, 2), 7)
        self.assertIn("their weights add up", found.notes[0])


class RefusalTests(unittest.TestCase):
    CASES = (
        ("rudy", "", 1, 1),
        ("rudy", "3\n", 1, 2),
        ("rudy", "3 1\n1 x 2\n", 2, 3),
        ("rudy", "3 1\n1 4 2\n", 2, 3),
        ("rudy", "3 1\n0 2 2\n", 2, 1),
        ("rudy", "3 2\n1 2 2\n", 2, 6),
        ("rudy", "3 1\n1 2 2\n2 3 1\n", 3, 1),
        ("rudy", "3 1\n1 2 2 9\n", 2, 7),
        ("rudy", "2 1\n1 2 0.1234567\n", 2, 5),
        ("dimacs", "e 1 2\n", 1, 1),
        ("dimacs", "p edge 3 1\nz 1 2\n", 2, 1),
        ("dimacs", "p edge 3 1\ne 1 9\n", 2, 5),
        ("wcnf", "p wcnf 3 1 9\n2 1 2 3 0\n", 2, 7),
        ("wcnf", "p wcnf 2 1 9\n2 1 3 0\n", 2, 5),
        ("wcnf", "p wcnf 2 1 9\n2 1 0\n1 2 0\n", 3, 1),
        ("wcnf", "p wcnf 2 2 9\n2 1 0\n", 2, 6),
        ("wcnf", "p cnf 2 2\n", 1, 3),
        ("wcnf", "h 1 2 3 0\n", 1, 7),
        ("wcnf", "x 1 0\n", 1, 1),
        ("wcnf", "3 1 2\n", 1, 6),
        ("wcnf", "h 1 0\n281474976710656 1 0\n", None, None),
        ("cnf", "p cnf 3 1\n1 2 3 0\n", 2, 5),
        ("cnf", "p cnf 3 2\n1 2 0\n%\n0\n", 4, 2),
        ("cnf", "1 2 0\n", 1, 1),
        ("tsptw", "2\n0 1\n1 0\n0 9\n5 4\n", 5, 3),
        ("tsptw", "2\n0 1\n1 0\n0 9\n", 4, 4),
        ("tsptw", "1\n0\n0 9\n7\n", 4, 1),
        ("tsptw", "1\n0\n0 9.1234567\n", 3, 3),
        ("dumas", "1 0 0 0 0 9 0\n", 1, 1),
        ("dumas", "CUST NO.\n1 0 0 0 0 9\n", 2, 12),
        ("dumas", "CUST NO.\n1 0 0 0 0.5 9 0\n", 2, 9),
        ("dumas", "CUST NO.\n1 0 0 0 5 4 0\n", 2, 11),
        ("afg", "DIMENSION: 1\nEDGE_WEIGHT_SECTION\n0\n", 3, 2),
        ("afg", "DIMENSION: 1\nEDGE_WEIGHT_FORMAT: UPPER_ROW\nEDGE_WEIGHT_SECTION\n0\nTIME_WINDOW_SECTION\n1 0 9\n", 2, 21),
        ("afg", "DIMENSION: 1\nEDGE_WEIGHT_SECTION\n0\nTIME_WINDOW_SECTION\n2 0 9\n", 5, 1),
        ("afg", "DIMENSION: 1\nEDGE_WEIGHT_SECTION\n0 4\nTIME_WINDOW_SECTION\n1 0 9\n", 3, 3),
        ("pisinger", "", 1, 1),
        ("pisinger", "a\nn 1\nc 5\n1,2\n", 4, 4),
        ("pisinger", "a\nn 2\nc 5\n1,2,3,0\n", 4, 8),
        ("pisinger", "a\nn 1\nc 5\n2,2,3,0\n", 4, 1),
        ("pisinger", "2\n1 5 6\n2 7 8\n", 3, 6),
        ("pisinger", "1\n1 5 6\n9 9\n", 3, 3),
        ("mknap", "1\n1 2 0\n5\n1\n1\n2 2\n", 2, 3),
        ("mknap", "1\n1 1 0\n5\n1\n", 4, 2),
        ("mknap", "1\n1 1 0\n5\n1\n2\n7\n", 6, 1),
        ("knapsack", "1 5\n3\n", 2, 2),
        ("knapsack", "2 5\n3 1\n", 2, 4),
        ("knapsack", "1 5\n3 1 1 1\n", 2, 7),
        ("knapsack", "1 5\n3 1\n2\n", 3, 1),
    )

    def test_places(self):
        for form, text, line, column in self.CASES:
            with self.subTest(f"{form} {text!r}"):
                with self.assertRaises(TextRefused) as caught:
                    convert(form, text)
                self.assertEqual((caught.exception.line, caught.exception.column), (line, column), str(caught.exception))


@needs_program
class ProgramTests(ProgramCase):
    def test_samples_solved(self):
        for form, name, own in OWN:
            with self.subTest(name):
                text = sample(name)
                found = convert(form, text)
                result = Solver(PROGRAM).solve(found.instance, journal=False)
                self.assertEqual(result.outcome, Outcome.PROVED)
                wanted = own(text)
                self.assertEqual(found.reading.hard_hold(result.value), wanted is not None)
                if wanted is not None:
                    self.assertEqual(found.reading.of(result.value), wanted)
                self.assertEqual(found.instance.value(result.assignment), result.value)

    def test_what_is_read_as_it_is(self):
        for model, form, name in (("maxcut", "rudy", "bridges.mc"), ("max2sat", "cnf", "ring.cnf")):
            self.assertEqual(self.solver.digest((model, sample(name))), self.solver.digest(convert(form, sample(name)).instance))


if __name__ == "__main__":
    unittest.main()
