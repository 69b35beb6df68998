import unittest
from importlib.util import find_spec

from hammockdove import PROBLEMS, InvalidInstance, Knapsack, Max2Sat, MaxCut, Qubo, Table, Tardiness, TextRefused, Tsptw

TABLE = {"layers": [{"states": 1, "next": [[0, None]], "gain": [[3, None]]}, {"states": 1}], "root_value": 4}


class Graph:
    """As much of a networkx graph as the client asks for."""

    def __init__(self, edges, directed=False):
        self.found, self.directed = edges, directed
        self.nodes = list(dict.fromkeys(name for u, v, _ in edges for name in (u, v)))

    def is_directed(self):
        return self.directed

    def edges(self, data, default):
        return [(u, v, default if weight is None else weight) for u, v, weight in self.found]


class InstanceTests(unittest.TestCase):
    def test_texts(self):
        for instance, text in (
            (Knapsack(10, [60, 50], [5, 4], [1, 3]), "2 10\n60 5\n50 4 3\n"),
            (MaxCut(3, [(0, 1, 4), (1, 2, -2)]), "3 2\n1 2 4\n2 3 -2\n"),
            (Max2Sat(2, [(5, [1, -2]), (1, [2]), (2, [])]), "p wcnf 2 3\n5 1 -2 0\n1 2 0\n2 0\n"),
            (Qubo(3, [(0, 0, 4), (0, 2, -2)]), "3 2\n1 1 4\n1 3 -2\n"),
            (Tsptw([[0, 2], [3, 0]], [(0, 9), (1, 5)]), "2\n0 2\n3 0\n0 9\n1 5\n"),
            (Tardiness([3, 2], [1, 3], [4, 2]), "2\n3 1 4\n2 3 2\n"),
        ):
            with self.subTest(instance.model):
                self.assertEqual(instance.text(), text)
                self.assertEqual(type(instance).from_text(text), instance)

    def test_table_round_trip(self):
        table = Table(TABLE["layers"], 4)
        self.assertEqual(Table.from_text(table.text()), table)
        self.assertEqual((table.size, table.value([0]), table.value([1])), (1, 7, None))

    def test_values(self):
        for instance, assignment, value in (
            (Knapsack(10, [60, 50, 70], [5, 4, 6]), (0, 1, 1), 120),
            (Knapsack(10, [60, 50, 70], [5, 4, 6]), (1, 0, 1), None),
            (Knapsack(10, [60], [5]), (2,), None),
            (MaxCut(3, [(0, 1, 4), (1, 2, -2), (0, 0, 9)]), (0, 1, 1), 4),
            (MaxCut(2, [(0, 1, 4)]), (1, 0), None),
            (Max2Sat(2, [(5, [1, -2]), (1, [2]), (2, []), (3, [1, -1])]), (0, 1), 4),
            (Qubo(3, [(0, 0, 4), (0, 2, -2), (1, 1, 3), (0, 1, 5)]), (1, 1, 0), 12),
            (Qubo(1, [(0, 0, 4)]), (2,), None),
            (Tsptw([[0, 2, 5], [3, 0, 1], [4, 1, 0]], [(0, 20), (4, 5), (0, 9)]), (1, 2, 0), -9),
            (Tsptw([[0, 2, 5], [3, 0, 1], [4, 1, 0]], [(0, 20), (4, 5), (0, 9)]), (2, 1, 0), None),
            (Tsptw([[0]], [(3, 4)]), (0,), -3),
            (Tardiness([3, 2, 4], [1, 3, 2], [4, 2, 9]), (1, 0, 2), -1),
            (Tardiness([3, 2], [1, 3], [4, 2]), (0, 0), None),
        ):
            with self.subTest(f"{instance.model} {assignment}"):
                self.assertEqual(instance.value(assignment), value)

    def test_numbers_are_not_rounded(self):
        self.assertEqual(Knapsack(10.0, [60], [5]).text(), "1 10\n60 5\n")
        for make in (lambda: Knapsack(10, [2.5], [1]), lambda: Knapsack(float("nan"), [], []), lambda: Knapsack(10, ["2"], [1])):
            self.assertRaises(InvalidInstance, make)

    def test_shapes(self):
        for make in (
            lambda: Knapsack(10, [1, 2], [1]),
            lambda: MaxCut(2, [(0, 2, 1)]),
            lambda: MaxCut(2, [(0, 1)]),
            lambda: MaxCut(2, [], ["a"]),
            lambda: MaxCut.from_matrix([[0, 1], [2, 0]]),
            lambda: Qubo(2, [(1, 0, 1)]),
            lambda: Qubo.from_matrix([[0, 1]]),
            lambda: Max2Sat(2, [(1, [1, 2, 1])]),
            lambda: Max2Sat(2, [(1, [3])]),
            lambda: Max2Sat(2, [(1, 2)]),
            lambda: MaxCut(2, [5]),
            lambda: Knapsack(10, 60, [5]),
            lambda: Tsptw([[0]], [3]),
            lambda: Tsptw([[0, 1]], [(0, 1)]),
            lambda: Tsptw([[0]], []),
            lambda: Tardiness([1], [1], []),
            lambda: Table([]),
        ):
            self.assertRaises(InvalidInstance, make)

    def test_places_in_texts(self):
        for model, text, line, column in (
            ("knapsack", "2 10\n60 5\n50 x\n", 3, 4),
            ("knapsack", "2 10\n60 5\n", 2, 5),
            ("knapsack", "1 10\n60 5 1 9\n", 2, 8),
            ("maxcut", "2 1\n1 3 4\n", 2, 3),
            ("max2sat", "p wcnf 2 1\n5 1 2 1 0\n", 2, 7),
            ("tsptw", "1\n0\n5 4\n", 3, 3),
            ("table", '{"layers": [', 1, 13),
        ):
            with self.subTest(f"{model} {text!r}"):
                with self.assertRaises(TextRefused) as caught:
                    PROBLEMS[model].from_text(text)
                self.assertEqual((caught.exception.line, caught.exception.column), (line, column))

    def test_graphs(self):
        cut = MaxCut.from_networkx(Graph([("a", "b", 3), ("b", "c", None)]))
        self.assertEqual((cut.text(), cut.sides([0, 1, 0])), ("3 2\n1 2 3\n2 3 1\n", (["a", "c"], ["b"])))
        self.assertRaises(InvalidInstance, MaxCut.from_networkx, Graph([("a", "b", 3)], directed=True))
        self.assertEqual(MaxCut.from_matrix([[5, 3], [3, 0]]).edges, ((0, 1, 3),))
        self.assertEqual(Qubo.from_matrix([[5, 3], [1, 0]]), Qubo(2, [(0, 0, 5), (0, 1, 4)]))
        self.assertEqual(Qubo.from_weights({(2, 0): -1}), Qubo(3, [(0, 2, -1)]))

    @unittest.skipUnless(find_spec("networkx") and find_spec("numpy"), "networkx and numpy are not there")
    def test_networkx_and_numpy(self):
        import networkx
        import numpy

        graph = networkx.complete_graph(4)
        self.assertEqual(len(MaxCut.from_networkx(graph).edges), 6)
        self.assertEqual(MaxCut.from_matrix(numpy.array([[0, 3], [3, 0]])).text(), "2 1\n1 2 3\n")
        for u, v in graph.edges:
            graph[u][v]["weight"] = numpy.int64(u + v)
        tour = Tsptw.from_networkx(graph, {name: (0, 99) for name in graph}, start=2)
        self.assertEqual(tour.distances[0], (0, 2, 3, 5))


if __name__ == "__main__":
    unittest.main()
