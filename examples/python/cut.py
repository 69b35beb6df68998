"""A cut from a graph to a checked answer, cell by cell as in a notebook:  python3 examples/python/cut.py [VERTICES [SECONDS]]

It needs the client on the path of Python (PYTHONPATH=python in this folder's checkout). networkx and matplotlib are used where they are there.
"""

# %% A graph of towns, with a weight for each road
import random
import sys
from pathlib import Path

try:
    from hammockdove import MaxCut, Progress, Result, Solver
    from hammockdove.plot import plot
except ModuleNotFoundError:
    sys.exit("the client is not there: set PYTHONPATH=python in the checkout, or make install")

try:
    size, seconds = int(sys.argv[1]) if len(sys.argv) > 1 else 36, float(sys.argv[2]) if len(sys.argv) > 2 else 2.0
except ValueError:
    sys.exit(__doc__)
draw = random.Random(7)
roads = [(i, j, draw.randint(1, 20)) for i in range(size) for j in range(i + 1, size) if draw.random() < 0.25]
try:
    import networkx

    graph = networkx.Graph()
    graph.add_nodes_from(f"town {i}" for i in range(size))
    graph.add_weighted_edges_from((f"town {i}", f"town {j}", weight) for i, j, weight in roads)
    cut = MaxCut.from_networkx(graph)
except ImportError:
    graph, cut = None, MaxCut(size, roads, [f"town {i}" for i in range(size)])

# %% A search with a timeout; what it had found is told by the program itself
solver = Solver()


def tell(progress: Progress) -> None:
    print(f"  best {progress.best}, bound {progress.bound}, {progress.open} open")


Path("cut.journal").unlink(missing_ok=True)
result: Result = solver.solve(cut, journal="cut.journal", width=10, timeout=seconds, progress=tell, every=0.5)
print(result, "|", result.proves)

# %% It goes on where it was stopped, as often as it takes
while result.stop is not None:
    result = solver.resume("cut.journal", workers=2, timeout=60, progress=tell, every=5)
print(result, "|", result.proves)

# %% The two sides, and a picture of the search
assert result.assignment is not None and cut.value(result.assignment) == result.value
left, right = cut.sides(result.assignment)
print("left:", *left, "\nright:", *right)
plot("cut.journal", "cut-search.svg")

# %% A cover makes the answer one that is checked without a search
covered = solver.solve(cut, cover=True)
print("accepted:", bool(solver.check(covered)), f"({len(covered.cover or b'') / 1e6:.1f} MB)")

# %% The graph with its sides in two colors
if graph is not None:
    try:
        from matplotlib import pyplot
    except ImportError:
        sys.exit()
    networkx.draw(graph, networkx.bipartite_layout(graph, left), node_color=[result.assignment[i] for i in range(size)], cmap="coolwarm", node_size=60)
    pyplot.savefig("cut.png")
