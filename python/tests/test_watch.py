import io
import threading
import unittest
from xml.etree import ElementTree

from support import PATIENCE, ProgramCase, RoomCase, bytes_of, needs_program, small_search

from hammockdove import HammockdoveError, JournalDamaged, NotBegun
from hammockdove.journal import Journal
from hammockdove.plot import Series, plot, series_of, svg_of
from hammockdove.progress import Progress
from hammockdove.watch import Rate, follow, line_of, watch


class Terminal(io.StringIO):
    def isatty(self):
        return True


class Growing(io.StringIO):
    """An output that has the next record written to a journal with each line that comes: first with a closed gate, then with an open one."""

    def __init__(self, path, version):
        super().__init__()
        self.path, self.data = path, bytes_of(small_search(version))
        self.ends = [entry.offset for entry in self.entries()][1:] + [len(self.data) - 1]

    def entries(self):
        self.path.write_bytes(self.data)
        found = list(Journal(self.path).advance())
        self.path.unlink()
        return found

    def write(self, line):
        begin, end = (self.path.stat().st_size - 1 if self.path.exists() else 0), self.ends.pop(0)
        with open(self.path, "r+b" if begin else "wb", buffering=0) as file:
            file.seek(begin)
            file.write(b"\0" + self.data[begin + 1 : end] + b"\0")
            file.seek(begin)
            file.write(b"\1")
        return super().write(line)


class WatchTests(RoomCase):
    def test_growing_file(self):
        for version in (1, 2):
            out = Growing(self.room / f"journal{version}", version)
            last = watch(out.path, every=0.001, seconds=PATIENCE, out=out)
            self.assertEqual((last.best, last.bound, last.finished, last.open, last.is_done), (120, 120, 2, 0, True))
            lines = out.getvalue().splitlines()
            self.assertEqual([line.split("  ")[1] for line in lines], ["best -", "best -", "best 110", "best 110", "best 110", "best 120"])
            self.assertTrue(lines[0].startswith("not begun"), lines[0])
            self.assertRegex(lines[-1], r"^knapsack  best 120  bound 120  gap 0 \(0\.0%\)  finished 2  open 0 .*done$")

    def test_terminal(self):
        path, out = self.room / "journal", Terminal()
        path.write_bytes(bytes_of(small_search(2)))
        watch(path, every=0.01, out=out)
        self.assertTrue(out.getvalue().startswith("\rknapsack"))
        self.assertEqual(out.getvalue().count("\n"), 1)

    def test_damage(self):
        path = self.room / "journal"
        path.write_bytes(bytes_of(small_search())[:100])
        with self.assertRaises(JournalDamaged) as caught:
            watch(path, every=0.01, out=io.StringIO())
        self.assertEqual(str(caught.exception), "journal damaged at byte 67: the file ends inside a record")

    def test_ends_by_time(self):
        found = list(follow(self.room / "none", every=0.01, seconds=0.05))
        self.assertEqual(found[-1], Progress())

    def test_rate(self):
        rate = Rate()
        self.assertIsNone(rate.of(0, 0.0))
        self.assertEqual(rate.of(20, 2.0), 10.0)
        for second in range(3, 40):
            last = rate.of(20 + 5 * (second - 2), float(second))
        self.assertAlmostEqual(last, 5.0)

    def test_line(self):
        self.assertEqual(line_of(Progress("maxcut", 0, None, None, 0, 1), None), "maxcut  best -  bound -  gap -  finished 0  open 1")
        self.assertEqual(
            line_of(Progress("maxcut", 0, 1000, 1250, 12345, 7), 1234.5),
            "maxcut  best 1,000  bound 1,250  gap 250 (25.0%)  finished 12,345  open 7  1,234/s",
        )


@needs_program
class SearchTests(ProgramCase):
    def test_while_a_search_goes_on(self):
        path, seen = self.room / "kept", []
        watcher = threading.Thread(target=lambda: seen.extend(follow(path, every=0.01, seconds=PATIENCE)), daemon=True)
        watcher.start()
        result = self.solver.solve(self.solver.generate("knapsack", 30, 5), width=2, journal=path)
        watcher.join()
        self.assertTrue(seen[-1].is_done)
        self.assertEqual((seen[-1].best, seen[-1].bound), (result.value, result.value))

    def test_bound_is_that_of_the_program(self):
        for budget in (1, 5, 25):
            path = self.room / f"kept{budget}"
            result = self.solver.solve(self.solver.generate("max2sat", 16, 4), width=3, budget=budget, journal=path)
            last = series_of(path).points[-1]
            self.assertEqual((last.best, last.bound), (result.value, result.bound), budget)


class PlotTests(RoomCase):
    def test_svg(self):
        for version in (1, 2):
            path, picture = self.room / "journal", self.room / "search.svg"
            path.write_bytes(bytes_of(small_search(version)))
            plot(path, picture)
            root = ElementTree.fromstring(picture.read_text())
            self.assertEqual(len(root.findall("{*}polyline")), 2)
            self.assertIn("knapsack: 3 subproblems finished, 2 better solutions", picture.read_text())

    def test_series_is_thinned(self):
        points = [Progress("maxcut", 0, 5, 9, at, 3) for at in range(3)]
        self.assertIn("</svg>", svg_of(Series("maxcut", points)))
        self.assertIn("</svg>", svg_of(Series("maxcut", [Progress("maxcut")])))

    def test_refusals(self):
        path = self.room / "journal"
        path.write_bytes(b"\0")
        self.assertRaises(NotBegun, plot, path, self.room / "a.svg")
        path.write_bytes(bytes_of(small_search())[:70])
        self.assertRaises(JournalDamaged, plot, path, self.room / "a.svg")

    def test_other_pictures(self):
        path, picture = self.room / "journal", self.room / "search.png"
        path.write_bytes(bytes_of(small_search()))
        try:
            plot(path, picture)
        except HammockdoveError as fault:
            self.assertIn("needs matplotlib", str(fault))
        else:
            self.assertTrue(picture.read_bytes().startswith(b"\x89PNG"))


if __name__ == "__main__":
    unittest.main()
