import os
import signal
import subprocess
import sys
import time
import unittest
from pathlib import Path

from support import PATIENCE, PROGRAM, TOP, ProgramCase, RoomCase, best_of, needs_program

import hammockdove
import hammockdove.journal
from hammockdove import (
    HammockdoveError,
    InstanceRefused,
    JournalRefused,
    Knapsack,
    Max2Sat,
    MaxCut,
    Outcome,
    ProgramFailed,
    Solver,
    Stop,
    Table,
    TableRefused,
    Tardiness,
    Tsptw,
    UnknownProblem,
    WordsRefused,
)
from hammockdove.show import contents_of

THREE = Knapsack(10, [60, 50, 70], [5, 4, 6])
LONG = ("maxcut", 40, 1)
"""An instance that takes hours at a width of 2, and has a solution at once."""

INTERRUPTED = """
import signal
import sys
# (a shell that starts the tests in the background has them ignore it)
signal.signal(signal.SIGINT, signal.default_int_handler)
from hammockdove import Interrupted, Solver
solver = Solver(sys.argv[1])
try:
    solver.solve(solver.generate("maxcut", 40, 1), width=2, journal=sys.argv[2])
except Interrupted as stopped:
    print(stopped.result.stop.value, stopped.result.value, stopped.result.bound, stopped.result.journal)
"""


@needs_program
class SolveTests(ProgramCase):
    def test_first_example(self):
        result = self.solver.solve(THREE)
        self.assertEqual((result.outcome, result.value, result.assignment), (Outcome.PROVED, 120, (0, 1, 1)))
        self.assertTrue(result.is_best)
        self.assertIsNone(result.journal)
        self.assertEqual(list(self.room.iterdir()), [], "a search that ends leaves no journal")

    def test_every_problem_against_all_its_solutions(self):
        for instance, choices in (
            (Knapsack(9, [4, 7, 5, 3], [3, 5, 4, 2], [2, 1, 1, 3]), 4),
            (MaxCut(6, [(0, 1, 3), (1, 2, -1), (2, 3, 4), (3, 4, 2), (4, 5, 5), (0, 5, -2), (1, 4, 1)]), 2),
            (Max2Sat(5, [(3, [1, 2]), (2, [-1, 3]), (4, [-2, -3]), (1, [4]), (2, [-4, 5]), (5, [-5, 1]), (1, [])]), 2),
            (Tsptw([[0, 4, 6, 9], [5, 0, 3, 4], [6, 3, 0, 2], [8, 5, 2, 0]], [(1, 40), (0, 20), (9, 15), (4, 30)]), 4),
        ):
            with self.subTest(instance.model):
                result = self.solver.solve(instance, workers=2, width=3)
                self.assertEqual(result.value, best_of(instance, choices))
                self.assertEqual(instance.value(result.assignment), result.value)

    def test_problems_that_this_program_may_not_know(self):
        job = Tardiness([3, 2, 4], [1, 3, 2], [4, 2, 9])
        if self.solver.knows("tardiness"):
            self.assertEqual(self.solver.solve(job).value, -1)
        else:
            self.assertRaises(UnknownProblem, self.solver.solve, job)

    def test_tables(self):
        if not self.solver.knows("table"):
            return
        for name, value, assignment in (
            ("two-steps", 7, (1, 1)),
            ("jobs", -6, (1, 0, 3, 2)),
            ("lots", -99, (5, 0, 5, 0, 2, 5, 0, 0)),
            ("brackets", 63, (0, 1, 2, 2, 0, 1, 2, 1, 2, 2)),
        ):
            with self.subTest(name):
                table = Table.from_text((TOP / f"examples/table/{name}.json").read_text())
                result = self.solver.solve(table, cover=True)
                self.assertEqual((result.value, result.assignment, table.value(assignment)), (value, assignment, value))

    def test_a_table_that_is_refused(self):
        if not self.solver.knows("table"):
            return
        last = {"states": 1, "gap": [[0]], "merge": [[0]], "rough": [1]}
        with self.assertRaises(TableRefused) as caught:
            self.solver.solve(Table([last]))
        self.assertEqual((caught.exception.fault, caught.exception.numbers), ("law", (5, 0, 0, 0)))

    def test_infeasible(self):
        result = self.solver.solve(Tsptw([[0, 9], [9, 0]], [(0, 99), (0, 5)]))
        self.assertEqual((result.outcome, result.value), (Outcome.INFEASIBLE, None))

    def test_within(self):
        result = self.solver.solve(THREE, within=10, width=1)
        self.assertEqual((result.value, result.bound, result.within, result.is_best), (110, 120, 10, False))

    def test_a_journal_keeps_the_distance(self):
        path = self.room / "kept"
        self.solver.solve(THREE, within=10, width=1, budget=0, journal=path)
        self.assertEqual(contents_of(path).head.within, 10)
        result = self.solver.resume(path, width=1)
        self.assertEqual((result.outcome, result.value, result.bound, result.within), (Outcome.PROVED, 110, 120, 10))

    def test_cover(self):
        result = self.solver.solve(THREE, cover=True)
        self.assertTrue(self.solver.check(result))
        wrong = result.text.replace(b"value 120", b"value 121")
        self.assertEqual(self.solver.check(wrong).test, "value")

    def test_budget_and_resume(self):
        path = self.room / "kept"
        result = self.solver.solve(THREE, width=1, budget=1, journal=path)
        self.assertEqual((result.stop, result.value, result.bound, result.journal), (Stop.BUDGET, 110, 121, path))
        self.assertEqual(self.solver.status(path).bound, 121)
        self.assertRaises(JournalRefused, self.solver.solve, THREE, journal=path)
        result = self.solver.resume(path)
        self.assertEqual((result.outcome, result.value), (Outcome.PROVED, 120))

    def test_refusals_have_their_place(self):
        with self.assertRaises(InstanceRefused) as caught:
            self.solver.solve(("knapsack", "1 10\n60 5kg\n"))
        self.assertEqual((caught.exception.fault, caught.exception.line, caught.exception.column), ("not-number", 2, 4))
        self.assertIn("60 5kg", str(caught.exception))
        self.assertRaises(UnknownProblem, self.solver.solve, ("chess", ""))
        self.assertRaises(WordsRefused, self.solver.solve, THREE, width=0)
        self.assertEqual(list(self.room.iterdir()), [], "a refused search leaves no journal")

    def test_damaged_journal(self):
        path = self.room / "kept"
        self.solver.solve(THREE, width=1, budget=1, journal=path)
        data = bytearray(path.read_bytes())
        data[-3] ^= 1
        path.write_bytes(data)
        with self.assertRaises(JournalRefused) as caught:
            self.solver.resume(path)
        self.assertEqual(caught.exception.cause, "damaged")
        with self.assertRaises(hammockdove.JournalDamaged) as own:
            hammockdove.journal.read(path)
        self.assertEqual(own.exception.offset, caught.exception.number)

    def test_digest_and_generate(self):
        spaced = ("knapsack", "3   10\n60 5 1\n50 4 1\n70 6 1\n")
        self.assertEqual(self.solver.digest(THREE), self.solver.digest(spaced))
        self.assertEqual(self.solver.generate("knapsack", 2, 0), Knapsack(68, [1, 18], [19, 49], [2, 2]))
        self.assertRaises(WordsRefused, self.solver.generate, "knapsack", 2, -1)

    def test_progress(self):
        seen = []
        result = self.solver.solve(self.solver.generate("knapsack", 40, 3), width=2, progress=seen.append, every=0.05)
        self.assertTrue(seen and seen[-1].is_done)
        self.assertEqual((seen[-1].best, seen[-1].bound), (result.value, result.value))


@needs_program
class StopTests(ProgramCase):
    def test_timeout(self):
        # (a machine with other work may need more than the first time to begin)
        for seconds in (1, 4, 16, 64):
            began = time.monotonic()
            result = self.solver.solve(self.solver.generate(*LONG), width=2, timeout=seconds)
            self.assertLess(time.monotonic() - began, seconds + PATIENCE)
            self.assertEqual((result.outcome, result.stop), (Outcome.STOPPED, Stop.TIMEOUT))
            if result.value is not None:
                break
        found = self.solver.status(result.journal)
        self.assertEqual((found.value, found.bound, found.assignment), (result.value, result.bound, result.assignment))
        again = self.solver.resume(result.journal, width=2, timeout=1)
        self.assertEqual(again.stop, Stop.TIMEOUT)
        self.assertLessEqual(again.bound, result.bound)
        self.assertGreaterEqual(again.value, result.value)

    def test_timeout_without_a_journal(self):
        result = self.solver.solve(self.solver.generate(*LONG), width=2, timeout=0.5, journal=False)
        self.assertEqual((result.stop, result.value, result.bound, result.journal), (Stop.TIMEOUT, None, None, None))
        self.assertEqual(result.proves, "Nothing.")

    def test_interrupt(self):
        path = self.room / "kept"
        words = [sys.executable, "-c", INTERRUPTED, PROGRAM, str(path)]
        environment = {**os.environ, "PYTHONPATH": str(TOP / "python"), "PYTHONDONTWRITEBYTECODE": "1"}
        with subprocess.Popen(words, stdout=subprocess.PIPE, text=True, env=environment) as child:
            end = time.monotonic() + PATIENCE
            while time.monotonic() < end and child.poll() is None and not (path.exists() and path.stat().st_size > 4_000):
                time.sleep(0.05)
            child.send_signal(signal.SIGINT)
            try:
                printed, _ = child.communicate(timeout=PATIENCE)
            finally:
                child.kill()
        found = self.solver.status(path)
        self.assertEqual(printed.split(), ["interrupt", str(found.value), str(found.bound), str(path)])


class WithoutProgramTests(RoomCase):
    def test_no_such_program(self):
        self.assertRaises(ProgramFailed, Solver(str(self.room / "none")).solve, THREE, journal=False)

    def test_no_such_journal(self):
        for call in (Solver("program").resume, Solver("program").status):
            self.assertRaises(hammockdove.NotBegun, call, self.room / "none")
        self.assertEqual(list(self.room.iterdir()), [])

    def test_killed_program(self):
        script = self.room / "program"
        script.write_text("#!/bin/sh\nkill -9 $$\n")
        script.chmod(0o755)
        self.assertRaisesRegex(ProgramFailed, "signal 9", Solver(str(script)).solve, THREE, journal=False)

    def test_which_program(self):
        kept = {name: os.environ.get(name) for name in ("HAMMOCKDOVE", "PATH")}
        self.addCleanup(lambda: [os.environ.pop(k, None) if v is None else os.environ.__setitem__(k, v) for k, v in kept.items()])
        os.environ["HAMMOCKDOVE"] = "/some/program"
        self.assertEqual(Solver().program, "/some/program")
        del os.environ["HAMMOCKDOVE"]
        os.environ["PATH"] = str(self.room)
        self.assertIn(Path(Solver().program), (TOP / "crates/solver_cli/out/solver_cli", TOP / "hammockdove"))
        (self.room / "hammockdove").write_text("#!/bin/sh\n")
        (self.room / "hammockdove").chmod(0o755)
        self.assertEqual(Solver().program, str(self.room / "hammockdove"))

    def test_errors_are_of_one_kind(self):
        for name in hammockdove.__all__:
            found = getattr(hammockdove, name)
            if isinstance(found, type) and issubclass(found, Exception):
                self.assertTrue(issubclass(found, HammockdoveError), name)


if __name__ == "__main__":
    unittest.main()
