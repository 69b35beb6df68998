"""Parts of a stopped search: over recorded outputs, and over the program where it has the words."""

import unittest
from unittest import mock

from support import ProgramCase, RoomCase, bytes_of, can_split, needs_program, part_of_search, small_search, takes_incumbents

import hammockdove.journal
from hammockdove import (
    HammockdoveError,
    InputTooLong,
    JournalRefused,
    Knapsack,
    NotBegun,
    Outcome,
    PartInterrupted,
    PartOutcome,
    PartResult,
    ReportRefused,
    ReportsRefused,
    Solver,
    Stop,
    WordsRefused,
)

THREE = Knapsack(10, [60, 50, 70], [5, 4, 6])
DIGEST = bytes_of(small_search(2)[:3])[-33:-1].hex()


def report(index, value="120", assignment="0 1 1", first="settled", rest=""):
    return f"{first}\npart {index}/2\njournal {DIGEST}\nvalue {value}\nassignment {assignment}\n{rest}"


class RecordedTests(RoomCase):
    """The program's words are those of a script, which keeps them and answers what was recorded."""

    def setUp(self):
        super().setUp()
        self.journal, self.part = self.room / "journal", self.room / "part"
        self.journal.write_bytes(bytes_of(small_search(2)[:3]))
        self.part.write_bytes(bytes_of(part_of_search(1)))

    def answers(self, output, status=0, wait=""):
        """A solver whose program prints this, but waits before where the budget is not 0."""
        (self.room / "output").write_bytes(output if isinstance(output, bytes) else output.encode())
        script = self.room / "program"
        script.write_text(
            f"#!/bin/sh\necho \"$@\" >>'{self.room}/words'\ncase \"$*\" in *'--budget 0') ;; *) {wait or ':'} ;; esac\n"
            f"case \"$*\" in join*|*--incumbent*) cat >'{self.room}/input' ;; esac\ncat '{self.room}/output'\nexit {status}\n"
        )
        script.chmod(0o755)
        return Solver(str(script))

    def words(self):
        return (self.room / "words").read_text().splitlines()

    def test_split(self):
        data = bytes_of(part_of_search(0))
        self.assertEqual(self.answers(data).split(self.journal, 0, 2), data)
        self.assertEqual(self.words(), [f"split {self.journal} --part 0/2"])
        with self.assertRaises(JournalRefused) as caught:
            self.answers("journal damaged 67\n", 5).split(self.journal, 0, 2)
        self.assertEqual((caught.exception.cause, caught.exception.number), ("damaged", 67))
        self.assertRaises(WordsRefused, self.answers("words number part\n", 4).split, self.journal, 2, 2)
        self.assertRaises(NotBegun, self.answers(data).split, self.room / "none", 0, 2)

    def test_resume_part(self):
        result = self.answers(report(1, rest="taken 1\nfinished 1\n")).resume_part(self.part, width=1, workers=2)
        self.assertEqual(self.words(), [f"resume {self.part} --workers=2 --width=1 --stats"])
        self.assertEqual((result.outcome, result.value, result.bound, result.journal), (PartOutcome.SETTLED, 120, 120, self.part))
        self.assertEqual(result.part, hammockdove.journal.read(self.part)[0].part)
        stopped = self.answers(report(1, "110", "1 1 0", "stopped budget", "bound 120\ntaken 0\nfinished 0\n"), 2).resume_part(self.part, budget=0)
        self.assertEqual((stopped.stop, stopped.value, stopped.bound, stopped.taken), (Stop.BUDGET, 110, 120, 0))

    def test_incumbents(self):
        first = self.answers(report(0)).resume_part(self.part)
        solver = self.answers(report(1))
        for incumbents, given in (([first], report(0)), ([report(0).encode(), report(1)], report(0) + report(1)), (iter([report(1)]), report(1))):
            solver.resume_part(self.part, incumbents=incumbents, width=1)
            self.assertEqual(self.words()[-1], f"resume {self.part} --incumbent --width=1 --stats")
            self.assertEqual((self.room / "input").read_text(), given)
        result = self.answers("proved\nvalue 120\nassignment 0 1 1\n").resume(self.journal, incumbents=[first])
        self.assertEqual((result.value, self.words()[-1]), (120, f"resume {self.journal} --incumbent --stats"))

    def test_no_incumbents(self):
        (self.room / "input").write_text("as before")
        self.answers(report(1)).resume_part(self.part, incumbents=[])
        self.answers("infeasible\n", 1).resume(self.journal, incumbents=())
        self.assertEqual(self.words(), [f"resume {self.part} --stats", f"resume {self.journal} --stats"])
        self.assertEqual((self.room / "input").read_text(), "as before")

    def test_a_timeout_asks_without_incumbents(self):
        solver = self.answers(report(1, "110", "1 1 0", "stopped budget", "bound 120\n"), 2, wait="sleep 600")
        solver.resume_part(self.part, incumbents=[report(0)], timeout=0.5)
        self.assertEqual(self.words()[-1], f"resume {self.part} --budget 0")

    def test_refused_incumbents(self):
        for text, status, kind in (("reports value 0\n", 9, ReportsRefused), ("report word 1 1\n", 3, ReportRefused), ("input too-long\n", 3, InputTooLong)):
            with self.subTest(text):
                self.assertRaises(kind, self.answers(text, status).resume_part, self.part, incumbents=[report(0)])
                self.assertRaises(kind, self.answers(text, status).resume, self.journal, incumbents=[report(0)])

    def test_timeout(self):
        solver = self.answers(report(1, "110", "1 1 0", "stopped budget", "bound 120\n"), 2, wait="sleep 600")
        result = solver.resume_part(self.part, timeout=0.5)
        self.assertEqual((result.outcome, result.stop, result.value, result.bound), (PartOutcome.STOPPED, Stop.TIMEOUT, 110, 120))
        self.assertEqual(self.words()[-1], f"resume {self.part} --budget 0")

    def test_interrupt(self):
        solver = self.answers(report(1, "110", "1 1 0", "stopped budget", "bound 120\n"), 2, wait="sleep 600")
        with mock.patch("hammockdove.solver._wait", side_effect=KeyboardInterrupt), self.assertRaises(PartInterrupted) as caught:
            solver.resume_part(self.part)
        self.assertEqual((caught.exception.result.stop, caught.exception.result.bound), (Stop.INTERRUPT, 120))
        self.assertEqual(str(caught.exception), f"part 1/2 stopped (interrupt): value 110, bound 120; resume {str(self.part)!r}")

    def test_a_part_is_no_whole_search(self):
        solver = self.answers(report(1))
        self.assertRaisesRegex(HammockdoveError, "resume_part", solver.resume, self.part)
        self.assertRaisesRegex(HammockdoveError, "resume_part", solver.status, self.part)
        self.assertRaisesRegex(HammockdoveError, "not the journal of a part", solver.resume_part, self.journal)
        self.assertRaises(NotBegun, solver.resume_part, self.room / "none")
        self.assertFalse((self.room / "words").exists())

    def test_join(self):
        parts = [self.answers(report(it)).resume_part(self.part) for it in range(2)]
        solver = self.answers("proved\nvalue 120\nassignment 0 1 1\n")
        result = solver.join_parts(self.journal, [parts[0], report(1)])
        self.assertEqual((result.outcome, result.value, result.bound, result.journal), (Outcome.PROVED, 120, 120, self.journal))
        self.assertEqual((self.room / "input").read_text(), report(0) + report(1))
        self.assertEqual(self.words()[-1], f"join --journal {self.journal}")
        self.assertEqual(self.answers("infeasible\n", 1).join_parts(self.journal, parts).outcome, Outcome.INFEASIBLE)
        found = self.answers(report(1)).join_parts(self.part, parts)
        self.assertIsInstance(found, PartResult)
        self.assertEqual((found.is_settled, found.part.index, found.journal), (True, 1, self.part))

    def test_refused_reports(self):
        for text, status, kind in (("reports order 1\n", 3, ReportsRefused), ("reports value 0\n", 9, ReportsRefused), ("report word 1 1\n", 3, ReportRefused)):
            with self.subTest(text):
                self.assertRaises(kind, self.answers(text, status).join_parts, self.journal, [])


@needs_program
class ProgramTests(ProgramCase):
    def setUp(self):
        super().setUp()
        if not can_split():
            self.skipTest("the program has no word split")
        self.journal = self.room / "journal"

    def parts_of(self, journal, of, name="part"):
        for index in range(of):
            path = self.room / f"{name}-{index}"
            path.write_bytes(self.solver.split(journal, index, of))
            yield path

    def test_three_items(self):
        self.solver.solve(THREE, width=1, budget=1, journal=self.journal)
        kept = self.journal.read_bytes()
        paths = list(self.parts_of(self.journal, 2))
        self.assertEqual([it.read_bytes()[:-1] for it in paths], [bytes_of(part_of_search(0))[:-1], bytes_of(part_of_search(1)[:2])[:-1]])
        stopped = self.solver.resume_part(paths[0], budget=0)
        self.assertEqual((stopped.stop, stopped.value, stopped.bound), (Stop.BUDGET, 110, 121))
        parts = [self.solver.resume_part(it, width=1) for it in paths]
        self.assertTrue(all(it.is_settled for it in parts))
        self.assertEqual(max(it.value for it in parts), 120)
        result = self.solver.join_parts(self.journal, parts)
        self.assertEqual((result.outcome, result.value, result.assignment), (Outcome.PROVED, 120, (0, 1, 1)))
        self.assertEqual(self.journal.read_bytes(), kept)
        with self.assertRaises(ReportsRefused) as caught:
            self.solver.join_parts(self.journal, parts[::-1])
        self.assertEqual((caught.exception.cause, caught.exception.index), ("order", 0))
        self.assertRaises(ReportRefused, self.solver.join_parts, self.journal, [stopped, parts[1]])

    def test_parts_of_a_part(self):
        cut = self.solver.generate("maxcut", 24, 1)
        best = self.solver.solve(cut, journal=False).value
        self.solver.solve(cut, width=4, budget=5, within=10, journal=self.journal)
        first, second = self.parts_of(self.journal, 2)
        inner = [self.solver.resume_part(it, width=4) for it in self.parts_of(first, 3, "inner")]
        joined = self.solver.join_parts(first, inner)
        self.assertIsInstance(joined, PartResult)
        self.assertEqual((joined.part.index, joined.part.of, joined.within, joined.is_settled), (0, 2, 10, True))
        result = self.solver.join_parts(self.journal, [joined, self.solver.resume_part(second, width=4)])
        self.assertEqual((result.outcome, result.within, cut.value(result.assignment)), (Outcome.PROVED, 10, result.value))
        self.assertTrue(best - 10 <= result.value <= best)

    def test_incumbents(self):
        if not takes_incumbents():
            self.skipTest("the program has no flag --incumbent")
        self.solver.solve(THREE, width=1, budget=1, journal=self.journal)
        first, second = self.parts_of(self.journal, 2)
        found = self.solver.resume_part(second, width=1)
        told = self.solver.resume_part(first, incumbents=[found], budget=0)
        self.assertEqual((found.value, told.value, told.assignment, told.part.index), (120, 120, (0, 1, 1), 0))
        self.assertEqual(self.solver.resume_part(first, budget=0).value, 120)
        parts = [self.solver.resume_part(first, incumbents=[found], width=1), found]
        self.assertEqual((parts[0].value, parts[0].is_settled), (120, True))
        self.assertEqual(self.solver.join_parts(self.journal, parts).value, 120)
        whole = self.solver.resume(self.journal, incumbents=parts[::-1], budget=0)
        self.assertEqual((whole.outcome, whole.value), (Outcome.STOPPED, 120))
        self.assertEqual(self.solver.resume(self.journal, width=1).value, 120)

    def test_refused_incumbents(self):
        if not takes_incumbents():
            self.skipTest("the program has no flag --incumbent")
        self.solver.solve(THREE, width=1, budget=1, journal=self.journal)
        first, second = self.parts_of(self.journal, 2)
        found = self.solver.resume_part(second, width=1)
        kept = first.read_bytes()
        wrong = found.text.replace(b"value 120", b"value 121")
        with self.assertRaises(ReportsRefused) as caught:
            self.solver.resume_part(first, incumbents=[found, wrong])
        self.assertEqual((caught.exception.cause, caught.exception.index, caught.exception.status), ("value", 1, 9))
        stopped = self.solver.resume_part(first, budget=0)
        self.assertRaises(ReportRefused, self.solver.resume_part, first, incumbents=[stopped])
        self.assertRaises(ReportRefused, self.solver.resume_part, first, incumbents=[b""])
        self.assertEqual(first.read_bytes(), kept)


if __name__ == "__main__":
    unittest.main()
