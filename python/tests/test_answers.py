import unittest

from hammockdove import (
    CoverRefused,
    InputTooLong,
    InstanceRefused,
    JournalRefused,
    Outcome,
    Part,
    PartOutcome,
    ProgramFailed,
    ReportRefused,
    ReportsRefused,
    Stop,
    TableRefused,
    UnknownProblem,
    WordsRefused,
)
from hammockdove.answers import Unreadable, error_of, is_of_part, part_result_of, result_of, verdict_of

DIGEST = "53383328f67d28d5f346696950962e4808335eceb5008761d20db91b54962270"
MARK = f"part 1/3\njournal {DIGEST}\n".encode()


class AnswerTests(unittest.TestCase):
    def test_proved(self):
        result = result_of(b"proved\nvalue 120\nassignment 0 1 1\ntaken 3\nfinished 3\n", 0)
        self.assertEqual((result.outcome, result.value, result.assignment, result.bound), (Outcome.PROVED, 120, (0, 1, 1), 120))
        self.assertEqual((result.gap, result.taken, result.finished, result.is_best), (0, 3, 3, True))
        self.assertEqual(result.proves, "The assignment is a feasible solution worth 120, and no solution is worth more than 120.")

    def test_proved_within_with_a_cover(self):
        result = result_of(b"proved within 10\nvalue 110\nassignment 1 1 0\ncover knapsack\nend\n", 0)
        self.assertEqual((result.bound, result.gap, result.within, result.is_best), (120, 10, 10, False))
        self.assertEqual(result.cover, b"cover knapsack\nend\n")

    def test_empty_assignment(self):
        self.assertEqual(result_of(b"proved\nvalue 0\nassignment\n", 0).assignment, ())

    def test_infeasible(self):
        result = result_of(b"infeasible\n", 1)
        self.assertEqual((result.outcome, result.value, result.bound, result.gap), (Outcome.INFEASIBLE, None, None, None))
        self.assertEqual(result.proves, "There is no feasible solution.")

    def test_stopped(self):
        result = result_of(b"stopped budget\nvalue none\nbound 121\n", 2)
        self.assertEqual((result.stop, result.value, result.bound, result.gap), (Stop.BUDGET, None, 121, None))
        self.assertEqual(result.proves, "No solution is worth more than 121.")
        self.assertEqual(result_of(b"stopped memory\nvalue 5\nassignment 1\nbound 9\n", 2).gap, 4)

    def test_cover_without_memory(self):
        result = result_of(b"proved\nvalue 4\nassignment 1\nout of memory\n", 8)
        self.assertTrue(result.lacks_cover)
        self.assertEqual(result.value, 4)

    def test_settled(self):
        result = part_result_of(b"settled\n" + MARK + b"value 64\nassignment 0 1 1\ntaken 4\nfinished 3\n", 0)
        self.assertEqual((result.outcome, result.part), (PartOutcome.SETTLED, Part(1, 3, DIGEST)))
        self.assertEqual((result.value, result.assignment, result.bound, result.taken, result.finished), (64, (0, 1, 1), 64, 4, 3))
        self.assertEqual((result.is_settled, result.proves), (True, "No solution of the part is worth more than 64."))
        self.assertEqual(str(result), "part 1/3 settled: value 64, bound 64")
        result = part_result_of(b"settled within 5\n" + MARK + b"value 64\nassignment 0 1 1\n", 0)
        self.assertEqual((result.within, result.bound, result.taken), (5, 69, None))
        result = part_result_of(b"settled\n" + MARK + b"value none\n", 0)
        self.assertEqual((result.value, result.assignment, result.bound, result.proves), (None, None, None, "The part has no feasible solution."))

    def test_stopped_part(self):
        result = part_result_of(b"stopped budget\n" + MARK + b"value 64\nassignment 0 1 1\nbound 71\n", 2)
        self.assertEqual((result.outcome, result.stop, result.value, result.bound, result.is_settled), (PartOutcome.STOPPED, Stop.BUDGET, 64, 71, False))
        result = part_result_of(b"stopped memory\n" + MARK + b"value none\nbound 71\n", 2)
        self.assertEqual((result.value, result.assignment, str(result)), (None, None, "part 1/3 stopped (memory): value None, bound 71"))

    def test_the_two_kinds_of_reports(self):
        for text, status in ((b"settled\n" + MARK + b"value none\n", 0), (b"stopped budget\n" + MARK + b"value none\nbound 71\n", 2)):
            self.assertTrue(is_of_part(text))
            self.assertRaises(Unreadable, result_of, text, status)
        for text, status in ((b"proved\nvalue 0\nassignment\n", 0), (b"stopped budget\nvalue none\nbound 71\n", 2), (b"infeasible\n", 1)):
            self.assertFalse(is_of_part(text))
            self.assertRaises(Unreadable, part_result_of, text, status)

    def test_verdicts(self):
        self.assertTrue(verdict_of(b"accepted\n", 0))
        verdict = verdict_of(b"refused arc 0 0 1\n", 9)
        self.assertEqual((bool(verdict), verdict.test, verdict.place), (False, "arc", (0, 0, 1)))

    def test_refusals(self):
        for text, status, kind in (
            (b"instance not-number 2 4\n", 3, InstanceRefused),
            (b"table json\n", 3, TableRefused),
            (b"table law 5 0 0 1\n", 3, TableRefused),
            (b"cover word 1 1\n", 3, CoverRefused),
            (b"report word 1 1\n", 3, ReportRefused),
            (b"reports order 2\n", 3, ReportsRefused),
            (b"reports value 0\n", 9, ReportsRefused),
            (b"input too-long\n", 3, InputTooLong),
            (b"part too-long\n", 3, InputTooLong),
            (b"words model\n", 4, UnknownProblem),
            (b"words number width\n", 4, WordsRefused),
            (b"words usage\n", 4, WordsRefused),
            (b"width\n", 4, WordsRefused),
            (b"journal damaged 67\n", 5, JournalRefused),
            (b"journal not-begun\n", 5, JournalRefused),
            (b"read fault\n", 6, ProgramFailed),
            (b"out of memory\n", 8, ProgramFailed),
            (b"disk fault\n", 10, ProgramFailed),
            (b"", 69, ProgramFailed),
            (b"", -9, ProgramFailed),
            (b"hello\n", 0, Unreadable),
        ):
            with self.subTest(text):
                self.assertIs(type(error_of(text, status)), kind)

    def test_places(self):
        fault = error_of(b"instance not-number 2 4\n", 3, b"1 10\n60 5kg\n")
        self.assertEqual((fault.fault, fault.line, fault.column), ("not-number", 2, 4))
        self.assertEqual(str(fault), "instance refused, not-number at line 2, column 4: '60 5kg'")
        self.assertTrue(str(error_of(b"journal damaged 67\n", 5)).startswith("journal refused, damaged at byte 67: something other than a crash"))
        self.assertIn("another program works on it", str(error_of(b"disk fault\n", 10)))
        self.assertIn("in order", str(error_of(b"reports order 1\n", 3)))
        self.assertIn("layer 2 has not the form", str(error_of(b"table shape 2\n", 3)))
        self.assertIn("a rough bound does not hold, at layer 0 for 0 and 1", str(error_of(b"table law 5 0 0 1\n", 3)))
        self.assertEqual(error_of(b"journal version 4\n", 5).number, 4)
        fault = error_of(b"report end-of-text 3 1\n", 3)
        self.assertEqual((fault.fault, fault.line, fault.column), ("end-of-text", 3, 1))
        for cause, status in (("order", 3), ("journal", 3), ("distance", 3), ("value", 9)):
            fault = error_of(f"reports {cause} 2\n".encode(), status)
            self.assertEqual((fault.cause, fault.index, fault.status), (cause, 2, status))


if __name__ == "__main__":
    unittest.main()
