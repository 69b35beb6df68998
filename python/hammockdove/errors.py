"""What can go wrong, with the place where it did."""

from __future__ import annotations


class HammockdoveError(Exception):
    """Every error of this package is one of these."""


class TextRefused(HammockdoveError):
    """A text that this package reads is not in its form.

    `line` and `column` are the place, both from 1; a column counts characters. They are None where no single place is at fault.
    """

    def __init__(self, message: str, line: int | None = None, column: int | None = None) -> None:
        self.message, self.line, self.column = message, line, column
        super().__init__(message if line is None else f"line {line}, column {column}: {message}")


class InvalidInstance(HammockdoveError, ValueError):
    """Lists, arrays or a graph do not make an instance: a shape is wrong, or a number is not whole."""


class Refused(HammockdoveError):
    """The program refused what it was given. `answer` is the line that it printed, `status` its exit status."""

    def __init__(self, answer: str, status: int, message: str) -> None:
        self.answer, self.status = answer, status
        super().__init__(message)


class InstanceRefused(Refused):
    """The instance's text is not in the problem's form.

    `fault` is one of the faults of docs/FORMATS.md; `line` and `column` are its place, both from 1; a column counts bytes.
    """

    def __init__(self, answer: str, status: int, fault: str, line: int, column: int, excerpt: str = "") -> None:
        self.fault, self.line, self.column = fault, line, column
        shown = f": {excerpt}" if excerpt else ""
        super().__init__(answer, status, f"instance refused, {fault} at line {line}, column {column}{shown}")


class TableRefused(Refused):
    """The document is no table whose laws hold.

    `fault` is `json`, `shape` or `law`. `numbers` is nothing or the layer of a shape; of a law its number, the layer, and the two numbers at which its test fails.
    """

    def __init__(self, answer: str, status: int, fault: str, numbers: tuple[int, ...]) -> None:
        self.fault, self.numbers = fault, numbers
        super().__init__(answer, status, f"table refused, {' '.join((fault, *map(str, numbers)))}: {_of_table(fault, numbers)}")


_LAWS = {
    2: "a gap does not hold",
    3: "the gap of a state to itself is not 0",
    4: "a merge has no gap to what it stands for",
    5: "a rough bound does not hold",
    7: "gaps do not add up",
}


def _of_table(fault: str, numbers: tuple[int, ...]) -> str:
    """What is wrong with a table, in words."""
    if fault == "json":
        return "the document is no JSON"
    if fault == "shape" or len(numbers) != 4:
        return f"layer {numbers[0]} has not the form of a layer" if numbers else "the document has not the form of a table"
    law, layer, first, second = numbers
    return f"{_LAWS.get(law, 'a law does not hold')}, at layer {layer} for {first} and {second}"


class CoverRefused(Refused):
    """The text that `check` was given is not a report with a cover. Its fields are those of `InstanceRefused`."""

    def __init__(self, answer: str, status: int, fault: str, line: int, column: int) -> None:
        self.fault, self.line, self.column = fault, line, column
        super().__init__(answer, status, f"no report with a cover, {fault} at line {line}, column {column}")


class ReportRefused(Refused):
    """The text that `join`, or a search that goes on, was given is not the reports of settled parts. Its fields are those of `InstanceRefused`."""

    def __init__(self, answer: str, status: int, fault: str, line: int, column: int) -> None:
        self.fault, self.line, self.column = fault, line, column
        super().__init__(answer, status, f"no report of a settled part, {fault} at line {line}, column {column}")


_OF_REPORTS = {
    "order": ": there must be one of each part, in order",
    "journal": ": it is of another journal than the one that is given, which must be as it was when it was split",
    "distance": ": it is within another distance than the journal",
    "value": ": its assignment does not have its value, so search that part again",
}
_OF_JOURNALS = {
    "exists": ": resume goes on with the search that is there; a new search needs another file",
    "not-begun": ": its search had not begun, and solve begins it; or the file is no journal at all, so look what it holds",
    "version": ": this program reads the versions 1 and 2",
    "damaged": ": something other than a crash changed it; hammockdove.show tells what stands before",
    "malformed": ": something other than a crash changed it; hammockdove.show tells what stands before",
    "no-solution": ": another program wrote it, since no solution of the instance stands there",
}


class ReportsRefused(Refused):
    """The reports are not those of all parts of the journal, in order, or one tells a solution that is none.

    `index` is the place of the first report at fault, from 0. `cause` is `order` if another part or none stands there, `journal` if it is of
    another journal, `distance` if it is within another distance, and `value` if its assignment does not have its value. Of reports that a
    search is given when it goes on, only the value is tested.
    """

    def __init__(self, answer: str, status: int, cause: str, index: int) -> None:
        self.cause, self.index = cause, index
        about = _OF_REPORTS.get(cause, "")
        super().__init__(answer, status, f"reports of parts refused, {cause} at part {index}{about}")


class InputTooLong(Refused):
    """The input is longer than what the program reads: 2^26 bytes, or 2^28 bytes for `check`, `join` and `resume`; or a part does not fit in a journal."""


class UnknownProblem(Refused):
    """This program does not know the problem."""


class WordsRefused(Refused):
    """An option or its value is not one that this program takes."""


class JournalRefused(Refused):
    """The journal cannot be begun or resumed.

    `cause` is `exists`, `not-begun`, `damaged`, `malformed`, `version` or `no-solution`. `number` is the offset of the first bad
    record, or the version that was found; None for the first two.
    """

    def __init__(self, answer: str, status: int, cause: str, number: int | None) -> None:
        self.cause, self.number = cause, number
        where = "" if number is None else f" {number}" if cause == "version" else f" at byte {number}"
        super().__init__(answer, status, f"journal refused, {cause}{where}{_OF_JOURNALS.get(cause, '')}")


class ProgramFailed(HammockdoveError):
    """The program ended without an answer: a device or memory failed it, it was killed, or it could not be built."""

    def __init__(self, message: str, status: int) -> None:
        self.status = status
        super().__init__(message)


class JournalDamaged(HammockdoveError):
    """A journal's bytes are not a row of whole records. `cause` is `damaged`, `malformed` or `version`; `offset` is the record's."""

    def __init__(self, cause: str, offset: int, detail: str) -> None:
        self.cause, self.offset = cause, offset
        super().__init__(f"journal {cause} at byte {offset}: {detail}")


class NotBegun(HammockdoveError):
    """A file that holds no journal yet."""
