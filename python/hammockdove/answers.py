"""What the program answers (docs/FORMATS.md, "Printed texts"), as values and as errors."""

from __future__ import annotations

from dataclasses import dataclass, replace
from enum import Enum
from pathlib import Path

from .errors import (
    CoverRefused,
    HammockdoveError,
    InputTooLong,
    InstanceRefused,
    JournalRefused,
    ProgramFailed,
    ReportRefused,
    ReportsRefused,
    TableRefused,
    UnknownProblem,
    WordsRefused,
)
from .journal import Part

NOTHING_SOLVED = 69
_NOT_KNOWN = "this program does not know the problem, or draws no instance of it"
_FAULTS = {
    "read fault": "its input could not be read",
    "disk fault": "the journal's file could not be opened or read, or another program works on it",
    "out of memory": "memory did not suffice",
}
_EXCERPT = 60
_REPORT = frozenset({"value", "assignment", "bound", "taken", "finished"})


class Outcome(Enum):
    """How a search ended."""

    PROVED = "proved"
    INFEASIBLE = "infeasible"
    STOPPED = "stopped"


class Stop(Enum):
    """What stopped a search: its budget, want of memory, its journal's disk, the timeout, or Ctrl-C."""

    BUDGET = "budget"
    MEMORY = "memory"
    JOURNAL = "journal"
    TIMEOUT = "timeout"
    INTERRUPT = "interrupt"


@dataclass(frozen=True)
class Result:
    """What a search found, and what is proved of it.

    `value` and `assignment` are those of the best solution, or None where there is none. No solution is worth more than `bound`; it
    is None where nothing is known, and after `INFEASIBLE`. `within` is the distance that was asked for. `taken` and `finished` count
    the subproblems of this run, where the program told them. `cover` has the cover, `lacks_cover` tells that one was asked for and not
    made. `journal` is the file that a stopped search can be resumed from. `seconds` is the time of the run, and `text` what the
    program printed, which `Solver.check` reads where it has a cover.
    """

    outcome: Outcome
    value: int | None = None
    assignment: tuple[int, ...] | None = None
    bound: int | None = None
    within: int = 0
    stop: Stop | None = None
    taken: int | None = None
    finished: int | None = None
    cover: bytes | None = None
    lacks_cover: bool = False
    journal: Path | None = None
    seconds: float = 0.0
    text: bytes = b""

    @property
    def is_best(self) -> bool:
        """Whether the solution is proved to be a best one."""
        return self.outcome is Outcome.PROVED and self.gap == 0

    @property
    def gap(self) -> int | None:
        """How much more than `value` a solution may be worth; None where that is not known."""
        return None if self.value is None or self.bound is None else self.bound - self.value

    @property
    def proves(self) -> str:
        """What is proved, as a sentence. After a resume it rests on the journal's records being this program's own."""
        if self.outcome is Outcome.INFEASIBLE:
            return "There is no feasible solution."
        most = "" if self.bound is None else f"no solution is worth more than {self.bound}"
        if self.value is None:
            return f"{most.capitalize()}." if most else "Nothing."
        return f"The assignment is a feasible solution worth {self.value}, and {most}."

    def __str__(self) -> str:
        stopped = f" ({self.stop.value})" if self.stop else ""
        return f"{self.outcome.value}{stopped}: value {self.value}, bound {self.bound}, gap {self.gap}"


class PartOutcome(Enum):
    """How the search of a part ended."""

    SETTLED = "settled"
    STOPPED = "stopped"


@dataclass(frozen=True)
class PartResult:
    """What the search of a part of a split search found, and what is proved of the part.

    `part` is its number, how many parts there are, and the digest of the journal that was split. `value` and `assignment` are those of the
    best solution that this part or the search before it found or that it was offered, or None where there is none. No solution of the part is worth more than
    `bound`; it is None where a settled part has no feasible solution. `text` is the report as the program printed it, which
    `Solver.join_parts` reads. The other fields are those of `Result`.
    """

    outcome: PartOutcome
    part: Part
    value: int | None = None
    assignment: tuple[int, ...] | None = None
    bound: int | None = None
    within: int = 0
    stop: Stop | None = None
    taken: int | None = None
    finished: int | None = None
    journal: Path | None = None
    seconds: float = 0.0
    text: bytes = b""

    @property
    def is_settled(self) -> bool:
        """Whether nothing of the part is left to do, so that its report can be joined."""
        return self.outcome is PartOutcome.SETTLED

    @property
    def proves(self) -> str:
        """What is proved of the part, as a sentence. It rests on the journals' records being this program's own."""
        if self.bound is None:
            return "The part has no feasible solution." if self.is_settled else "Nothing."
        return f"No solution of the part is worth more than {self.bound}."

    def __str__(self) -> str:
        stopped = f" ({self.stop.value})" if self.stop else ""
        return f"part {self.part} {self.outcome.value}{stopped}: value {self.value}, bound {self.bound}"


@dataclass(frozen=True)
class Verdict:
    """Whether `check` accepted a report. `test` names the first test that fails, and `place` has its layer, row and decision."""

    accepted: bool
    test: str = ""
    place: tuple[int, ...] = ()

    def __bool__(self) -> bool:
        return self.accepted


class Unreadable(HammockdoveError):
    """The program's text is none that this package knows."""


def result_of(text: bytes, status: int, given: bytes = b"") -> Result:
    """The result that the program printed. Raises the refusal or the failure that it printed in its place.

    `given` is the text that the program read: a refusal shows the line at fault.
    """
    head, cover = _split(text)
    lines = _lines(head, status)
    kind, _, rest = lines[0].partition(" ")
    if kind not in (it.value for it in Outcome) or _is_of_part(lines):
        raise error_of(text, status, given)
    fields = _fields(lines, _REPORT)
    result = Result(
        Outcome(kind),
        value=_number(fields.get("value")),
        assignment=_assignment(fields),
        bound=_number(fields.get("bound")),
        taken=_number(fields.get("taken")),
        finished=_number(fields.get("finished")),
        cover=cover,
        lacks_cover=lines[-1] == "out of memory",
        text=text,
    )
    if result.outcome is Outcome.STOPPED:
        return replace(result, stop=Stop(rest))
    within = _distance(rest)
    return replace(result, within=within, bound=None if result.value is None else result.value + within)


def part_result_of(text: bytes, status: int) -> PartResult:
    """The result of a part that the program printed. Raises the refusal or the failure that it printed in its place."""
    lines = _lines(text, status)
    kind, _, rest = lines[0].partition(" ")
    if kind not in (it.value for it in PartOutcome) or not _is_of_part(lines):
        raise error_of(text, status)
    fields = _fields(lines, _REPORT | {"part", "journal"})
    index, _, of = fields["part"].partition("/")
    result = PartResult(
        PartOutcome(kind),
        Part(int(index), int(of), fields["journal"]),
        value=_number(fields.get("value")),
        assignment=_assignment(fields),
        bound=_number(fields.get("bound")),
        taken=_number(fields.get("taken")),
        finished=_number(fields.get("finished")),
        text=text,
    )
    if result.outcome is PartOutcome.STOPPED:
        return replace(result, stop=Stop(rest))
    within = _distance(rest)
    return replace(result, within=within, bound=None if result.value is None else result.value + within)


def is_of_part(text: bytes) -> bool:
    """Whether the program printed the report of a part."""
    return _is_of_part(text.decode("ascii", "replace").splitlines())


def verdict_of(text: bytes, status: int) -> Verdict:
    """The verdict that `check` printed."""
    kind, _, rest = _lines(text, status)[0].partition(" ")
    if kind == "accepted":
        return Verdict(True)
    if kind == "refused":
        test, *place = rest.split()
        return Verdict(False, test, tuple(map(int, place)))
    raise error_of(text, status)


def error_of(text: bytes, status: int, given: bytes = b"") -> HammockdoveError:
    """The refusal or the failure that the program printed."""
    if not text or status < 0:
        return _failure(status)
    answer = _lines(text, status)[0]
    words = answer.split()
    if answer == "input too-long":
        return InputTooLong(answer, status, "the input is longer than what the program reads")
    if answer == "part too-long":
        return InputTooLong(answer, status, "a record of the part is longer than what a journal holds; more parts are smaller")
    if words[0] == "instance" and len(words) == 4:
        line, column = int(words[2]), int(words[3])
        return InstanceRefused(answer, status, words[1], line, column, _excerpt(given, line))
    if words[0] == "cover" and len(words) == 4:
        return CoverRefused(answer, status, words[1], int(words[2]), int(words[3]))
    if words[0] == "report" and len(words) == 4:
        return ReportRefused(answer, status, words[1], int(words[2]), int(words[3]))
    if words[0] == "reports" and len(words) == 3:
        return ReportsRefused(answer, status, words[1], int(words[2]))
    if words[0] == "journal":
        return JournalRefused(answer, status, words[1], int(words[2]) if len(words) > 2 else None)
    if answer == "words model":
        return UnknownProblem(answer, status, _NOT_KNOWN)
    if words[0] == "words":
        is_bad_value = answer != "words usage"
        about = f"a bad value of {words[-1]}, whose range docs/FORMATS.md tells" if is_bad_value else "the program does not take these options together"
        return WordsRefused(answer, status, f"words refused: {about}")
    if words[0] == "table":
        return TableRefused(answer, status, words[1], tuple(map(int, words[2:])))
    if answer == "width":
        return WordsRefused(answer, status, "the width is above the greatest one of this instance: give a lesser one, or none")
    if answer in _FAULTS:
        return ProgramFailed(f"the program ended with {answer}: {_FAULTS[answer]}", status)
    return Unreadable(f"the program printed {answer!r} with status {status}")


def _split(text: bytes) -> tuple[bytes, bytes | None]:
    """The report and the cover after it."""
    at = text.find(b"\ncover ") + 1
    is_report = text.startswith((Outcome.PROVED.value.encode(), Outcome.INFEASIBLE.value.encode()))
    return (text[:at], text[at:]) if is_report and at > 0 else (text, None)


def _lines(text: bytes, status: int) -> list[str]:
    lines = text.decode("ascii", "replace").splitlines()
    if not lines:
        raise _failure(status)
    return lines


def _failure(status: int) -> ProgramFailed:
    """The failure of a program that printed nothing."""
    if status == NOTHING_SOLVED:
        return ProgramFailed("the launcher could not build the program: nothing was solved", status)
    if status < 0:
        return ProgramFailed(f"the program was ended by signal {-status}", status)
    return ProgramFailed(f"the program printed nothing, and ended with status {status}", status)


def _is_of_part(lines: list[str]) -> bool:
    """Whether these lines are the report of a part: its second one tells which part."""
    return len(lines) > 2 and lines[1].startswith("part ") and lines[2].startswith("journal ")


def _fields(lines: list[str], known: frozenset[str]) -> dict[str, str]:
    """What follows the names in the lines after the first one."""
    fields = {name: words for name, _, words in (line.partition(" ") for line in lines[1:] if line != "out of memory")}
    if not fields.keys() <= known:
        raise Unreadable(f"unknown lines after {lines[0]!r}: {sorted(fields)}")
    return fields


def _assignment(fields: dict[str, str]) -> tuple[int, ...] | None:
    return tuple(map(int, fields["assignment"].split())) if "assignment" in fields else None


def _distance(rest: str) -> int:
    """The distance that follows the first word of a report, 0 where none does."""
    return int(rest.removeprefix("within ") or 0)


def _number(word: str | None) -> int | None:
    return None if word is None or word == "none" else int(word)


def _excerpt(given: bytes, line: int) -> str:
    """The line of that number, cut short where it is long."""
    lines = given.split(b"\n", line)
    if not 1 <= line <= len(lines):
        return ""
    shown = lines[line - 1].decode("utf-8", "replace").rstrip()
    return repr(shown if len(shown) <= _EXCERPT else f"{shown[:_EXCERPT]}..") if shown else ""
