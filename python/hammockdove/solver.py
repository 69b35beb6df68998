"""Runs the program."""

from __future__ import annotations

import os
import shutil
import signal
import subprocess
import tempfile
import time
from collections.abc import Callable, Iterable
from dataclasses import dataclass, replace
from pathlib import Path
from typing import IO, Literal

from .answers import (
    Outcome,
    PartResult,
    Result,
    Stop,
    Verdict,
    error_of,
    is_of_part,
    part_result_of,
    result_of,
    verdict_of,
)
from .errors import HammockdoveError, JournalDamaged, JournalRefused, NotBegun, ProgramFailed
from .instances import PROBLEMS, Instance
from .journal import Head, Journal
from .progress import Progress, Tracker

PROGRAM = "HAMMOCKDOVE"
"""The environment's variable that names the program."""

Text = tuple[str, str | bytes]
"""A problem's name and the text of an instance, for those who have a file."""

Report = PartResult | bytes | str
"""What was reported of a settled part: its result, or what the program printed."""

_POLL = 0.05


class Interrupted(KeyboardInterrupt):
    """Ctrl-C came while a search went on. `result` has what it had found, and the journal that it can be resumed from."""

    def __init__(self, result: Result) -> None:
        self.result = result
        super().__init__(_kept_by(result))


class PartInterrupted(KeyboardInterrupt):
    """The same of the search of a part: `result` has what the part had found."""

    def __init__(self, result: PartResult) -> None:
        self.result = result
        super().__init__(_kept_by(result))


def _kept_by(result: Result | PartResult) -> str:
    kept = f"; resume {str(result.journal)!r}" if result.journal else "; no journal was kept"
    return f"{result}{kept}"


@dataclass(frozen=True)
class Solver:
    """The program `hammockdove`. Without `program` it is what $HAMMOCKDOVE names, or the one on the path, or the one of this checkout."""

    program: str = ""

    def __post_init__(self) -> None:
        object.__setattr__(self, "program", str(self.program or find_program()))

    def solve(
        self,
        instance: Instance | Text,
        *,
        timeout: float | None = None,
        workers: int | None = None,
        parts: int | None = None,
        width: int | None = None,
        cutset: Literal["lel", "frontier"] | None = None,
        budget: int | None = None,
        within: int | None = None,
        journal: str | Path | Literal[False] | None = None,
        cover: bool = False,
        progress: Callable[[Progress], object] | None = None,
        every: float = 1.0,
    ) -> Result:
        """Searches for a best solution, or with `within` for one that none is worth more than `within` above.

        After `timeout` seconds, or at Ctrl-C, the program is killed, and asked what the journal holds: the solution and the bound of
        the result are the program's own. A timeout gives a result that is `STOPPED`; Ctrl-C raises `Interrupted`, which has the result.

        The journal is `journal`, a file that must not hold one yet. Without a name it lies in the folder for temporary files. It stays there
        if the search was stopped, and is removed otherwise. `journal=False` keeps none: that is faster, and a timeout then leaves nothing.

        `progress` is called about each `every` seconds with what the journal tells, and not at all where none is kept. The other
        options are those of docs/FORMATS.md.
        Raises a `Refused` where the program refuses the instance or an option, and `ProgramFailed` where it ends without an answer.
        """
        model, given = _text_of(instance)
        words = ["solve", model, *_options(workers=workers, parts=parts, width=width, cutset=cutset, budget=budget, within=within)]
        words += ["--stats", *(["--cover"] if cover else [])]
        path = None if journal is False else self._journal_path(journal)
        if path is not None:
            words.append(f"--journal={path}")
        left: Result | None = None
        try:
            result = left = self._search(words, given, path, timeout, progress, every)
        except Interrupted as interrupted:
            left = interrupted.result
            raise
        finally:
            if journal is None and not (left and left.outcome is Outcome.STOPPED and left.journal):
                _remove(path)
        if result.outcome is not Outcome.STOPPED:
            result = replace(result, journal=result.journal if journal else None, lacks_cover=cover and result.cover is None)
        return replace(result, within=within or 0)

    def resume(
        self,
        journal: str | Path,
        *,
        timeout: float | None = None,
        workers: int | None = None,
        parts: int | None = None,
        width: int | None = None,
        cutset: Literal["lel", "frontier"] | None = None,
        budget: int | None = None,
        incumbents: Iterable[Report] = (),
        progress: Callable[[Progress], object] | None = None,
        every: float = 1.0,
    ) -> Result:
        """Goes on with the whole search of a journal. Options and errors are those of `solve`; the journal stays.

        `incumbents` are reports of settled parts of any search of the instance, in any order. The search goes on from the best of their
        solutions if its own is worse, and the journal keeps that solution. The program tests each of them, and refuses all if one is no
        feasible solution with its value.
        """
        _require_whole(journal)
        offers = _offers_of(incumbents)
        options = _options(workers=workers, parts=parts, width=width, cutset=cutset, budget=budget)
        words = ["resume", str(journal), *offers.words, *options, "--stats"]
        result = self._search(words, offers.given, Path(journal), timeout, progress, every)
        return replace(result, within=_distance_of(Path(journal)))

    def status(self, journal: str | Path) -> Result:
        """What the whole search of a journal that no program writes to has found so far, by the program itself."""
        began = time.monotonic()
        _require_whole(journal)
        text, status = self._run(["resume", str(journal), "--budget", "0"], b"")
        found = replace(result_of(text, status), journal=Path(journal), within=_distance_of(Path(journal)))
        return replace(found, seconds=time.monotonic() - began)

    def split(self, journal: str | Path, index: int, of: int) -> bytes:
        """Part `index` (from 0) of `of` of the stopped search in a journal that no program writes to: the bytes of the part's own journal.

        Write them to a file, on any machine, and go on with it by `resume_part`. The journal is not changed, and must stay as it is until
        the parts are joined. The same journal gives the same parts. It may be that of a part itself.
        """
        _require(journal)
        text, status = self._run(["split", str(journal), "--part", f"{index}/{of}"], b"")
        if status != 0:
            raise error_of(text, status)
        return text

    def resume_part(
        self,
        journal: str | Path,
        *,
        timeout: float | None = None,
        workers: int | None = None,
        parts: int | None = None,
        width: int | None = None,
        cutset: Literal["lel", "frontier"] | None = None,
        budget: int | None = None,
        incumbents: Iterable[Report] = (),
        progress: Callable[[Progress], object] | None = None,
        every: float = 1.0,
    ) -> PartResult:
        """Goes on with the part of a search in a journal that `split` gave. Options and errors are those of `resume`; the journal stays.

        With `budget=0` it tells what the part has found so far. Ctrl-C raises `PartInterrupted`. A part that begins late gets the reports of
        the parts that are settled by then as `incumbents`.
        """
        _require_part(journal)
        offers = _offers_of(incumbents)
        options = _options(workers=workers, parts=parts, width=width, cutset=cutset, budget=budget)
        words = ["resume", str(journal), *offers.words, *options, "--stats"]
        began = time.monotonic()
        text, status, stop = self._wait_for(words, offers.given, Path(journal), timeout, progress, every)
        if stop is not None:
            text, status = self._run(["resume", str(journal), "--budget", "0"], b"")
        result = replace(part_result_of(text, status), journal=Path(journal), within=_distance_of(Path(journal)), seconds=time.monotonic() - began)
        if stop is not None and not result.is_settled:
            result = replace(result, stop=stop)
        if stop is Stop.INTERRUPT:
            raise PartInterrupted(result)
        return result

    def join_parts(self, journal: str | Path, reports: Iterable[Report]) -> Result | PartResult:
        """What the settled parts of a journal that was split prove together.

        `reports` are those of all parts, in order: results of `resume_part`, or what the program printed. It is a `Result` for the whole
        search, and a `PartResult` if the journal is that of a part itself. The program tests that each report is of this journal and that
        each assignment has its value; that the parts are settled rests on whoever searched them.
        """
        _require(journal)
        began = time.monotonic()
        text, status = self._run(["join", "--journal", str(journal)], _text_of_reports(reports))
        more = {"journal": Path(journal), "seconds": time.monotonic() - began}
        if is_of_part(text):
            return replace(part_result_of(text, status), **more)
        return replace(result_of(text, status), **more)

    def check(self, report: Result | bytes | str) -> Verdict:
        """Whether a report is true, by the cover after it. A result must come from `solve` with `cover=True`."""
        if isinstance(report, Result):
            report = report.text
        return verdict_of(*self._run(["check"], report.encode() if isinstance(report, str) else report))

    def digest(self, instance: Instance | Text) -> str:
        """The SHA-256 of the instance's canonical text, in hexadecimal."""
        model, given = _text_of(instance)
        text, status = self._run(["digest", model], given)
        if status != 0:
            raise error_of(text, status, given)
        return text.decode("ascii").strip()

    def generate(self, model: str, size: int, seed: int) -> Instance:
        """The instance of that size that is drawn from the seed."""
        text, status = self._run(["generate", model, str(size), str(seed)], b"")
        if status != 0:
            raise error_of(text, status)
        return PROBLEMS[model].from_text(text.decode("ascii"))

    def knows(self, model: str) -> bool:
        """Whether this program knows the problem."""
        return self._run(["digest", model], b"")[0] != b"words model\n"

    def _journal_path(self, journal: str | Path | Literal[False] | None) -> Path:
        if isinstance(journal, (str, Path)):
            return Path(journal)
        return Path(tempfile.mkdtemp(prefix="hammockdove-")) / "journal"

    def _run(self, words: list[str], given: bytes) -> tuple[bytes, int]:
        """What a command prints that ends by itself, and its status."""
        with tempfile.TemporaryFile() as source:
            source.write(given)
            source.seek(0)
            try:
                done = subprocess.run([self.program, *words], stdin=source, stdout=subprocess.PIPE, check=False)
            except OSError as fault:
                raise _not_started(self.program, fault) from None
        return done.stdout, done.returncode

    def _search(
        self,
        words: list[str],
        given: bytes,
        journal: Path | None,
        timeout: float | None,
        progress: Callable[[Progress], object] | None,
        every: float,
    ) -> Result:
        """What a whole search found. Raises `Interrupted` at Ctrl-C."""
        began = time.monotonic()
        text, status, stop = self._wait_for(words, given, journal, timeout, progress, every)
        result = result_of(text, status, given) if stop is None else self._stopped(journal, stop)
        result = replace(result, journal=journal if result.journal is None and stop is None else result.journal)
        result = replace(result, seconds=time.monotonic() - began)
        if stop is Stop.INTERRUPT:
            raise Interrupted(result)
        return result

    def _wait_for(
        self,
        words: list[str],
        given: bytes,
        journal: Path | None,
        timeout: float | None,
        progress: Callable[[Progress], object] | None,
        every: float,
    ) -> tuple[bytes, int, Stop | None]:
        """What a search prints, its status, and what stopped it from here, if something did: then it was killed."""
        began = time.monotonic()
        watcher = _Watcher(journal, progress, every) if journal is not None and progress is not None else None
        stop: Stop | None = None
        with tempfile.TemporaryFile() as source, tempfile.TemporaryFile() as sink:
            source.write(given)
            source.seek(0)
            with _running([self.program, *words], source, sink) as child:
                try:
                    if not _wait(child, began, timeout, watcher):
                        stop = Stop.TIMEOUT
                except KeyboardInterrupt:
                    stop = Stop.INTERRUPT
                finally:
                    _kill(child)
            sink.seek(0)
            return sink.read(), child.returncode, stop

    def _stopped(self, journal: Path | None, stop: Stop) -> Result:
        """What a search that was killed had found."""
        if journal is None or not journal.exists():
            return Result(Outcome.STOPPED, stop=stop)
        try:
            found = self.status(journal)
        except JournalRefused as refusal:
            if refusal.cause != "not-begun":
                raise
            return Result(Outcome.STOPPED, stop=stop)
        return replace(found, stop=stop) if found.outcome is Outcome.STOPPED else found


class _Watcher:
    """Calls back with what a journal tells, about each `every` seconds."""

    def __init__(self, path: Path, call: Callable[[Progress], object], every: float) -> None:
        self._journal, self._tracker, self._call, self._every = Journal(path), Tracker(), call, every
        self._due = time.monotonic() + every
        self._last = Progress()

    def look(self, is_last: bool = False) -> None:
        """Calls back where it is time, or where this is the last look, and something is new."""
        if time.monotonic() < self._due and not is_last:
            return
        self._due = time.monotonic() + self._every
        try:
            found = self._tracker.take_new(self._journal)
        except FileNotFoundError:
            return
        if found != self._last:
            self._last = found
            self._call(found)


class _running:
    """A child in a process group of its own, so that Ctrl-C at a terminal reaches this process alone; killed and waited for at the end."""

    def __init__(self, words: list[str], source: IO[bytes], sink: IO[bytes]) -> None:
        try:
            self.child = subprocess.Popen(words, stdin=source, stdout=sink, start_new_session=True)
        except OSError as fault:
            raise _not_started(words[0], fault) from None

    def __enter__(self) -> subprocess.Popen[bytes]:
        return self.child

    def __exit__(self, *_: object) -> None:
        _kill(self.child)


def _not_started(program: str, fault: OSError) -> ProgramFailed:
    return ProgramFailed(f"{program} does not start: {fault.strerror}; ${PROGRAM} names the program, where it is set", 0)


def _wait(child: subprocess.Popen[bytes], began: float, timeout: float | None, watcher: _Watcher | None) -> bool:
    """Waits until the child ends, and returns whether it did before the timeout."""
    while True:
        left = None if timeout is None else began + timeout - time.monotonic()
        if left is not None and left <= 0:
            return False
        step = left if watcher is None else _POLL if left is None else min(left, _POLL)
        try:
            child.wait(step)
        except subprocess.TimeoutExpired:
            pass
        else:
            if watcher is not None:
                watcher.look(is_last=True)
            return True
        if watcher is not None:
            watcher.look()


def _kill(child: subprocess.Popen[bytes]) -> None:
    """Ends the child and all that it started."""
    if child.poll() is None:
        try:
            os.killpg(child.pid, signal.SIGKILL)
        except ProcessLookupError:
            pass
        child.wait()


def _text_of(instance: Instance | Text) -> tuple[str, bytes]:
    if isinstance(instance, Instance):
        return instance.model, instance.text().encode()
    model, text = instance
    return model, text.encode() if isinstance(text, str) else text


def _text_of_reports(reports: Iterable[Report]) -> bytes:
    """Reports one after another, as the program reads them."""
    return b"".join(it.text if isinstance(it, PartResult) else it.encode() if isinstance(it, str) else it for it in reports)


@dataclass(frozen=True)
class _Offers:
    """The words that offer solutions to a search, and what the program then reads."""

    words: tuple[str, ...] = ()
    given: bytes = b""


def _offers_of(incumbents: Iterable[Report]) -> _Offers:
    """The offers of these reports. Without a report the program reads nothing."""
    reports = list(incumbents)
    return _Offers(("--incumbent",), _text_of_reports(reports)) if reports else _Offers()


def _options(**given: object) -> list[str]:
    """The options that were given, as the program's words."""
    return [f"--{name}={value}" for name, value in given.items() if value is not None]


def _remove(path: Path | None) -> None:
    """Removes a temporary journal and its folder."""
    if path is not None:
        shutil.rmtree(path.parent, ignore_errors=True)


def _require(journal: str | Path) -> None:
    """Refuses a file that is not there, since the program would make an empty one, and what is no file."""
    if not Path(journal).exists():
        raise NotBegun(f"{journal} is not there: a search makes it with journal=")
    if Path(journal).is_dir():
        raise HammockdoveError(f"{journal} is a folder, not the file of a journal")


def _head_of(path: str | Path) -> Head | None:
    """The head of a journal, None where it has not begun."""
    journal = Journal(Path(path))
    next(journal.advance(), None)
    return journal.head


def _require_whole(journal: str | Path) -> None:
    """Refuses a file that is not there, and the journal of a part."""
    _require(journal)
    if _is_part(journal):
        raise HammockdoveError(f"{journal} is the journal of a part of a search: resume_part goes on with it")


def _require_part(journal: str | Path) -> None:
    """Refuses a file that is not there, and the journal of a whole search."""
    _require(journal)
    if not _is_part(journal):
        raise HammockdoveError(f"{journal} is not the journal of a part of a search: resume goes on with that of a whole one")


def _is_part(journal: str | Path) -> bool:
    """Whether a journal is that of a part. What this reader does not take is left to the program."""
    try:
        head = _head_of(journal)
    except JournalDamaged:
        return False
    return head is not None and head.part is not None


def _distance_of(path: Path) -> int:
    """The distance of the search that a journal is of."""
    head = _head_of(path)
    return head.within if head else 0


def find_program() -> str:
    """The program that $HAMMOCKDOVE names, or the one on the path, or the one that this checkout built, or its launcher.

    Raises `ProgramFailed` where there is none.
    """
    named = os.environ.get(PROGRAM) or shutil.which("hammockdove")
    if named:
        return named
    top = Path(__file__).resolve().parent.parent.parent
    for path in (top / "crates/solver_cli/out/solver_cli", top / "hammockdove"):
        if os.access(path, os.X_OK) and path.is_file():
            return str(path)
    raise ProgramFailed(f"no program hammockdove: it is not on the path, and ${PROGRAM} names none; `make install` puts it on the path", 0)
