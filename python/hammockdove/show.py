"""Tells what a journal says, without the program and also while a search writes it: the head, the records, the solutions, and what is open."""

from __future__ import annotations

from collections import Counter
from collections.abc import Iterator
from dataclasses import dataclass, field
from pathlib import Path
from typing import NamedTuple

from .errors import JournalDamaged
from .journal import Entry, Finish, Head, Improve, Journal, Snapshot, not_begun
from .progress import Progress, Tracker

_KINDS = (Improve, Finish, Snapshot)


class Solution(NamedTuple):
    """A better solution, the offset of its record, and how many subproblems were finished before it."""

    offset: int
    finished: int
    improve: Improve


class Base(NamedTuple):
    """The last Snapshot, the offset of its record, and how many subproblems were finished before it."""

    offset: int
    finished: int
    snapshot: Snapshot


@dataclass
class Contents:
    """What a journal says.

    `counts` has the number of records of each kind after the head, `end` is the offset of the gate after the last of them, and
    `refusal` the first bad record, where there is one: what stands before it is told.
    """

    head: Head
    counts: Counter[type] = field(default_factory=Counter)
    solutions: list[Solution] = field(default_factory=list)
    base: Base | None = None
    progress: Progress = field(default_factory=Progress)
    end: int = 0
    refusal: JournalDamaged | None = None

    @property
    def since(self) -> int:
        """How many subproblems were finished after the last Snapshot, or after the head."""
        return self.progress.finished - (self.base.finished if self.base else 0)


def contents_of(path: str | Path) -> Contents:
    """What a journal says up to its first closed gate. Raises `NotBegun`, and `JournalDamaged` where the head itself is bad."""
    journal, tracker = Journal(Path(path)), Tracker()
    found: Contents | None = None
    try:
        for entry in journal.advance():
            if isinstance(entry.record, Head):
                found = Contents(entry.record)
            elif found is not None:
                _take(found, entry, tracker.finished)
            tracker.take(entry.record)
    except JournalDamaged as refusal:
        if found is None:
            raise
        found.refusal = refusal
    if found is None:
        raise not_begun(path)
    found.progress, found.end = tracker.progress(), journal.offset
    return found


def lines_of(found: Contents) -> Iterator[str]:
    """What a journal says, a fact in each line."""
    head, now = found.head, found.progress
    yield f"version {head.version}"
    yield f"problem {head.model}"
    yield f"within {head.within}"
    if head.part is not None:
        yield f"part {head.part} of journal {head.part.digest}"
    yield f"instance {len(head.text)} bytes"
    kinds = ", ".join(f"{found.counts[kind]} {kind.__name__}" for kind in _KINDS)
    yield f"records {found.counts.total()}: {kinds}"
    for number, it in enumerate(found.solutions, 1):
        yield f"solution {number}: value {it.improve.value}, after {it.finished} finished, at byte {it.offset}"
    if found.base:
        offset, finished, snapshot = found.base
        listed = f"{len(snapshot.subproblems)} listed, next ticket {snapshot.next_ticket}"
        yield f"snapshot after {finished} finished, at byte {offset}: {listed}"
    yield f"finished {now.finished}, {found.since} of them since the last snapshot" if found.base else f"finished {now.finished}"
    yield f"open {now.open}"
    yield f"best {_shown(now.best)}"
    yield f"bound {_shown(now.bound)}"
    best = _last_solution(found)
    if best is not None:
        yield " ".join(map(str, ("assignment", *best.decisions)))
    yield f"end {found.end}"


def _take(found: Contents, entry: Entry, finished: int) -> None:
    """Counts a record after the head."""
    offset, record = entry
    found.counts[type(record)] += 1
    if isinstance(record, Improve):
        found.solutions.append(Solution(offset, finished, record))
    elif isinstance(record, Snapshot):
        found.base = Base(offset, finished, record)


def _last_solution(found: Contents) -> Improve | None:
    """The best solution: that of the last Improve, or the one that a later Snapshot has."""
    if found.base and (not found.solutions or found.solutions[-1].offset < found.base.offset):
        return found.base.snapshot.incumbent
    return found.solutions[-1].improve if found.solutions else None


def _shown(value: int | None) -> str:
    return "unknown" if value is None else str(value)
