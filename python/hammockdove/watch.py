"""Follows a journal while a search writes it."""

from __future__ import annotations

import shutil
import sys
import time
from collections import deque
from collections.abc import Iterator
from pathlib import Path
from typing import TextIO

from .journal import Journal
from .progress import Progress, Tracker

_RATE_SECONDS = 10.0


def follow(path: str | Path, every: float = 1.0, seconds: float | None = None) -> Iterator[Progress]:
    """The progress of a search each `every` seconds, until nothing is left to do or `seconds` have passed.

    A file that is not there yet, or not begun, is waited for. The file is never changed. Raises `JournalDamaged` where it is damaged.
    """
    journal, tracker = Journal(Path(path)), Tracker()
    end = None if seconds is None else time.monotonic() + seconds
    while True:
        try:
            found = tracker.take_new(journal)
        except FileNotFoundError:
            found = tracker.progress()
        yield found
        now = time.monotonic()
        if found.is_done or (end is not None and now >= end):
            return
        time.sleep(every if end is None else min(every, max(0.0, end - now)))


class Rate:
    """How many subproblems are finished in a second, over the last ten seconds."""

    def __init__(self) -> None:
        self._seen: deque[tuple[float, int]] = deque()

    def of(self, finished: int, now: float) -> float | None:
        """The rate at `now`; None before there is one."""
        self._seen.append((now, finished))
        while len(self._seen) > 2 and now - self._seen[1][0] >= _RATE_SECONDS:
            self._seen.popleft()
        began, first = self._seen[0]
        return (finished - first) / (now - began) if now > began else None


def line_of(progress: Progress, rate: float | None) -> str:
    """The progress in one line."""
    gap = "-" if progress.gap is None else str(progress.gap)
    if progress.gap_percent is not None:
        gap += f" ({progress.gap_percent:.1f}%)"
    parts = [
        progress.model or "not begun",
        f"best {_shown(progress.best)}",
        f"bound {_shown(progress.bound)}",
        f"gap {gap}",
        f"finished {progress.finished:,}",
        f"open {progress.open:,}",
    ]
    parts += [f"{rate:,.0f}/s"] if rate is not None else []
    parts += ["done"] if progress.is_done else []
    return "  ".join(parts)


def watch(path: str | Path, every: float = 1.0, seconds: float | None = None, out: TextIO | None = None) -> Progress:
    """Writes a line that is rewritten where `out` is a terminal, and else a line each time that something changed. Returns the last progress."""
    out = sys.stdout if out is None else out
    is_terminal, rate, shown, last = out.isatty(), Rate(), "", Progress()
    try:
        for last in follow(path, every, seconds):
            line = line_of(last, rate.of(last.finished, time.monotonic()))
            if is_terminal:
                columns = shutil.get_terminal_size().columns
                out.write(f"\r{line[: columns - 1]:<{columns - 1}}")
            elif (without_rate := line_of(last, None)) != shown:
                out.write(f"{line}\n")
                shown = without_rate
            out.flush()
    finally:
        if is_terminal:
            out.write("\n")
    return last


def _shown(value: int | None) -> str:
    return "-" if value is None else f"{value:,}"
