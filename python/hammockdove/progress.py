"""How far a search is, from the records of its journal."""

from __future__ import annotations

import heapq
from dataclasses import dataclass

from .journal import Finish, Head, Improve, Journal, Record, Snapshot


@dataclass(frozen=True)
class Progress:
    """How far a search is.

    `best` is the value of the best solution, `bound` the greatest value that a solution may still have, `finished` and `open` count
    subproblems, and `improvements` the better solutions. `best` is None before the first solution; `bound` is None until the first
    subproblem is finished, since a journal does not tell the bound of the whole problem. `within` is the distance of the search.
    """

    model: str = ""
    within: int = 0
    best: int | None = None
    bound: int | None = None
    finished: int = 0
    open: int = 0
    improvements: int = 0

    @property
    def gap(self) -> int | None:
        """How much more than `best` a solution may be worth."""
        return None if self.best is None or self.bound is None else self.bound - self.best

    @property
    def gap_percent(self) -> float | None:
        """The gap in percent of the best value's size."""
        return None if self.gap is None or not self.best else 100 * self.gap / abs(self.best)

    @property
    def is_done(self) -> bool:
        """Whether nothing is left to do: a journal ends with this. That of a part may have nothing to do from its first Snapshot on."""
        return self.model != "" and self.open == 0


class Tracker:
    """Takes records in their order, and tells the progress after each."""

    def __init__(self) -> None:
        self._model, self._within = "", 0
        self._best: int | None = None
        self._finished = self._improvements = 0
        # The bound of each open ticket; the root's is not told.
        self._open: dict[int, int | None] = {}
        self._next = 1
        self._least: list[tuple[int, int]] = []
        self._greatest: list[tuple[int, int]] = []

    @property
    def finished(self) -> int:
        """How many subproblems are finished."""
        return self._finished

    def take(self, record: Record) -> None:
        """Takes the next record."""
        if isinstance(record, Head):
            self._model, self._within, self._open = record.model, record.within, {0: None}
        elif isinstance(record, Improve):
            self._best, self._improvements = record.value, self._improvements + 1
        elif isinstance(record, Snapshot):
            self._restart(record)
        else:
            self._finish(record)
        self._drop_settled()

    def take_new(self, journal: Journal) -> Progress:
        """Takes all that came to a journal since the last call."""
        for entry in journal.advance():
            self.take(entry.record)
        return self.progress()

    def progress(self) -> Progress:
        """The progress after the last record."""
        return Progress(self._model, self._within, self._best, self._bound(), self._finished, len(self._open), self._improvements)

    def _bound(self) -> int | None:
        while self._greatest and self._open.get(self._greatest[0][1]) != -self._greatest[0][0]:
            heapq.heappop(self._greatest)
        if self._open.get(0, 0) is None:
            return None
        found = [] if self._best is None else [self._best + self._within]
        if self._greatest:
            found.append(-self._greatest[0][0])
        return max(found, default=None)

    def _add(self, ticket: int, bound: int) -> None:
        self._open[ticket] = bound
        heapq.heappush(self._least, (bound, ticket))
        heapq.heappush(self._greatest, (-bound, ticket))

    def _finish(self, record: Finish) -> None:
        self._open.pop(record.ticket, None)
        for child in record.children:
            if child.replaced is not None:
                self._open.pop(child.replaced, None)
            self._add(self._next, child.bound)
            self._next += 1
        self._finished += 1

    def _restart(self, record: Snapshot) -> None:
        self._best = None if record.incumbent is None else record.incumbent.value
        self._next = record.next_ticket
        self._open, self._least, self._greatest = {}, [], []
        for ticket, bound, _ in record.subproblems:
            self._add(ticket, bound)

    def _drop_settled(self) -> None:
        """Drops what can hold nothing better than the best solution with the distance."""
        if self._best is None:
            return
        reach = self._best + self._within
        while self._least and self._least[0][0] <= reach:
            bound, ticket = heapq.heappop(self._least)
            if self._open.get(ticket) == bound:
                del self._open[ticket]
