"""Draws a search from its journal: bound and best solution over the finished subproblems, and below them how many are open."""

from __future__ import annotations

import importlib
from dataclasses import dataclass, field
from html import escape
from pathlib import Path

from .errors import HammockdoveError, NotBegun
from .journal import Finish, Journal
from .progress import Progress, Tracker

_POINTS = 4000
_BLUE, _RED, _GREY = "#1f6fb4", "#c23b31", "#8a8a8a"


@dataclass
class Series:
    """The progress of a search after each finished subproblem, thinned where there are very many of them."""

    model: str = ""
    points: list[Progress] = field(default_factory=list)

    @property
    def finished(self) -> list[int]:
        """How many subproblems were finished at each point."""
        return [it.finished for it in self.points]

    @property
    def title(self) -> str:
        """What stands above the picture."""
        last = self.points[-1]
        return f"{self.model}: {last.finished:,} subproblems finished, {last.improvements:,} better solutions"


def series_of(path: str | Path) -> Series:
    """The series of a journal. Raises `NotBegun`, and `JournalDamaged` where it is damaged."""
    journal, tracker, found, step = Journal(Path(path)), Tracker(), Series(), 1
    for entry in journal.advance():
        tracker.take(entry.record)
        now = tracker.progress()
        if not found.points or not isinstance(entry.record, Finish) or now.finished % step == 0:
            found.points.append(now)
        if len(found.points) > 2 * _POINTS:
            found.points, step = found.points[::2], step * 2
    if journal.head is None:
        raise NotBegun(f"{path} holds no journal yet")
    found.model = journal.head.model
    found.points.append(tracker.progress())
    return found


def plot(path: str | Path, picture: str | Path) -> None:
    """Draws the search of a journal. An `.svg` needs nothing; any other kind of picture needs matplotlib."""
    series, picture = series_of(path), Path(picture)
    if picture.suffix == ".svg":
        picture.write_text(svg_of(series), encoding="utf-8")
    else:
        _by_matplotlib(series, picture)


def _by_matplotlib(series: Series, picture: Path) -> None:
    try:
        matplotlib = importlib.import_module("matplotlib")
        matplotlib.use("Agg")
        pyplot = importlib.import_module("matplotlib.pyplot")
    except ImportError:
        raise HammockdoveError(f"{picture.name} needs matplotlib, which is not there; a name that ends in .svg needs nothing") from None
    figure, (upper, lower) = pyplot.subplots(2, 1, figsize=(8, 5.5), sharex=True, height_ratios=(3, 1))
    for name, color, label in (("bound", _RED, "bound: no solution is worth more"), ("best", _BLUE, "best solution so far")):
        known = [(it.finished, getattr(it, name)) for it in series.points if getattr(it, name) is not None]
        if known:
            upper.step(*zip(*known), where="post", color=color, label=label)
    upper.set_title(series.title)
    upper.set_ylabel("value")
    upper.legend(loc="best")
    lower.fill_between(series.finished, [it.open for it in series.points], step="post", color=_GREY)
    lower.set_ylabel("open")
    lower.set_xlabel("subproblems finished")
    lower.set_ylim(bottom=0)
    figure.tight_layout()
    figure.savefig(picture, dpi=110)
    pyplot.close(figure)


@dataclass(frozen=True)
class _Panel:
    """A part of the picture and the numbers that it shows."""

    top: float
    height: float
    most_x: int
    least: int
    most: int
    left: float = 90.0
    width: float = 690.0

    def x(self, finished: int) -> float:
        return self.left + self.width * finished / max(self.most_x, 1)

    def y(self, value: int) -> float:
        return self.top + self.height * (self.most - value) / max(self.most - self.least, 1)

    def steps(self, points: list[tuple[int, int]]) -> str:
        """A line that stays at a value until the next one."""
        path, last = [], None
        for finished, value in points:
            if last is not None:
                path.append(f"{self.x(finished):.1f},{self.y(last):.1f}")
            path.append(f"{self.x(finished):.1f},{self.y(value):.1f}")
            last = value
        return " ".join(path)

    def frame(self, name: str) -> list[str]:
        marks = sorted({self.least, (self.least + self.most) // 2, self.most})
        lines = [f'<rect x="{self.left}" y="{self.top}" width="{self.width}" height="{self.height}" fill="none" stroke="#ccc"/>']
        lines += [_text(self.left - 8, self.y(it) + 4, f"{it:,}", "end") for it in marks]
        return [*lines, _text(self.left, self.top - 6, name)]


def svg_of(series: Series) -> str:
    """The picture as SVG."""
    best = [(it.finished, it.best) for it in series.points if it.best is not None]
    bound = [(it.finished, it.bound) for it in series.points if it.bound is not None]
    values = [value for _, value in (*best, *bound)] or [0]
    last = series.points[-1].finished
    upper = _Panel(60, 300, last, min(values), max(values))
    lower = _Panel(400, 90, last, 0, max(max(it.open for it in series.points), 1))
    area = lower.steps([(it.finished, it.open) for it in series.points])
    parts = [
        '<svg xmlns="http://www.w3.org/2000/svg" width="800" height="540" font-family="sans-serif" font-size="12">',
        '<rect width="800" height="540" fill="white"/>',
        _text(90, 24, series.title),
        *upper.frame("value"),
        *lower.frame("open"),
        f'<polygon points="{lower.x(0):.1f},{lower.y(0):.1f} {area} {lower.x(last):.1f},{lower.y(0):.1f}" fill="{_GREY}"/>',
        *(
            f'<polyline points="{upper.steps(points)}" fill="none" stroke="{color}" stroke-width="1.6"/>'
            for points, color in ((bound, _RED), (best, _BLUE))
            if points
        ),
        _text(300, 54, "bound: no solution is worth more", color=_RED),
        _text(560, 54, "best solution so far", color=_BLUE),
        _text(435, 525, "subproblems finished", "middle"),
        _text(90, 508, "0", "middle"),
        _text(780, 508, f"{last:,}", "middle"),
        "</svg>",
    ]
    return "\n".join(parts) + "\n"


def _text(x: float, y: float, words: str, anchor: str = "start", color: str = "#333") -> str:
    return f'<text x="{x:.1f}" y="{y:.1f}" text-anchor="{anchor}" fill="{color}">{escape(words)}</text>'
