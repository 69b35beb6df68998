"""The client's own commands: python3 -m hammockdove show|watch|plot|convert|solve. `--help` tells their words."""

from __future__ import annotations

import argparse
import sys
from collections.abc import Callable, Sequence
from pathlib import Path

from .answers import Outcome, Result
from .errors import HammockdoveError, NotBegun, ProgramFailed
from .formats import FORMS, Converted, convert, join_end_depot
from .plot import plot
from .show import contents_of, lines_of
from .solver import Interrupted, Solver
from .watch import watch

_REFUSED = 3
_INTERRUPTED = 130


def _show(words: argparse.Namespace) -> int:
    found = contents_of(words.file)
    if words.instance:
        sys.stdout.write(found.head.text.decode("ascii", "replace"))
        return 0
    print(*lines_of(found), sep="\n")
    if found.refusal is not None:
        raise found.refusal
    return 0


def _watch(words: argparse.Namespace) -> int:
    watch(words.file, words.every, words.seconds)
    return 0


def _plot(words: argparse.Namespace) -> int:
    picture = words.picture or words.file.with_suffix(".svg")
    plot(words.file, picture)
    print(picture)
    return 0


def _convert(words: argparse.Namespace) -> int:
    found = _converted(words)
    sys.stdout.write(found.instance.text())
    return 0


def _solve(words: argparse.Namespace) -> int:
    found = _converted(words)
    try:
        result = Solver().solve(found.instance, timeout=words.timeout, workers=words.workers, parts=words.parts, width=words.width, journal=words.journal)
    except Interrupted as interrupted:
        _tell(interrupted.result, found)
        return _INTERRUPTED
    _tell(result, found)
    return 0 if result.outcome is not Outcome.STOPPED else 2


def _converted(words: argparse.Namespace) -> Converted:
    text = sys.stdin.read() if str(words.file) == "-" else words.file.read_text(encoding="utf-8", errors="replace")
    found = convert(words.form, text, words.number)
    if words.end_depot:
        found = join_end_depot(found)
    for note in found.notes:
        print(f"note: {note}", file=sys.stderr)
    return found


def _tell(result: Result, found: Converted) -> None:
    print(result)
    print(result.proves)
    if result.value is not None:
        print(f"in the file's measure: {found.reading.told(result.value)}")
    if result.bound is not None and not found.reading.hard_hold(result.bound):
        print("no solution satisfies all hard clauses of the file")
    if result.assignment is not None:
        print("assignment", *result.assignment)
    if result.journal is not None:
        print(f"journal {result.journal}")


def _add_file(parser: argparse.ArgumentParser) -> None:
    parser.add_argument("form", choices=sorted(FORMS), metavar="FORM", help="; ".join(f"{it.name}: {it.about}" for it in FORMS.values()))
    parser.add_argument("file", type=Path, metavar="FILE", help="the file, or - for standard input")
    parser.add_argument("--number", type=int, default=1, help="which instance of the file, from 1")
    parser.add_argument("--end-depot", action="store_true", help="tours: the way ends in the last node, which becomes node 0")


def _parser() -> argparse.ArgumentParser:
    parser = argparse.ArgumentParser(prog="python3 -m hammockdove", description=__doc__)
    commands = parser.add_subparsers(required=True)

    def command(name: str, act: Callable[[argparse.Namespace], int], about: str) -> argparse.ArgumentParser:
        made = commands.add_parser(name, help=about, description=about)
        made.set_defaults(act=act)
        return made

    one = command("show", _show, "print what a journal says: its head, its records and solutions, what is open and the bound")
    one.add_argument("file", type=Path)
    one.add_argument("--instance", action="store_true", help="print the text of the instance instead")
    one = command("watch", _watch, "follow a journal while a search writes it")
    one.add_argument("file", type=Path)
    one.add_argument("--every", type=float, default=1.0, metavar="SECONDS", help="how often to look, 1 without it")
    one.add_argument("--seconds", type=float, help="end after this time, even if the search goes on")
    one = command("plot", _plot, "draw the search of a journal")
    one.add_argument("file", type=Path)
    one.add_argument("picture", type=Path, nargs="?", help="FILE.svg without it; other endings need matplotlib")
    _add_file(command("convert", _convert, "print a file of another form as the program reads it; notes go to standard error"))
    one = command("solve", _solve, "convert a file, solve it, and tell the value as the file means it")
    _add_file(one)
    one.add_argument("--timeout", type=float, metavar="SECONDS")
    one.add_argument("--workers", type=int)
    one.add_argument("--parts", type=int)
    one.add_argument("--width", type=int)
    one.add_argument("--journal", type=Path)
    return parser


def main(arguments: Sequence[str] | None = None) -> int:
    """Runs a command, and returns its status.

    It is 0 where the command did its work, 2 where a search was stopped or the words are wrong, 3 where something is refused or there is no answer, and
    130 after Ctrl-C.
    """
    words = _parser().parse_args(arguments)
    try:
        act: Callable[[argparse.Namespace], int] = words.act
        status = act(words)
        if sys.stdout is None:
            print("standard output is closed", file=sys.stderr)
            return _REFUSED
        sys.stdout.flush()
        return status
    except (NotBegun, ProgramFailed) as fault:
        print(fault, file=sys.stderr)
        return _REFUSED
    except HammockdoveError as fault:
        print(f"{words.file}: {fault}", file=sys.stderr)
        return _REFUSED
    except OSError as fault:
        print(f"{fault.filename or 'standard output'}: {fault.strerror}", file=sys.stderr)
        return _REFUSED
    except KeyboardInterrupt:
        return _INTERRUPTED


if __name__ == "__main__":
    sys.exit(main())
