"""Texts as rows of tokens that know their places, so that a refusal can tell where."""

from __future__ import annotations

import re
from collections.abc import Callable, Iterable, Iterator
from dataclasses import dataclass
from decimal import Decimal
from typing import NoReturn

from .errors import TextRefused

_WHOLE = re.compile(r"[+-]?\d+\Z", re.ASCII)
_DECIMAL = re.compile(r"[+-]?(\d+(\.\d*)?|\.\d+)([eE][+-]?\d{1,3})?\Z", re.ASCII)
_LONGEST = 60


@dataclass(frozen=True)
class Token:
    """A word of a text and its place, both from 1."""

    text: str
    line: int
    column: int

    def refuse(self, message: str) -> NoReturn:
        """Raises `TextRefused` at this token."""
        shown = self.text if len(self.text) <= _LONGEST else f"{self.text[:_LONGEST]}.."
        raise TextRefused(f"{message}, found {shown!r}", self.line, self.column)

    def whole(self, what: str, least: int | None = None, most: int | None = None) -> int:
        """The whole number that the token is; `what` names it in a refusal."""
        if not _WHOLE.match(self.text) or len(self.text) > _LONGEST:
            self.refuse(f"{what} must be a whole number")
        number = int(self.text)
        if least is not None and number < least:
            self.refuse(f"{what} must be at least {least}")
        if most is not None and number > most:
            self.refuse(f"{what} must be at most {most}")
        return number

    def decimal(self, what: str) -> Decimal:
        """The decimal number that the token is, exactly as it is written."""
        if not _DECIMAL.match(self.text) or len(self.text) > _LONGEST:
            self.refuse(f"{what} must be a number")
        return Decimal(self.text)


@dataclass(frozen=True)
class Line:
    """A line that is not empty: its tokens, and where it ends."""

    tokens: tuple[Token, ...]
    number: int
    end: int

    def __len__(self) -> int:
        return len(self.tokens)

    def __getitem__(self, at: int) -> Token:
        return self.tokens[at]

    @property
    def first(self) -> Token:
        """The first token of the line."""
        return self.tokens[0]

    def require(self, count: int, what: str) -> None:
        """Refuses a line of fewer tokens."""
        if len(self.tokens) < count:
            raise TextRefused(f"{what}, and the line ends before", self.number, self.end)

    def only(self, count: int, what: str) -> None:
        """Refuses a line that has not exactly `count` tokens."""
        self.require(count, what)
        if len(self.tokens) > count:
            self.tokens[count].refuse(f"{what}, and nothing more")


def lines_of(text: str, is_comment: Callable[[str], bool] = lambda _: False, separator: str | None = None) -> list[Line]:
    """The lines of a text that are neither empty nor comments. `is_comment` sees a line from its first character that is no blank."""
    word = re.compile(r"[^\s]+" if separator is None else rf"[^\s{re.escape(separator)}]+")
    found = []
    for number, raw in enumerate(text.split("\n"), 1):
        if is_comment(raw.lstrip()):
            continue
        tokens = tuple(Token(it.group(), number, it.start() + 1) for it in word.finditer(raw))
        if tokens:
            found.append(Line(tokens, number, len(raw.rstrip()) + 1))
    return found


class Tokens:
    """The tokens of some lines in their order, taken one by one."""

    def __init__(self, lines: Iterable[Line]) -> None:
        self._lines = list(lines)
        self._rest: Iterator[Token] = (token for line in self._lines for token in line.tokens)
        self._ahead: Token | None = None

    def peek(self) -> Token | None:
        """The next token, which stays; None at the end."""
        if self._ahead is None:
            self._ahead = next(self._rest, None)
        return self._ahead

    def take(self, what: str) -> Token:
        """The next token. `what` names what is missing where the text ends."""
        token = self.peek()
        if token is None:
            last = self._lines[-1] if self._lines else None
            raise TextRefused(f"the text ends before {what}", last.number if last else 1, last.end if last else 1)
        self._ahead = None
        return token

    def end(self, what: str) -> None:
        """Refuses a token that is left."""
        token = self.peek()
        if token is not None:
            token.refuse(f"nothing may stand after {what}")


def starts_with(*marks: str) -> Callable[[str], bool]:
    """Tells comment lines by how they begin."""
    return lambda line: line.startswith(marks)
