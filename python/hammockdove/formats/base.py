"""What every form of file has: a reader, and how the program's values are to be read."""

from __future__ import annotations

from collections.abc import Callable, Sequence
from dataclasses import dataclass
from decimal import Decimal

from ..errors import TextRefused
from ..instances import Instance
from ..texts import Token

MOST_DECIMALS = 6


@dataclass(frozen=True)
class Reading:
    """How a value of the program is read in the file's own measure: `(offset + sign * value) / scale`, which is a `name`.

    Where the file has hard clauses, all of them hold exactly if the program's value is at least `hard_from`.
    """

    name: str
    scale: int = 1
    sign: int = 1
    offset: int = 0
    hard_from: int | None = None

    def of(self, value: int) -> Decimal:
        """The value in the file's measure."""
        return Decimal(self.offset + self.sign * value) / self.scale

    def value_of(self, measured: Decimal | int) -> int:
        """The program's value for one in the file's measure, the way back of `of`. It must be a multiple of one over the scale."""
        return self.sign * (int(Decimal(measured) * self.scale) - self.offset)

    def hard_hold(self, value: int) -> bool:
        """Whether a solution of that value satisfies every hard clause; always where there are none."""
        return self.hard_from is None or value >= self.hard_from

    def told(self, value: int) -> str:
        """The value in words."""
        if not self.hard_hold(value):
            return "not all hard clauses hold"
        return f"{self.name} {self.of(value):f}{'; all hard clauses hold' if self.hard_from is not None else ''}"


@dataclass(frozen=True)
class Converted:
    """An instance from a file. `notes` tell what the conversion changed; `known` is the best value that the file gives, in its own measure."""

    instance: Instance
    reading: Reading
    notes: tuple[str, ...] = ()
    known: Decimal | None = None


@dataclass(frozen=True)
class Form:
    """A form of file: its name, what it is, how a text is read, and the endings that its files mostly have.

    `read` gets the text and which instance of the file is wanted, from 1; a form that has one alone refuses another number.
    """

    name: str
    about: str
    read: Callable[[str, int], Converted]
    endings: tuple[str, ...] = ()


def scaled(tokens: Sequence[Token], what: str) -> tuple[list[int], int]:
    """Whole numbers from decimals, and by which power of ten all of them were multiplied: the least one that makes each of them whole."""
    numbers = [token.decimal(what) for token in tokens]
    places = 0
    for token, number in zip(tokens, numbers):
        exponent = number.normalize().as_tuple().exponent
        needed = -exponent if isinstance(exponent, int) else 0
        if needed > MOST_DECIMALS:
            token.refuse(f"{what} may have at most {MOST_DECIMALS} decimals")
        places = max(places, needed)
    scale = 10**places
    return [int(number * scale) for number in numbers], scale


def scale_note(what: str, scale: int) -> tuple[str, ...]:
    """The note on a scale; none where nothing was scaled."""
    return () if scale == 1 else (f"{what} have decimals: all were multiplied by {scale}, and so is every value",)


def only_one(number: int, at: Token) -> None:
    """Refuses a number of instance other than 1, for a form whose files have one alone."""
    if number != 1:
        raise TextRefused(f"a file of this form has one instance, and number {number} was asked for", at.line, at.column)
