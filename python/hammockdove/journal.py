"""Reads a search's journal, versions 1 and 2 and that of a part, without changing it and also while a search writes it (docs/FORMATS.md, "Journals").

The reader tests the bytes: gates, digests, lengths and fields. Whether a record may follow where it stands is tested by the program,
when it resumes the journal.
"""

from __future__ import annotations

import hashlib
import struct
from collections.abc import Iterator
from dataclasses import dataclass
from pathlib import Path
from typing import NamedTuple, NoReturn

from .errors import JournalDamaged, NotBegun

VERSIONS = (1, 2)
MODELS = {1: "knapsack", 2: "maxcut", 3: "max2sat", 4: "tsptw", 5: "tardiness", 6: "table", 7: "qubo"}
MOST_WITHIN = 2**50

_HEAD, _IMPROVE, _FINISH, _SNAPSHOT = 1, 2, 3, 4
_NO_TICKET = 2**64 - 1
_OPEN = b"\x01"
_FRAME = struct.Struct(">BI")
_DIGEST_BYTES = 32
# The head of the journal of a part has this in the place of a version; its records are those of version 2.
_PART_MARK = int.from_bytes(b"PART", "big")
_PART_VERSION = 2
_FRAMING = 1 + _FRAME.size + _DIGEST_BYTES


@dataclass(frozen=True)
class Part:
    """A part of a search that was split: its number from 0 on, how many parts there are, and the digest of the journal that was split.

    `digest` is that of the last record of that journal, in hexadecimal: `Journal.digest` once all of it is read.
    """

    index: int
    of: int
    digest: str

    def __str__(self) -> str:
        return f"{self.index}/{self.of}"


class Head(NamedTuple):
    """Which search the journal is of.

    `within` is its distance, 0 in version 1; `text` is the canonical text of the instance. `part` is the part that the journal is of, and
    None where it is of a whole search. `version` is that of the records, 2 of a part.
    """

    version: int
    model: str
    within: int
    text: bytes
    part: Part | None = None


class Improve(NamedTuple):
    """A better solution."""

    value: int
    decisions: tuple[int, ...]


class Child(NamedTuple):
    """A subproblem that entered, and the ticket of the one whose place it took, if it took one."""

    replaced: int | None
    bound: int
    decisions: tuple[int, ...]


class Finish(NamedTuple):
    """A subproblem that is finished, and the children that it left. They get the next tickets in their order."""

    ticket: int
    children: tuple[Child, ...]


class Subproblem(NamedTuple):
    """A subproblem of a Snapshot."""

    ticket: int
    bound: int
    decisions: tuple[int, ...]


class Snapshot(NamedTuple):
    """All that is open, from which a replay may begin (version 2)."""

    incumbent: Improve | None
    next_ticket: int
    subproblems: tuple[Subproblem, ...]


Record = Head | Improve | Finish | Snapshot


class Entry(NamedTuple):
    """A record, and the offset of its gate."""

    offset: int
    record: Record


@dataclass
class Journal:
    """A journal file as far as it was read. `offset` is where the next gate stands."""

    path: Path
    head: Head | None = None
    offset: int = 0
    _digest: bytes = bytes(_DIGEST_BYTES)

    @property
    def digest(self) -> str:
        """The digest of the last record that was read, in hexadecimal; parts name the journal that was split by it."""
        return self._digest.hex()

    def advance(self) -> Iterator[Entry]:
        """The records that came since the last call, up to the first closed gate.

        A gate is opened once its record is on the disk, so a record that is being written is never met. Raises `JournalDamaged` with
        the offset of the first bad record; those before it have been given.
        """
        with open(self.path, "rb") as file:
            file.seek(self.offset)
            while file.read(1) == _OPEN:
                at = self.offset
                frame = file.read(_FRAME.size)
                if not frame and at == 0:
                    return
                if len(frame) < _FRAME.size:
                    raise JournalDamaged("damaged", at, "the file ends inside a record")
                kind, length = _FRAME.unpack(frame)
                rest = file.read(length + _DIGEST_BYTES)
                body, digest = rest[:length], rest[length:]
                if len(rest) < length + _DIGEST_BYTES:
                    raise JournalDamaged("damaged", at, "the file ends inside a record")
                if hashlib.sha256(self._digest + frame + body).digest() != digest:
                    raise JournalDamaged("damaged", at, "the digest is another")
                if not file.peek(1):
                    raise JournalDamaged("damaged", at, "the file ends before the gate that must stand after the record")
                record = _record(kind, body, self.head, at)
                if isinstance(record, Head):
                    self.head = record
                self._digest = digest
                self.offset = at + _FRAMING + length
                yield Entry(at, record)


def read(path: str | Path) -> tuple[Head, list[Entry]]:
    """The head and the records after it of a whole journal. Raises `NotBegun` or `JournalDamaged`."""
    journal = Journal(Path(path))
    entries = list(journal.advance())
    if journal.head is None:
        raise not_begun(path)
    return journal.head, entries[1:]


def not_begun(path: str | Path) -> NotBegun:
    """Why a file has no head: its search has not begun, or it is another file."""
    with open(path, "rb") as file:
        first = file.read(1)
    if first not in (b"", b"\0", _OPEN):
        return NotBegun(f"{path} is no journal: its first byte is neither 0 nor 1")
    return NotBegun(f"{path} holds no journal yet: it has at most one byte, or its first gate is closed")


class _Body:
    """The fields of a record's body, taken one by one. Raises `struct.error` where they end too early."""

    def __init__(self, data: bytes, offset: int) -> None:
        self._data, self._at, self._offset = data, 0, offset

    def _take(self, form: str) -> tuple[int, ...]:
        found: tuple[int, ...] = struct.unpack_from(form, self._data, self._at)
        self._at += struct.calcsize(form)
        return found

    def byte(self) -> int:
        return self._take(">B")[0]

    def u32(self) -> int:
        return self._take(">I")[0]

    def u64(self) -> int:
        return self._take(">Q")[0]

    def i64(self) -> int:
        return self._take(">q")[0]

    def decisions(self) -> tuple[int, ...]:
        count = self.u32()
        if self._at + 4 * count > len(self._data):
            self.refuse("its decisions do not fit in it")
        return self._take(f">{count}I")

    def text(self) -> bytes:
        length = self.u32()
        found = self._data[self._at : self._at + length]
        self._at += length
        return found

    def part(self) -> Part:
        found = Part(self.u32(), self.u32(), self.digest())
        if found.index >= found.of:
            self.refuse(f"it is part {found.index}, and there are {found.of}")
        return found

    def digest(self) -> str:
        found = self._data[self._at : self._at + _DIGEST_BYTES]
        if len(found) < _DIGEST_BYTES:
            self.refuse("its digest does not fit in it")
        self._at += _DIGEST_BYTES
        return found.hex()

    def improve(self) -> Improve:
        return Improve(self.i64(), self.decisions())

    def end(self) -> None:
        if self._at != len(self._data):
            self.refuse("its fields and its length do not agree")

    def refuse(self, detail: str) -> NoReturn:
        raise JournalDamaged("malformed", self._offset, detail)


def _record(kind: int, data: bytes, head: Head | None, offset: int) -> Record:
    body = _Body(data, offset)
    if (kind == _HEAD) != (head is None):
        body.refuse("the first record is no head" if head is None else "a second head")
    try:
        record = _fields(kind, body, head, offset)
    except struct.error:
        body.refuse("its fields do not fit in it")
    body.end()
    return record


def _fields(kind: int, body: _Body, head: Head | None, offset: int) -> Record:
    if head is None:
        return _head(body, offset)
    if kind == _IMPROVE:
        return body.improve()
    if kind == _FINISH:
        ticket = body.u64()
        return Finish(ticket, tuple(_child(body) for _ in range(body.u32())))
    if kind == _SNAPSHOT and head.version > 1:
        marked = body.byte()
        if marked > 1:
            body.refuse(f"the mark of its solution is {marked}")
        incumbent = body.improve() if marked else None
        next_ticket = body.u64()
        return Snapshot(incumbent, next_ticket, tuple(Subproblem(body.u64(), body.i64(), body.decisions()) for _ in range(body.u32())))
    body.refuse(f"a record of kind {kind} in version {head.version}")


def _head(body: _Body, offset: int) -> Head:
    mark = body.u32()
    version = _PART_VERSION if mark == _PART_MARK else mark
    if version not in VERSIONS:
        raise JournalDamaged("version", offset, f"version {version}, and this reader knows 1 and 2")
    number = body.byte()
    if number not in MODELS:
        body.refuse(f"its problem is number {number}")
    within = body.i64() if version > 1 else 0
    if not 0 <= within <= MOST_WITHIN:
        body.refuse(f"its distance is {within}")
    part = body.part() if mark == _PART_MARK else None
    return Head(version, MODELS[number], within, body.text(), part)


def _child(body: _Body) -> Child:
    replaced = body.u64()
    return Child(None if replaced == _NO_TICKET else replaced, body.i64(), body.decisions())
