"""What the tests share: the program, and journals that are written by the format's text."""

import hashlib
import itertools
import os
import struct
import subprocess
import tempfile
import unittest
from pathlib import Path

from hammockdove import Solver

TOP = Path(__file__).resolve().parent.parent.parent
SAMPLES = TOP / "examples/formats"
BUILT = TOP / "crates/solver_cli/out/solver_cli"
PROGRAM = os.environ.get("HAMMOCKDOVE") or (str(BUILT) if os.access(BUILT, os.X_OK) else None)

needs_program = unittest.skipUnless(PROGRAM, "no program is built: rt ci builds it, or HAMMOCKDOVE names it")

def _has_words(*words):
    """Whether the program has these words."""
    with tempfile.TemporaryDirectory() as room:
        ran = subprocess.run([PROGRAM, *words], cwd=room, stdin=subprocess.DEVNULL, stdout=subprocess.PIPE, check=False)
        return ran.stdout != b"words usage\n"


def can_split():
    """Whether the program has the words of parts of a search."""
    return PROGRAM is not None and _has_words("split", "none", "--part", "0/1")


def takes_incumbents():
    """Whether a search of the program that goes on takes the solutions of reports."""
    return PROGRAM is not None and _has_words("resume", "none", "--incumbent")


TEXT = b"3 10\n60 5\n50 4\n70 6\n"
NO_TICKET = 2**64 - 1

PATIENCE = 400.0
"""How many seconds a test waits, on a machine with much other work, for what takes less than one where there is none."""


class RoomCase(unittest.TestCase):
    """A test with a folder of its own."""

    def setUp(self):
        room = tempfile.TemporaryDirectory(prefix="hammockdove-test-")
        self.addCleanup(room.cleanup)
        self.room = Path(room.name)


class ProgramCase(RoomCase):
    """A test with the program; its journals without a name lie in the test's folder."""

    def setUp(self):
        super().setUp()
        self.solver = Solver(PROGRAM)
        was, tempfile.tempdir = tempfile.tempdir, str(self.room)
        self.addCleanup(setattr, tempfile, "tempdir", was)


DIGEST = bytes(range(32))
MARK = int.from_bytes(b"PART", "big")


def head(version=1, number=1, within=0, text=TEXT, part=(1, 3, DIGEST)):
    """With MARK in the place of a version it is the head of the part (number, of how many, digest)."""
    distance = struct.pack(">q", within) if version > 1 else b""
    mark = struct.pack(">II", *part[:2]) + part[2] if version == MARK else b""
    return 1, struct.pack(">IB", version, number) + distance + mark + struct.pack(">I", len(text)) + text


def decisions(*found):
    return struct.pack(f">I{len(found)}I", len(found), *found)


def improve(value, *found):
    return 2, struct.pack(">q", value) + decisions(*found)


def finish(ticket, *children):
    """Children are (replaced or None, bound, decisions)."""
    rows = (struct.pack(">Qq", NO_TICKET if it is None else it, bound) + decisions(*found) for it, bound, found in children)
    return 3, struct.pack(">QI", ticket, len(children)) + b"".join(rows)


def snapshot(incumbent, next_ticket, *subproblems):
    """The incumbent is (value, decisions) or None, subproblems are (ticket, bound, decisions)."""
    best = b"\0" if incumbent is None else b"\1" + struct.pack(">q", incumbent[0]) + decisions(*incumbent[1])
    rows = (struct.pack(">Qq", ticket, bound) + decisions(*found) for ticket, bound, found in subproblems)
    return 4, best + struct.pack(">QI", next_ticket, len(subproblems)) + b"".join(rows)


def bytes_of(records):
    """The bytes of whole records, each with its open gate, and the closed gate after the last."""
    digest, out = bytes(32), b""
    for kind, body in records:
        frame = struct.pack(">BI", kind, len(body)) + body
        digest = hashlib.sha256(digest + frame).digest()
        out += b"\1" + frame + digest
    return out + b"\0"


def small_search(version=1):
    """The search of the three items at width 1: three subproblems, two solutions."""
    return [
        head(version),
        improve(110, 1, 1, 0),
        finish(0, (None, 121, [1]), (None, 120, [0])),
        finish(1),
        improve(120, 0, 1, 1),
        finish(2),
    ]


def snapshot_each():
    """The same search with a Snapshot after each finished subproblem."""
    begun, first, finished, *more = small_search(2)
    return [
        *(begun, first, finished, snapshot((110, [1, 1, 0]), 3, (1, 121, [1]), (2, 120, [0]))),
        *(more[0], snapshot((110, [1, 1, 0]), 3, (2, 120, [0]))),
        *(more[1], more[2], snapshot((120, [0, 1, 1]), 3)),
    ]


def part_of_search(index=0):
    """Part 0 or 1 of two of the same search, stopped after its first subproblem: where part 0 begins, and where part 1 ends."""
    begun = bytes_of(small_search(2)[:3])
    part = (index, 2, begun[-33:-1])
    if index == 0:
        return [head(MARK, part=part), snapshot((110, [1, 1, 0]), 3, (1, 121, [1]))]
    return [head(MARK, part=part), snapshot((110, [1, 1, 0]), 3, (2, 120, [0])), improve(120, 0, 1, 1), finish(2)]


def best_of(instance, choices):
    """The best value over all lists of decisions below `choices`, by the instance's own evaluation; None where none is feasible."""
    values = (instance.value(found) for found in itertools.product(range(choices), repeat=instance.size))
    return max((it for it in values if it is not None), default=None)
