"""Draws files that are nearly journals, and compares what two readers answer.

random_files.py TOOL READER TIMES SEED: READER is a Python file with `answer(bytes) -> str`, in the tool's words.
"""

import hashlib
import importlib.util
import random
import struct
import subprocess
import sys


def piece(digest, kind, body):
    whole = bytes([kind]) + struct.pack(">I", len(body)) + body
    digest = hashlib.sha256(digest + whole).digest()
    return b"\x01" + whole + digest, digest


def decisions(draw):
    some = [draw.choice([0, 1, 2**32 - 1]) for _ in range(draw.choice([0, 1, 2, 5]))]
    return struct.pack(">I", len(some)) + b"".join(struct.pack(">I", d) for d in some)


# What the head of a part's journal has in the place of a version.
PART = int.from_bytes(b"PART", "big")


def listed(draw, numbers):
    """A number of rows, each a ticket or one of these numbers, a bound and decisions."""
    rows = draw.choice([0, 1, 2])
    return struct.pack(">I", rows) + b"".join(
        struct.pack(">Qq", draw.choice(numbers), draw.choice([0, 2**62, 2**62 + 1, -(2**62), -(2**62) - 1])) + decisions(draw)
        for _ in range(rows)
    )


def body(draw, kind):
    if kind == 1:
        text = draw.choice([b"", b"0 5\n", b"x" * 20])
        version = draw.choice([1] * 15 + [2] * 20 + [PART] * 15 + [0, 3])
        within = struct.pack(">q", draw.choice([0] * 20 + [1, 2**50, 2**50 + 1, -1])) if version in (2, PART) else b""
        part = struct.pack(">II", draw.choice([0, 0, 1, 2]), draw.choice([1, 2, 3, 2**32 - 1])) + bytes(32) if version == PART else b""
        problem = draw.choice([1, 2, 3, 4, 5, 6] * 6 + [0, 7, 255])
        return struct.pack(">IB", version, problem) + within + part + struct.pack(">I", len(text)) + text
    if kind == 2:
        return struct.pack(">q", draw.choice([0, -1, 110, 2**63 - 1])) + decisions(draw)
    if kind == 3:
        return struct.pack(">Q", draw.choice([0, 5, 2**64 - 1])) + listed(draw, [0, 7, 2**64 - 1, 2**64 - 2])
    if kind == 4:
        best = struct.pack(">q", 110) + decisions(draw)
        mark = draw.choice([b"\0", b"\1" + best] * 5 + [b"\2" + best])
        return mark + struct.pack(">Q", draw.choice([0, 5, 2**64 - 1])) + listed(draw, [0, 5, 7, 2**64 - 1])
    return bytes(draw.randrange(256) for _ in range(draw.randrange(20)))


def spoiled(draw, body):
    how = draw.randrange(40)
    if how == 0:
        return body + bytes([draw.randrange(256)])
    if how == 1:
        return body[:-1]
    if how == 2 and body:
        at = draw.randrange(len(body))
        return body[:at] + bytes([body[at] ^ (1 << draw.randrange(8))]) + body[at + 1:]
    return body


def file(draw):
    data, digest = b"", bytes(32)
    for number in range(draw.choice([0, 1, 1, 2, 3, 5])):
        kind = 1 if number == 0 and draw.random() < 0.95 else draw.choice([2, 3, 4] * 7 + [1, 5, 0])
        some, digest = piece(digest, kind, spoiled(draw, body(draw, kind)))
        data += some
    data += draw.choice([b"", b"\x00", b"\x00", b"\x00", b"\x07rest", b"\x01", b"\x01\x02\x00\x00\x00\x01"])
    if data and draw.random() < 0.2:
        at = draw.randrange(len(data))
        data = data[:at] + bytes([data[at] ^ (1 << draw.randrange(8))]) + data[at + 1:]
    if data and draw.random() < 0.1:
        data = data[: draw.randrange(len(data))]
    return data


def main():
    if len(sys.argv) != 5:
        sys.exit(__doc__)
    tool, times, seed = sys.argv[1].split(), int(sys.argv[3]), int(sys.argv[4])
    spec = importlib.util.spec_from_file_location("reader", sys.argv[2])
    reader = importlib.util.module_from_spec(spec)
    spec.loader.exec_module(reader)
    draw = random.Random(seed)
    files = [file(draw) for _ in range(times)]
    stream = b"".join(struct.pack("<Q", len(f)) + f for f in files)
    lines = subprocess.run([*tool, "read"], input=stream, capture_output=True).stdout.decode().splitlines()
    assert len(lines) == times, len(lines)
    seen = {}
    wrong = 0
    for data, line in zip(files, lines):
        want = reader.answer(data)
        word = want.split()[0] if not want[0].isdigit() else "read"
        seen[word] = seen.get(word, 0) + 1
        if want != line:
            wrong += 1
            if wrong <= 10:
                print(data.hex(), "wanted", want, "got", line)
    print("%d files, %d wrong, answers %s" % (times, wrong, seen))


main()
