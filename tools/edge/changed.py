#!/usr/bin/env python3
"""Changes each byte of a journal in turn, and resumes it: it is refused at its place and stays as it is, or the answer is that of the whole one.

    tools/edge/changed.py PROGRAM JOURNAL [SEED [STEP]]

PROGRAM is the solver's binary, and JOURNAL the file of a search that ended. The place is that which the client's own reader tells. SEED draws
what a byte becomes, and with STEP only one byte in STEP is changed.
"""
import os
import random
import sys
import tempfile
from pathlib import Path

sys.dont_write_bytecode = True
sys.path.insert(0, str(Path(__file__).resolve().parent.parent.parent / "python"))
from edge import content, prepare, run

from hammockdove import JournalDamaged, NotBegun
from hammockdove.show import contents_of

REFUSED = 5
VERSION_BYTES = range(6, 10)


def main():
    program, journal = os.path.abspath(sys.argv[1]), content(sys.argv[2])
    draw = random.Random(int(sys.argv[3]) if len(sys.argv) > 3 else 0)
    step = int(sys.argv[4]) if len(sys.argv) > 4 else 1
    bad = refused = same = 0
    with tempfile.TemporaryDirectory() as folder:
        path = os.path.join(folder, "j")
        prepare(path, journal)
        whole = run(program, "resume j", folder)[:2]
        for at in range(0, len(journal), step):
            byte = draw.choice([it for it in range(256) if it != journal[at]])
            changed = journal[:at] + bytes([byte]) + journal[at + 1:]
            prepare(path, changed)
            wanted = answer(path)
            told = run(program, "resume j", folder)[:2]
            is_refused = told[0] == REFUSED
            refused, same = refused + is_refused, same + (told == whole)
            if wanted is None and told == whole:
                continue
            if told != wanted or content(path) != changed:
                bad += 1
                print("byte %d is %d: wanted %r, told %r" % (at, byte, wanted or whole, told), flush=True)
    print("%d bytes changed, %d refused, %d with the same answer, %d wrong" % (len(range(0, len(journal), step)), refused, same, bad))
    return 1 if bad else 0


def answer(path):
    """The refusal of a journal, or None where the reader finds none."""
    try:
        refusal = contents_of(path).refusal
    except NotBegun:
        return REFUSED, b"journal not-begun\n"
    except JournalDamaged as found:
        refusal = found
    if refusal is None:
        return None
    number = refusal.offset
    if refusal.cause == "version":
        number = int.from_bytes(content(path)[VERSION_BYTES.start:VERSION_BYTES.stop], "big")
    return REFUSED, b"journal %s %d\n" % (refusal.cause.encode(), number)


if __name__ == "__main__":
    sys.exit(main())
