#!/usr/bin/env python3
"""Finds the least stack (`ulimit -s`, in KB) with which commands of the solver end as with the usual one.

    tools/edge/stack.py PROGRAM

PROGRAM is the solver's binary. A thread gets the stack that the limit names, so several workers are tried too. Each command runs with each limit from
STEP on, in steps of STEP, until ENOUGH in a row end as usual; the least of these is printed, and how the run before it ended.
"""
import os
import subprocess
import sys
import tempfile

sys.dont_write_bytecode = True
from edge import ITEMS, content, prepare, run

STEP = 4
ENOUGH = 16
MOST = 1024
TABLE = b'{"layers":[{"gap":[[0]],"merge":[[0]],"rough":[0],"states":1}],"root_value":0}'
# A document in JSON that is as deep as one may be.
DEEP = b'{"layers":' + b'{"a":' * 126 + b"0" + b"}" * 127


def limited(program, words, folder, given, stack):
    """How a command ends with this soft limit of the stack."""
    limit = ["sh", "-c", 'ulimit -S -s "$0" && exec "$@"', str(stack), program, *words.split()]
    done = subprocess.run(limit, input=given, stdout=subprocess.PIPE, stderr=subprocess.PIPE, cwd=folder, timeout=600, check=False)
    return done.returncode, done.stdout


def least(program, words, folder, given, begun):
    """The least stack from which on a command ends as usual, and how it ends with less; None where no stack up to MOST is enough."""
    path = os.path.join(folder, "j")
    prepare(path, begun)
    usual = run(program, words, folder, given)[:2]
    found, below = None, None
    for stack in range(STEP, MOST + 1, STEP):
        prepare(path, begun)
        ended = limited(program, words, folder, given, stack)
        if ended != usual:
            found, below = None, ended[0]
        elif found is None:
            found = stack
        elif stack >= found + ENOUGH * STEP:
            return found, below
    return None, below


def main():
    program = os.path.abspath(sys.argv[1])
    most = 0
    with tempfile.TemporaryDirectory() as folder:
        run(program, "solve knapsack --width 1 --budget 1 --journal j", folder, ITEMS)
        begun = content(os.path.join(folder, "j"))
        cut = run(program, "generate maxcut 24 7", folder)[1]
        covered = run(program, "solve maxcut --width 4 --cover", folder, cut)[1]
        for words, given, journal in (
            ("solve knapsack --width 1", ITEMS, None),
            ("solve maxcut --width 4", cut, None),
            ("solve maxcut --width 4 --workers 4", cut, None),
            ("solve maxcut --width 4 --workers 16", cut, None),
            ("solve maxcut --width 4 --workers 4 --cutset frontier", cut, None),
            ("solve maxcut --width 4 --cover", cut, None),
            ("solve knapsack --width 1 --journal j", ITEMS, None),
            ("resume j --width 1", b"", begun),
            ("check", covered, None),
            ("generate tsptw 20 7 --solve", b"", None),
            ("digest table", TABLE, None),
            ("digest table", DEEP, None),
        ):
            found, below = least(program, words, folder, given, journal)
            print("%s: %s KB, below it status %s" % (words, found, below), flush=True)
            most = max(most, MOST if found is None else found)
    print("enough for all: %d KB" % most)
    return 0


if __name__ == "__main__":
    sys.exit(main())
