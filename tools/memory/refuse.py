#!/usr/bin/env python3
"""Runs commands of the solver with one allocation refused, each in its turn, and compares what is printed with what may be.

    tools/memory/refuse.py PROGRAM

PROGRAM is the solver's binary (crates/solver_cli/out/solver_cli). For each command the first allocation is refused, then the second, and so on, until no
further one is reached: sixty runs in a row end as the one without a refusal. A run may print what it prints without one; `out of memory` (8), alone or after a
report for whose cover there was no memory; `disk fault` (10) where a journal's file is opened; or a search that is stopped for memory (2). It needs clang, and a
program that loads the C library at run time.
"""
import collections
import os
import re
import subprocess
import sys
import tempfile

HERE = os.path.dirname(os.path.abspath(__file__))
ITEMS = b"3 10\n60 5\n50 4\n70 6\n"
# What a command prints that could not open its journal.
NOT_OPENED = (10, b"disk fault\n", b"")
REPORT = rb"(proved( within \d+)?\nvalue -?\d+\nassignment( \d+)*\n|infeasible\n)"
COUNTS = rb"(taken \d+\nfinished \d+\n)?"
ENDS = {
    "out of memory": (8, re.compile(rb"out of memory\n\Z")),
    "a report, and out of memory": (8, re.compile(REPORT + COUNTS + rb"out of memory\n\Z")),
    "stopped memory": (
        2,
        re.compile(rb"stopped memory\n(value none\n|value -?\d+\nassignment( \d+)*\n)bound -?\d+\n" + COUNTS + rb"\Z"),
    ),
}
SAME_IN_A_ROW = 60


class Runs:
    def __init__(self, program, folder):
        self.program = program
        self.folder = folder
        self.shim = os.path.join(folder, "refuse.so")
        source = os.path.join(HERE, "refuse.c.txt")
        subprocess.run(["clang", "-x", "c", "-O1", "-shared", "-fPIC", "-o", self.shim, source, "-ldl"], check=True)

    def run(self, words, given, refused=None):
        known = dict(os.environ)
        if refused is not None:
            known.update(LD_PRELOAD=self.shim, FAIL_AT=str(refused))
        done = subprocess.run(
            [self.program] + words.split(), input=given, stdout=subprocess.PIPE, stderr=subprocess.PIPE,
            env=known, cwd=self.folder, timeout=60,
        )
        return done.returncode, done.stdout, done.stderr

    def sweep(self, words, given=b"", journal=None):
        """How many runs ended how, and the first that ended as it may not."""
        keeps = journal is not None or "--journal" in words
        def prepare():
            path = os.path.join(self.folder, "j")
            if os.path.exists(path):
                os.remove(path)
            if journal is not None:
                with open(path, "wb") as file:
                    file.write(journal)

        prepare()
        usual = self.run(words, given)
        seen = collections.Counter()
        refused, same = 0, 0
        while same < SAME_IN_A_ROW:
            refused += 1
            prepare()
            end = self.run(words, given, refused)
            if end == usual:
                same += 1
                seen["as without"] += 1
                continue
            same = 0
            if keeps and end == NOT_OPENED:
                seen["disk fault"] += 1
                continue
            names = [name for name, (status, text) in ENDS.items() if end[0] == status and text.match(end[1]) and not end[2]]
            if not names:
                return seen, (refused, end)
            seen[names[0]] += 1
        return seen, None


def main():
    if len(sys.argv) != 2 or not os.access(sys.argv[1], os.X_OK):
        sys.exit(__doc__)
    program = os.path.abspath(sys.argv[1])
    bad = 0
    with tempfile.TemporaryDirectory() as folder:
        runs = Runs(program, folder)
        runs.run("solve knapsack --width 1 --budget 1 --journal j", ITEMS)
        with open(os.path.join(folder, "j"), "rb") as file:
            journal = file.read()
        covered = runs.run("solve knapsack --width 1 --within 10 --cover", ITEMS)[1]
        tour = runs.run("generate tsptw 40 7", b"")[1]
        for words, given, begun in (
            ("solve knapsack --width 1 --within 10 --cover", ITEMS, None),
            ("solve knapsack --width 1 --workers 4 --stats", ITEMS, None),
            ("solve knapsack --width 1 --journal j", ITEMS, None),
            ("resume j", b"", journal),
            ("solve tsptw --workers 1", tour, None),
            ("solve tsptw --workers 1 --cutset frontier", tour, None),
            ("check", covered, None),
            ("digest knapsack", ITEMS, None),
            ("generate knapsack 20 7 --solve", b"", None),
        ):
            seen, wrong = runs.sweep(words, given, begun)
            print("%s: %s%s" % (words, dict(seen), "" if wrong is None else "; WRONG: %r" % (wrong,)), flush=True)
            bad += wrong is not None
    return 1 if bad else 0


if __name__ == "__main__":
    sys.exit(main())
