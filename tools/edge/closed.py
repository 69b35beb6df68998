#!/usr/bin/env python3
"""Runs commands of the solver with each set of the descriptors 0, 1 and 2 closed, and compares status, output and journal with what must come.

    tools/edge/closed.py PROGRAM

PROGRAM is the solver's binary (crates/solver_cli/out/solver_cli), or the launcher once that is built. A closed input gives 6 where the command reads it, a closed
output 7 (unless it is 6), and closed errors change nothing. A journal has the same bytes as with nothing closed, and can be resumed.
"""
import itertools
import os
import sys
import tempfile

sys.dont_write_bytecode = True
from edge import ITEMS, content, prepare, run

IN, OUT, ERRORS = 0, 1, 2
SETS = [closed for count in range(4) for closed in itertools.combinations((IN, OUT, ERRORS), count)]


def wanted(usual, reads, closed):
    """The status and the output that must come, by those of a run with nothing closed."""
    if reads and IN in closed:
        return 6, b"" if OUT in closed else b"read fault\n"
    if OUT in closed:
        return 7, b""
    return usual


def rows(program, folder, words, given, reads, begun):
    """The runs of a command, each as what differs from what must come; `begun` is what its journal has before, where it has one."""
    path = os.path.join(folder, "j")
    prepare(path, begun)
    status, output, _ = run(program, words, folder, given)
    after = content(path)
    for closed in SETS:
        prepare(path, begun)
        status_now, output_now, errors = run(program, words, folder, given, closed)
        must = wanted((status, output), reads, closed)
        # A journal is begun once the input is read.
        journal = begun if reads and IN in closed else after
        wrong = []
        if (status_now, output_now) != must:
            wrong.append("%r and not %r" % ((status_now, output_now), must))
        if errors:
            wrong.append("errors %r" % errors)
        if content(path) != journal:
            wrong.append("another journal, %r" % (content(path) or b"")[:60])
        if journal is not None:
            again = run(program, "resume j", folder)
            if again[0] != 0:
                wrong.append("the journal does not go on: %r" % (again,))
        yield closed, must[0], wrong


def main():
    program = os.path.abspath(sys.argv[1])
    bad = count = 0
    with tempfile.TemporaryDirectory() as folder:
        run(program, "solve knapsack --width 1 --budget 1 --journal j", folder, ITEMS)
        begun = content(os.path.join(folder, "j"))
        covered = run(program, "solve knapsack --cover", folder, ITEMS)[1]
        for words, given, reads, journal in (
            ("solve knapsack --width 1", ITEMS, True, None),
            ("solve knapsack --width 1 --journal j", ITEMS, True, None),
            ("resume j --width 1", b"", False, begun),
            ("check", covered, True, None),
            ("generate knapsack 20 7 --solve", b"", False, None),
        ):
            seen = []
            for closed, status, wrong in rows(program, folder, words, given, reads, journal):
                count += 1
                bad += bool(wrong)
                seen.append("%s:%d%s" % ("".join(map(str, closed)) or "-", status, " WRONG (%s)" % "; ".join(wrong) if wrong else ""))
            print("%s: %s" % (words, ", ".join(seen)), flush=True)
    print("%d runs, %d wrong" % (count, bad))
    return 1 if bad else 0


if __name__ == "__main__":
    sys.exit(main())
