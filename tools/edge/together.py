#!/usr/bin/env python3
"""Starts two commands of the solver on one journal at random delays: one ends by `disk fault`, the other as if alone, and the journal goes on.

    tools/edge/together.py PROGRAM TIMES SEED [FOLDER [SIZE]]

PROGRAM is the solver's binary. The journals stand in FOLDER, or where temporary files do; the search is of a drawn cut with SIZE vertices. A search by one worker writes the same bytes each time, so
the journal is compared with that of the command alone.
"""
import os
import random
import subprocess
import sys
import tempfile
import time

sys.dont_write_bytecode = True
from edge import content, prepare, run, size

LOCKED = (10, b"disk fault\n")


def begin(program, words, folder, given):
    """A command that runs, with this file for its input."""
    with open(given, "rb") as file:
        return subprocess.Popen([program, *words.split()], stdin=file, stdout=subprocess.PIPE, stderr=subprocess.PIPE, cwd=folder)


def end(child):
    output, errors = child.communicate(timeout=600)
    return (child.returncode, output) if not errors else (child.returncode, output, errors)


def has_open(child, path):
    """Whether a command has this file open."""
    folder = "/proc/%d/fd" % child.pid
    try:
        return any(os.readlink(os.path.join(folder, name)) == path for name in os.listdir(folder))
    except OSError:
        return False


class Alone:
    """A command by itself: how it ends, what its journal has after it, and how long it takes."""

    def __init__(self, program, words, folder, given, begun):
        self.words, self.begun = words, begun
        path = os.path.join(folder, "j")
        prepare(path, begun)
        started = time.monotonic()
        child = begin(program, words, folder, given)
        self.ended = end(child)
        self.seconds = time.monotonic() - started
        self.journal = content(path)


def main():
    program, times, draw = os.path.abspath(sys.argv[1]), int(sys.argv[2]), random.Random(int(sys.argv[3]))
    bad, early, late, seen = 0, 0, 0, {}
    with tempfile.TemporaryDirectory(dir=sys.argv[4] if len(sys.argv) > 4 else None) as folder:
        path, given = os.path.join(folder, "j"), os.path.join(folder, "cut")
        prepare(given, run(program, "generate maxcut %s 7" % size(sys.argv), folder)[1])
        solve = Alone(program, "solve maxcut --width 4 --journal j", folder, given, None)
        run(program, "solve maxcut --width 4 --budget 10 --journal k", folder, content(given))
        resume = Alone(program, "resume j --width 4", folder, given, content(os.path.join(folder, "k")))
        print("alone: %s in %.2f s, %s in %.2f s" % (solve.words, solve.seconds, resume.words, resume.seconds))
        prepare(path, solve.journal)
        finished = {words: run(program, words, folder, content(given))[:2] for words in (solve.words, resume.words)}
        number = 0
        while number < times:
            first, second = draw.choice([solve, resume]), draw.choice([solve, resume])
            prepare(path, first.begun)
            one = begin(program, first.words, folder, given)
            # Two of different words tell different things of a file that the other has not opened yet.
            while first is not second and not has_open(one, path) and one.poll() is None:
                time.sleep(0.0005)
            time.sleep(draw.uniform(0, first.seconds / 2))
            if one.poll() is not None:
                bad += end(one) != first.ended
                early += 1
                continue
            two = begin(program, second.words, folder, given)
            ends = end(one), end(two)
            if ends == (first.ended, finished[second.words]) and content(path) == first.journal:
                late += 1
                continue
            number += 1
            wrong = []
            if ends != (first.ended, LOCKED) and (first is not second or ends != (LOCKED, first.ended)):
                wrong.append("ended %r" % (ends,))
            if content(path) != first.journal:
                wrong.append("another journal")
            again = run(program, "resume j --width 4", folder)[:2]
            if again != solve.ended:
                wrong.append("resumed %r" % (again,))
            bad += bool(wrong)
            kind = "%s beside %s" % (second.words.split()[0], first.words.split()[0])
            seen[kind] = seen.get(kind, 0) + 1
            if wrong:
                print("run %d, %s: %s" % (number, kind, "; ".join(wrong)), flush=True)
    print("%d runs, %d wrong: %r; in %d more the first had ended before the second began, in %d while it began" % (times, bad, seen, early, late))
    # Few end within the moments in which the second begins: more would hide a lock that is not there.
    return 1 if bad or late > times // 5 else 0


if __name__ == "__main__":
    sys.exit(main())
