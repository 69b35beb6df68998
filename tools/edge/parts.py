#!/usr/bin/env python3
"""Runs searches with layers in parts beside the same searches with whole layers: output, status and journal must be equal.

    tools/edge/parts.py PROGRAM TIMES SEED

PROGRAM is the solver's binary. Each search is of a drawn instance. Its width is from 257 to 4,000, since layers of fewer than 256 nodes are never made in parts, and it has a budget of 1 to 6
subproblems. The parts are from 2 to 64. Bounds in a journal show every suffix of a diagram.
"""
import os
import random
import sys
import tempfile

sys.dont_write_bytecode = True
from edge import content, prepare, run

# The sizes of drawn instances whose diagrams have wide layers.
SIZES = {"knapsack": (30, 120), "maxcut": (18, 40), "max2sat": (18, 50), "qubo": (18, 40), "tsptw": (10, 24), "tardiness": (10, 20)}

JOURNAL = "j"


def drawn_words(draw, model):
    """The words of a search, without those of its parts and its journal."""
    words = ["solve", model, "--stats", "--width %d" % draw.randint(257, 4000), "--budget %d" % draw.randint(1, 6)]
    if draw.random() < 0.5:
        words.append("--cutset frontier")
    if draw.random() < 0.3:
        words.append("--within %d" % draw.choice((1, 10, 100)))
    return " ".join(words)


def searched(program, words, folder, given):
    """How a search ends that keeps a journal, with the journal's bytes."""
    path = os.path.join(folder, JOURNAL)
    prepare(path, None)
    ended = run(program, "%s --journal %s" % (words, JOURNAL), folder, given)
    return ended, content(path)


def main():
    program, times, draw = os.path.abspath(sys.argv[1]), int(sys.argv[2]), random.Random(int(sys.argv[3]))
    bad, seen = 0, {}
    with tempfile.TemporaryDirectory() as folder:
        for _ in range(times):
            model = draw.choice(list(SIZES))
            least, most = SIZES[model]
            drawn = "generate %s %d %d" % (model, draw.randint(least, most), draw.randint(0, 2**31 - 1))
            given = run(program, drawn, folder)[1]
            words, parts = drawn_words(draw, model), draw.randint(2, 64)
            whole = searched(program, words, folder, given)
            in_parts = searched(program, "%s --parts %d" % (words, parts), folder, given)
            first = whole[0][1].split(b"\n")[0].decode()
            seen[first.split(" ")[0]] = seen.get(first.split(" ")[0], 0) + 1
            if in_parts != whole:
                bad += 1
                print("%s; %s --parts %d: whole %r, in parts %r" % (drawn, words, parts, whole[0], in_parts[0]), flush=True)
    print("%d searches, %s, %d wrong" % (times, ", ".join("%d %s" % (count, word) for word, count in sorted(seen.items())), bad))
    return 1 if bad else 0


if __name__ == "__main__":
    sys.exit(main())
