#!/usr/bin/env python3
"""Makes covers of drawn instances and has them checked.

    tools/edge/covers.py PROGRAM TIMES SEED [OTHER [MODELS]]

PROGRAM is the solver's binary. Each search has one to four workers, a width from 1 to 20, one of both cutsets, a distance from 0 to 20, and books of a drawn number of words, 0 among them. `check` has to accept each cover. OTHER
is a second program with the same command `check`, which has to accept it too where it knows the problem. MODELS are the problems, with commas between them. With a
build for tests that answers `out of memory` where a cover from books fails its test, each such cover is told as a wrong one.
"""
import os
import random
import sys
import tempfile

sys.dont_write_bytecode = True
from edge import run

# The sizes of drawn instances whose searches take well under a second at these widths.
SIZES = {"knapsack": (3, 14), "maxcut": (2, 11), "max2sat": (2, 11), "qubo": (2, 10), "tsptw": (3, 9), "tardiness": (2, 8)}

WORDS = (0, 1, 50, 500, 5000, 50000, None)

# What a program answers to the cover of a problem that it does not know: the word that stands in the head's line 4.
UNKNOWN = (3, b"cover word 4 7\n")


def drawn_words(draw, model):
    """The words of a search with a cover."""
    words = ["solve", model, "--cover", "--width %d" % draw.randint(1, 20), "--workers %d" % draw.randint(1, 4)]
    words.append("--cutset %s" % draw.choice(("lel", "frontier")))
    words.append("--within %d" % draw.choice((0, 0, 1, 5, 20)))
    limit = draw.choice(WORDS)
    if limit is not None:
        words.append("--cover-words %d" % limit)
    return " ".join(words)


def main():
    program, times, draw = os.path.abspath(sys.argv[1]), int(sys.argv[2]), random.Random(int(sys.argv[3]))
    others = sys.argv[4:5]
    models = sys.argv[5].split(",") if len(sys.argv) > 5 else list(SIZES)
    bad, seen = 0, {}
    with tempfile.TemporaryDirectory() as folder:
        for _ in range(times):
            model = draw.choice(models)
            drawn = "generate %s %d %d" % (model, draw.randint(*SIZES[model]), draw.randint(0, 2**31 - 1))
            given = run(program, drawn, folder)[1]
            words = drawn_words(draw, model)
            status, output, _ = run(program, words, folder, given)
            first = output.split(b"\n")[0].decode().split(" ")[0]
            seen[first] = seen.get(first, 0) + 1
            if output == b"width\n":
                continue
            for checker in [program, *others]:
                told = run(checker, "check", folder, output)[:2]
                if checker != program and told == UNKNOWN:
                    continue
                if told != (0, b"accepted\n"):
                    bad += 1
                    print("%s; %s: status %d, %s says %r" % (drawn, words, status, checker, told), flush=True)
    print("%d searches, %s, %d wrong" % (times, ", ".join("%d %s" % (count, word) for word, count in sorted(seen.items())), bad))
    return 1 if bad else 0


if __name__ == "__main__":
    sys.exit(main())
