#!/usr/bin/env python3
"""The incumbent and the bound of a search after more and more subproblems.

    tools/plots/progress.py PROGRAM MODEL N SEED > docs/img/progress.txt

Each line is the number of subproblems taken, the incumbent's value and the bound. With one worker a search makes the same steps each time, so a run for
each budget shows one search.
"""
import re
import subprocess
import sys

import instances


def main():
    if len(sys.argv) != 5:
        sys.exit(__doc__)
    program, model, size, seed = sys.argv[1], sys.argv[2], int(sys.argv[3]), int(sys.argv[4])
    text = instances.text(model, size, seed, "own").encode()
    print(f"# {model}, {size}, seed {seed}: subproblems taken, incumbent, bound")
    budget = 1
    while True:
        done = subprocess.run([program, "solve", model, "--stats", "--budget", str(budget)], input=text, stdout=subprocess.PIPE)
        said = done.stdout.decode()
        value = re.search(r"^value (-?\d+)", said, re.M)
        taken = re.search(r"^taken (\d+)", said, re.M)[1]
        bound = re.search(r"^bound (-?\d+)", said, re.M) or value
        if value:
            print(taken, value[1], bound[1], flush=True)
        if done.returncode != 2:
            break
        budget = max(budget + 1, budget * 3 // 2)


if __name__ == "__main__":
    main()
