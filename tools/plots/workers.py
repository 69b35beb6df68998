#!/usr/bin/env python3
"""Wall times of searches with one, two and four workers.

    tools/plots/workers.py PROGRAM NAME=MODEL:FILE .. > docs/img/workers.txt

Each line is the name, with _ for a space, and three times in seconds. Run it on idle processors.
"""
import subprocess
import sys
import time


def wall(program, model, file, count):
    with open(file, "rb") as source:
        begun = time.monotonic()
        subprocess.run([program, "solve", model, "--workers", str(count)], stdin=source, stdout=subprocess.DEVNULL, check=True)
        return time.monotonic() - begun


def main():
    if len(sys.argv) < 3:
        sys.exit(__doc__)
    print("# name, seconds with 1, 2 and 4 workers")
    for case in sys.argv[2:]:
        name, _, rest = case.partition("=")
        model, _, file = rest.partition(":")
        print(name, *(f"{wall(sys.argv[1], model, file, count):.2f}" for count in (1, 2, 4)), flush=True)


if __name__ == "__main__":
    main()
