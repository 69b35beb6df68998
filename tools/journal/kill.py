"""Kills a stream of appends with SIGKILL at a random moment, TIMES times, and opens the journal again each time.

kill.py TOOL TIMES SEED: each time the journal has all acknowledged records, in order, and at most one more.
"""

import os
import random
import signal
import subprocess
import sys
import tempfile
import time


def count(tool, name):
    done = subprocess.run([*tool, "count", name], capture_output=True, text=True)
    return int(done.stdout) if done.returncode == 0 else done.stdout.strip()


def main():
    if len(sys.argv) != 4:
        sys.exit(__doc__)
    tool, times, seed = sys.argv[1].split(), int(sys.argv[2]), int(sys.argv[3])
    draw = random.Random(seed)
    wrong = kept = 0
    with tempfile.TemporaryDirectory() as folder:
        # How long the first record takes: on a busy machine the program starts slowly.
        began = time.monotonic()
        subprocess.run([*tool, "append", os.path.join(folder, "first"), "1", "1"], stdout=subprocess.DEVNULL, check=True)
        longest = 2 * (time.monotonic() - began) + 0.1
        for run in range(times):
            if run % 10 == 0:
                name = os.path.join(folder, "journal%d" % run)
                acknowledged = 0
            decisions = draw.choice([0, 1, 40, 500, 20000])
            child = subprocess.Popen([*tool, "append", name, "1000000", str(decisions)], stdout=subprocess.PIPE)
            time.sleep(draw.uniform(0.0, longest))
            child.send_signal(signal.SIGKILL)
            lines = child.stdout.read().split(b"\n")[:-1]
            child.wait()
            acknowledged = int(lines[-1]) if lines else acknowledged
            left = count(tool, name)
            if left == "NotBegun" and acknowledged == 0:
                continue
            if not isinstance(left, int) or not acknowledged <= left <= acknowledged + 1:
                wrong += 1
                print("run", run, "acknowledged", acknowledged, "left", left)
            else:
                acknowledged = left
                kept += left > 0
    print("%d runs, %d of them with records, %d wrong" % (times, kept, wrong))


main()
