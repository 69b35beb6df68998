#!/usr/bin/env python3
"""What a journal costs a search: its time without one, with one of version 2, and with one of version 1, which gets no Snapshots.

    tools/journal/cost.py PROGRAM MODEL INSTANCE [--folder FOLDER] [--rounds N] [--calls CALLS] [--instructions] [-- OPTION..]

PROGRAM is the solver's binary, and the options after `--` are those of `solve`. The journals stand in FOLDER. The searches run by turns, and
the least processor and wall seconds of each are told. Then come the length of the journal, what each kind of record has of it, and how long
`resume --budget 0` takes. CALLS is the program of `calls.c.txt`: it writes and syncs the bytes of the journal anew, beside the searches.
"""
import argparse
import os
import re
import struct
import subprocess
import sys
import tempfile
import time
from dataclasses import dataclass

sys.dont_write_bytecode = True
FRAME = struct.Struct(">BBI")
DIGEST = 32
KINDS = {1: "head", 2: "Improve", 3: "Finish", 4: "Snapshot"}
VERSION_OF_HEAD, WITHIN_OF_HEAD = slice(0, 4), slice(5, 13)


@dataclass
class Run:
    """How a command ended, and what it took."""

    status: int
    output: bytes
    wall: float
    user: float
    system: float
    memory: int
    instructions: int | None = None

    @property
    def processor(self):
        return self.user + self.system


def run(words, given=None, count=False):
    """Runs a command with this file for its input, and counts the instructions of user code where that is asked for."""
    with tempfile.TemporaryFile() as output, tempfile.NamedTemporaryFile() as counted, open(given or os.devnull, "rb") as source:
        if count:
            words = ["perf", "stat", "-x", ",", "-o", counted.name, "-e", "instructions:u", *words]
        began = time.monotonic()
        child = subprocess.Popen(words, stdin=source, stdout=output)
        _, status, used = os.wait4(child.pid, 0)
        wall = time.monotonic() - began
        child.returncode = os.waitstatus_to_exitcode(status)
        output.seek(0)
        found = re.search(rb"^(\d+),[^,]*,instructions", counted.read(), re.M)
        return Run(child.returncode, output.read(), wall, used.ru_utime, used.ru_stime, used.ru_maxrss, int(found[1]) if found else None)


def frames(path):
    """The kind and the length of each record of a journal, with its body's first bytes for the head."""
    with open(path, "rb") as file:
        size = os.path.getsize(path)
        at = 0
        while at + FRAME.size <= size:
            file.seek(at)
            gate, kind, length = FRAME.unpack(file.read(FRAME.size))
            if gate != 1:
                return
            yield kind, FRAME.size + length + DIGEST, at
            at += FRAME.size + length + DIGEST


def first_version(path, into):
    """Writes a journal of version 1 that has begun: the head of another one without its distance, which is 0, and nothing after it."""
    import hashlib

    with open(path, "rb") as file:
        _, kind, length = FRAME.unpack(file.read(FRAME.size))
        body = file.read(length)
    if body[WITHIN_OF_HEAD] != bytes(8):
        raise SystemExit("a journal of version 1 has no distance")
    body = struct.pack(">I", 1) + body[VERSION_OF_HEAD.stop:WITHIN_OF_HEAD.start] + body[WITHIN_OF_HEAD.stop:]
    whole = struct.pack(">BI", kind, len(body)) + body
    with open(into, "wb") as file:
        file.write(b"\x01" + whole + hashlib.sha256(bytes(DIGEST) + whole).digest() + b"\x00")


def shown(name, runs, base=None):
    """A line for runs of one command: the least of each number, beside that of the runs without a journal."""
    least = min(it.processor for it in runs)
    line = "%-12s processor %8.3f s (user %.3f, system %.3f), wall %8.3f s, memory %d MB" % (
        name, least, min(it.user for it in runs), min(it.system for it in runs), min(it.wall for it in runs), runs[0].memory // 1024)
    counted = [it.instructions for it in runs if it.instructions]
    if counted:
        line += ", %.3f G instructions" % (min(counted) / 1e9)
    if base:
        line += "; %.3f of the processor's time, %.3f of the wall's" % (
            least / min(it.processor for it in base), min(it.wall for it in runs) / min(it.wall for it in base))
        if counted:
            line += ", %.3f of the instructions" % (min(counted) / min(it.instructions for it in base))
    print(line, flush=True)


def main():
    words = sys.argv[1:]
    options = words[words.index("--") + 1:] if "--" in words else []
    parser = argparse.ArgumentParser(description=__doc__, formatter_class=argparse.RawDescriptionHelpFormatter)
    parser.add_argument("program", type=os.path.abspath)
    parser.add_argument("model")
    parser.add_argument("instance", type=os.path.abspath)
    parser.add_argument("--folder")
    parser.add_argument("--rounds", type=int, default=3)
    parser.add_argument("--calls", type=os.path.abspath)
    parser.add_argument("--instructions", action="store_true")
    given = parser.parse_args(words[:words.index("--")] if "--" in words else words)
    with tempfile.TemporaryDirectory(dir=given.folder) as folder:
        measure(given, options, folder)
    return 0


def measure(given, options, folder):
    second, first, copy = (os.path.join(folder, name) for name in ("second", "first", "copy"))
    solve = [given.program, "solve", given.model, *options, "--stats"]
    seen = {"alone": [], "version 2": [], "version 1": [], "calls": []}
    for _ in range(given.rounds):
        seen["alone"].append(run(solve, given.instance, given.instructions))
        for path in (second, copy):
            if os.path.exists(path):
                os.remove(path)
        seen["version 2"].append(run([*solve, "--journal", second], given.instance, given.instructions))
        first_version(second, first)
        seen["version 1"].append(run([given.program, "resume", first, *options, "--stats"], None, given.instructions))
        if given.calls:
            seen["calls"].append(run([given.calls, second, copy]))
    print(seen["alone"][0].output.decode().replace("\n", " / ")[:200])
    print("load", *os.getloadavg())
    for name, runs in seen.items():
        if runs:
            shown(name, runs, seen["alone"] if name != "alone" else None)
    outputs = {it.output for name in ("alone", "version 1", "version 2") for it in seen[name]}
    if len(outputs) > 1:
        print("THE OUTPUTS DIFFER: %r" % outputs)
    for name, path in (("version 2", second), ("version 1", first)):
        sizes = {}
        for kind, size, _ in frames(path):
            count, total = sizes.get(kind, (0, 0))
            sizes[kind] = count + 1, total + size
        kinds = ", ".join("%d %s with %d bytes" % (count, KINDS[kind], total) for kind, (count, total) in sorted(sizes.items()))
        print("%s: %d bytes; %s" % (name, os.path.getsize(path), kinds))
        shown("its resume", [run([given.program, "resume", path, "--budget", "0"], None, given.instructions) for _ in range(given.rounds)])


if __name__ == "__main__":
    sys.exit(main())
