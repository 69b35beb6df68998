#!/usr/bin/env python3
"""Kills searches that keep a journal at random moments, and goes on with each by up to six resumes, the last of which ends.

    tools/edge/killed.py PROGRAMS TIMES SEED [FOLDER [SIZE]]

PROGRAMS are binaries of the solver with `:` between them; each search draws one, from 1 to 4 workers, and a distance where its journals
tell one. Before its head is on the disk a killed search leaves `journal not-begun`, and may begin again. From then on no record that
stood before is lost, each file reads as a journal by the client's own reader, and the last command tells what the search alone does.
"""
import os
import random
import sys
import tempfile
import time
from pathlib import Path

sys.dont_write_bytecode = True
sys.path.insert(0, str(Path(__file__).resolve().parent.parent.parent / "python"))
from edge import ITEMS, content, prepare, run, size
from together import Alone, begin, end

from hammockdove import HammockdoveError
from hammockdove.journal import Snapshot
from hammockdove.show import contents_of

KILLED = -9
MOST_RESUMES = 6
MOST_WORKERS = 4
DISTANCES = [0, 0, 3]
WIDTH = "--width 4"


def main():
    programs, times, draw = [os.path.abspath(it) for it in sys.argv[1].split(":")], int(sys.argv[2]), random.Random(int(sys.argv[3]))
    with tempfile.TemporaryDirectory(dir=sys.argv[4] if len(sys.argv) > 4 else None) as folder:
        runs = Runs(programs, folder, draw, size(sys.argv))
        while runs.kills < times:
            runs.search()
    print(runs)
    return 1 if runs.bad else 0


class Runs:
    """Searches in a folder that are killed, and what was seen of them."""

    def __init__(self, programs, folder, draw, vertices):
        self.folder, self.draw = folder, draw
        self.path, self.given = os.path.join(folder, "j"), os.path.join(folder, "cut")
        self.bad = self.kills = self.searches = self.early = self.resumes = self.snapshots = 0
        prepare(self.given, run(programs[0], "generate maxcut %s 7" % vertices, folder)[1])
        self.programs = []
        for program in programs:
            alone = Alone(program, "solve maxcut %s --journal j" % WIDTH, folder, self.given, None)
            told = run(program, "solve knapsack --within 1 --journal k", folder, ITEMS)
            self.programs.append((program, alone.seconds, told[1].startswith(b"proved")))
            prepare(os.path.join(folder, "k"), None)
        self.best = int(alone.ended[1].split()[2])

    def search(self):
        """Kills a search and goes on with it, until it ends or was killed before its journal had begun."""
        self.program, seconds, tells_distance = self.draw.choice(self.programs)
        within = self.draw.choice(DISTANCES) if tells_distance else 0
        options = "%s --workers %d" % (WIDTH, self.draw.randint(1, MOST_WORKERS))
        solve, resume = "solve maxcut %s --journal j%s" % (options, " --within %d" % within if within else ""), "resume j " + options
        kills = self.draw.randint(1, MOST_RESUMES)
        self.searches += 1
        prepare(self.path, None)
        before = b""
        for number in range(kills):
            status, output = self.killed(resume if number else solve, seconds)
            before = self.kept(before)
            if status != KILLED:
                return self.ended(status, output, within)
            self.kills += 1
            self.resumes += number > 0
            if before is None:
                return self.again(solve, within)
        self.resumes += 1
        self.ended(*run(self.program, resume, self.folder)[:2], within)

    def killed(self, words, seconds):
        """The status and the output of a command that is killed at a random moment, if it does not end before."""
        child = begin(self.program, words, self.folder, self.given)
        time.sleep(self.draw.uniform(0, seconds))
        child.kill()
        return end(child)[:2]

    def kept(self, before):
        """The bytes of the journal up to the gate after its last record, and that gate; None where it has not begun."""
        after = content(self.path) or b""
        # The gate after the last record may be opened; every byte before it stays.
        last = max(0, len(before) - 1)
        if after[:last] != before[:last] or len(after) < len(before):
            self.wrong("bytes were lost")
        if after[:1] != b"\x01":
            return None if not before else self.wrong("the head was lost")
        try:
            found = contents_of(self.path)
            if found.refusal:
                raise found.refusal
        except HammockdoveError as refusal:
            return self.wrong(str(refusal))
        self.snapshots += found.counts[Snapshot]
        return after[:found.end + 1]

    def again(self, solve, within):
        """A search that was killed before its journal had begun is not resumed, and begins again."""
        self.early += 1
        told = run(self.program, "resume j", self.folder)[:2]
        if told != (5, b"journal not-begun\n"):
            self.wrong("resumed %r" % (told,))
        self.ended(*run(self.program, solve, self.folder, content(self.given))[:2], within)

    def ended(self, status, output, within):
        """Tests how the last command ended."""
        words = output.split()
        first = b"proved within %d" % within if within else b"proved"
        is_told = status == 0 and output.split(b"\n")[0] == first
        value = int(words[words.index(b"value") + 1]) if is_told else None
        if value is None or not self.best - within <= value <= self.best:
            self.wrong("ended %r" % ((status, output),))

    def wrong(self, what):
        self.bad += 1
        print("search %d, kill %d: %s" % (self.searches, self.kills, what), flush=True)

    def __str__(self):
        return "%d kills in %d searches, %d of them before a journal had begun, %d resumes, %d snapshots met, %d wrong" % (
            self.kills, self.searches, self.early, self.resumes, self.snapshots, self.bad)


if __name__ == "__main__":
    sys.exit(main())
