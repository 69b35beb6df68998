#!/usr/bin/env python3
"""Searches that are split by their frontier, against the same searches whole: the table for docs/PERFORMANCE.md.

    tools/plots/frontier.py PROGRAM NAME=MODEL:FILE .. [--parts 4,16,64] [--options "--width 100"] [--for-a-part 4] [--jobs N | --hand-on]

FILE is an instance, or N,SEED for one that PROGRAM draws. Each is solved whole by one worker. A second search of it is stopped once it has
FOR_A_PART open subproblems for each of the greatest number of parts. Its journal is split into each number of parts, which are resumed by one
worker each, N at a time. With --hand-on they are resumed one after another, each with `--incumbent` and the reports of those before it.
Subproblems are the finished ones. Seconds are those of a processor, user and system, with what journals take. `After` is what the stopped search
had finished, `Open` what it left, and `Split` the longest split. The status is 1 where a joined value is not that of the whole. TMPDIR is where the
journals lie, best in memory.
"""
import argparse
import os
import re
import subprocess
import sys
import tempfile
from concurrent.futures import ThreadPoolExecutor
from pathlib import Path
from threading import Lock

sys.dont_write_bytecode = True
sys.path.insert(0, str(Path(__file__).resolve().parent.parent.parent / "python"))
from hammockdove.journal import Journal
from hammockdove.progress import Tracker

HEADS = ("Search", "Whole: subproblems", "seconds", "After", "Open", "Parts", "Sum of subproblems", "Sum to whole", "Longest part", "Longest to whole",
         "Sum of seconds", "Longest part, seconds", "Split, seconds")

# A journal is locked while a program reads it, so one part is split off at a time.
SPLITTING = Lock()


class Run:
    """A command that has ended: its output, and its processor seconds."""

    def __init__(self, words, given=os.devnull):
        with open(given, "rb") as source, tempfile.TemporaryFile() as sink:
            child = subprocess.Popen(words, stdin=source, stdout=sink)
            _, status, used = os.wait4(child.pid, 0)
            child.returncode = os.waitstatus_to_exitcode(status)
            sink.seek(0)
            self.output = sink.read()
        self.status, self.seconds = child.returncode, used.ru_utime + used.ru_stime

    def number(self, name):
        """The number after this word of a report, or none."""
        found = re.search(rb"^%s (-?\d+)$" % name.encode(), self.output, re.M)
        return found and int(found[1])


def stopped(program, model, file, options, least, room):
    """The journal of a search that is stopped once it has at least so many open subproblems, with what it finished and left."""
    budget, journal = 1, os.path.join(room, "journal")
    while True:
        if os.path.exists(journal):
            os.remove(journal)
        run = Run([program, "solve", model, *options, "--stats", "--budget", str(budget), "--journal", journal], file)
        left = Tracker().take_new(Journal(Path(journal))).open
        if run.status != 2:
            sys.exit(f"the search ends before it has {least} open subproblems")
        if left >= least:
            return journal, run.number("finished"), left
        budget *= 2


def part(program, journal, place, options, room, given=os.devnull):
    """The seconds of a split, and the run of the part with this place, its number and how many there are. It may be given reports."""
    index, of = place
    path = os.path.join(room, f"part-{index}-of-{of}")
    with SPLITTING:
        begun = Run([program, "split", journal, "--part", f"{index}/{of}"])
    with open(path, "wb") as file:
        file.write(begun.output)
    run = Run([program, "resume", path, *options, "--stats"], given)
    if begun.status or run.status:
        sys.exit(f"part {index} of {of}: {(begun if begun.status else run).output[:100]!r}")
    return begun.seconds, run


def all_parts(asked, journal, of, room):
    """What `part` gives for all parts, in order, and the file of their reports."""
    options, reports = asked.options.split(), os.path.join(room, "reports")
    if not asked.hand_on:
        with ThreadPoolExecutor(asked.jobs) as pool:
            found = list(pool.map(lambda index: part(asked.program, journal, (index, of), options, room), range(of)))
        Path(reports).write_bytes(b"".join(run.output for _, run in found))
        return found, reports
    found = [part(asked.program, journal, (0, of), options, room)]
    Path(reports).write_bytes(found[0][1].output)
    for index in range(1, of):
        found.append(part(asked.program, journal, (index, of), [*options, "--incumbent"], room, reports))
        with open(reports, "ab") as out:
            out.write(found[-1][1].output)
    return found, reports


def rows(asked, name, model, file, room):
    """A row for each number of parts, and whether its joined value is that of the whole."""
    program, options = asked.program, asked.options.split()
    whole = Run([program, "solve", model, *options, "--stats"], file)
    finished, value = whole.number("finished"), whole.number("value")
    print(f"{name}: {finished} subproblems in {whole.seconds:.1f} s", file=sys.stderr, flush=True)
    journal, after, left = stopped(program, model, file, options, asked.for_a_part * max(asked.parts), room)
    for of in asked.parts:
        found, reports = all_parts(asked, journal, of, room)
        joined = Run([program, "join", "--journal", journal], reports)
        counts, seconds = [run.number("finished") for _, run in found], [run.seconds for _, run in found]
        yield joined.number("value") == value and joined.status == whole.status, (
            name, finished, f"{whole.seconds:.1f}", after, left, of, sum(counts), f"{sum(counts) / finished:.2f}", max(counts), f"{max(counts) / finished:.3f}",
            f"{sum(seconds):.1f}", f"{max(seconds):.1f}", f"{max(split for split, _ in found):.2f}")


def print_row(cells):
    print("|", " | ".join(map(str, cells)), "|", flush=True)


def main():
    words = argparse.ArgumentParser(description=__doc__, formatter_class=argparse.RawDescriptionHelpFormatter)
    words.add_argument("program", type=os.path.abspath)
    words.add_argument("cases", nargs="+", metavar="NAME=MODEL:FILE")
    words.add_argument("--parts", type=lambda text: [int(it) for it in text.split(",")], default=[4, 16, 64], help="numbers of parts, 4,16,64 without it")
    words.add_argument("--options", default="", help="options of solve and resume, such as '--width 100'")
    words.add_argument("--for-a-part", type=int, default=4, help="open subproblems for each of the greatest number of parts, 4 without it")
    how = words.add_mutually_exclusive_group()
    how.add_argument("--jobs", type=int, default=1, help="how many parts at a time, 1 without it")
    how.add_argument("--hand-on", action="store_true", help="one part after another, each with the reports of those before")
    asked = words.parse_args()
    differ = 0
    print_row(HEADS)
    print_row(["---"] * len(HEADS))
    for case in asked.cases:
        name, _, rest = case.partition("=")
        model, _, file = rest.partition(":")
        with tempfile.TemporaryDirectory() as room:
            if re.fullmatch(r"\d+,\d+", file):
                drawn = Run([asked.program, "generate", model, *file.split(",")])
                file = os.path.join(room, "instance")
                Path(file).write_bytes(drawn.output)
            for is_equal, row in rows(asked, name, model, file, room):
                differ += not is_equal
                print_row(row if is_equal else [f"{row[0]}: **another value**", *row[1:]])
    sys.exit(1 if differ else 0)


if __name__ == "__main__":
    main()
