#!/usr/bin/env python3
"""Splits drawn searches that were stopped, goes on with their parts, and joins the reports: the answer is that of the search which was not split.

    tools/edge/splits.py PROGRAM TIMES SEED [OTHER]

PROGRAM is the solver's binary, OTHER another program with the same words, whose answer to each instance must be the same. Each search is of a
drawn instance of a problem that PROGRAM draws, has a width of 1 to 4 and sometimes a distance, and is stopped by a budget. Its journal is split 2 to 9
ways. A part is resumed with drawn budgets and workers and killed at random moments; one that was stopped or killed goes on, or is split again, and
so are its parts. Some resumes are with `--incumbent`, and some of the reports that are settled by then: what such a one tells is no worse than
each of them. Of the parts of a journal each open subproblem is in one; `split` and `join` change no file; reports that are missing, there
twice, in another order, of another journal or distance, or with a changed value or assignment are refused. Offered reports in which a solution is none, or
which are no reports, are refused too, and leave the journal as it is. At last the whole search goes on from all reports, and ends with the same value.
TMPDIR is where the journals lie.
"""
import os
import random
import re
import sys
import tempfile
import time
from collections import Counter
from pathlib import Path

sys.dont_write_bytecode = True
sys.path.insert(0, str(Path(__file__).resolve().parent.parent.parent / "python"))
from edge import content, prepare, run
from together import begin, end

from hammockdove import PROBLEMS, HammockdoveError
from hammockdove.journal import Journal, Part, Snapshot, read
from hammockdove.progress import Tracker

# The sizes of drawn instances that leave many subproblems at these widths.
SIZES = {"knapsack": (24, 60), "maxcut": (18, 26), "max2sat": (18, 28), "qubo": (16, 24), "tsptw": (9, 16), "tardiness": (8, 13)}
MOST_WIDTH = 4
MOST_PARTS = 9
MOST_INNER_PARTS = 3
MOST_WORKERS = 4
MOST_DEPTH = 2
MOST_TRIES = 4
DISTANCES = [0, 0, 0, 1, 10, 60]
KILLED = -9
MARK = r"part (\d+)/(\d+)\njournal ([0-9a-f]{64})\n"
VALUE = re.compile(r"^value (-?\d+)$", re.M)
COUNTS = r"(?:taken \d+\nfinished \d+\n)?"
SETTLED = re.compile(r"settled(?: within (\d+))?\n" + MARK + r"value (?:none|(-?\d+)\nassignment((?: \d+)*))\n" + COUNTS)
STOPPED = re.compile(r"stopped budget\n" + MARK + r"value (?:none|-?\d+\nassignment(?: \d+)*)\nbound -?\d+\n" + COUNTS)
PROVED = re.compile(r"proved(?: within (\d+))?\nvalue (-?\d+)\nassignment((?: \d+)*)\n")


class Wrong(Exception):
    """What a search showed that it should not."""


def claim(holds, what, *more):
    if not holds:
        raise Wrong(" ".join([what, *(repr(it) for it in more)]))


def main():
    program, times, draw = os.path.abspath(sys.argv[1]), int(sys.argv[2]), random.Random(int(sys.argv[3]))
    other = os.path.abspath(sys.argv[4]) if len(sys.argv) > 4 else None
    seen, bad = Counter(), 0
    with tempfile.TemporaryDirectory() as folder:
        if run(program, "split none --part 0/1", folder)[1] == b"words usage\n":
            sys.exit("the program has no word split")
        offers = run(program, "resume none --incumbent", folder)[1] != b"words usage\n"
        models = [model for model in SIZES if run(program, "digest " + model, folder)[1] != b"words model\n"]
        for number in range(times):
            search = Search(program, other, folder, draw, draw.choice(models), seen)
            search.offers = offers
            try:
                search.try_all()
            except (Wrong, HammockdoveError, OSError) as wrong:
                bad += 1
                print("search %d, %s: %s" % (number, search.words, wrong), flush=True)
            for name in os.listdir(folder):
                os.remove(os.path.join(folder, name))
    told = ", ".join("%d %s" % (seen[what], what) for what in sorted(seen))
    print("%d searches, %s, %d wrong" % (times, told, bad))
    return 1 if bad else 0


class Search:
    """A drawn search in a folder that is stopped and split, and what is counted of it."""

    def __init__(self, program, other, folder, draw, model, seen):
        self.program, self.other, self.folder, self.draw, self.model, self.seen = program, other, folder, draw, model, seen
        least, most = SIZES[model]
        self.words = "generate %s %d %d" % (model, draw.randint(least, most), draw.randint(0, 2**31 - 1))
        self.within = draw.choice(DISTANCES)
        self.names = 0
        # The journals of which the program may have fewer subproblems open than they list: several workers have written them, so that two may have
        # one state, of which one is kept; or there is nothing to search at all.
        self.lists_more = set()
        # Whether resumes are offered solutions, the reports that are settled so far, and of each journal the greatest value that was told.
        self.offers, self.known, self.told = True, [], {}

    def try_all(self):
        """Solves the instance, stops a search of it, splits that, and joins its parts."""
        given, options = run(self.program, self.words, self.folder)[1], self.options()
        self.solve(given, options)
        if self.model == "tsptw" and self.draw.random() < 0.4:
            # Node 0 closes just before the earliest return.
            given = given.replace(b"\n%d %d\n" % self.instance.windows[0], b"\n%d %d\n" % (self.instance.windows[0][0], -self.best - 1), 1)
            self.words += ", infeasible"
            self.solve(given, options)
            claim(self.best is None, "a tour that returns too late", self.best)
        if self.other:
            told = run(self.other, "solve " + self.model, self.folder, given)[:2]
            claim(told[1] == b"words model\n" or self.value_of(told, 0) == self.best, "the other program answers", told)
            self.seen["compared with the other program"] += told[1] != b"words model\n"
        budget = min(self.draw.randint(0, self.finished) for _ in range(2))
        within = " --within %d" % self.within if self.within else ""
        self.note("j", options)
        if self.finished == 0:
            self.lists_more.add("j")
        stopped = run(self.program, "solve %s --journal j --budget %d%s%s" % (self.model, budget, within, options), self.folder, given)[:2]
        claim(stopped[0] in (0, 1, 2), "the search that is split ended", stopped)
        self.seen["stopped" if stopped[0] == 2 else "ended before they were split"] += 1
        reports = self.reports("j", 0)
        answer = self.joined("j", reports)
        value = self.value_of(answer, self.within)
        claim((value is None) == (self.best is None), "the parts have joined to", answer)
        claim(value is None or self.best - self.within <= value <= self.best, "the joined value, where the best is", self.best, answer)
        self.seen["infeasible"] += value is None
        self.refusals("j", reports)
        self.goes_on("j", reports)

    def solve(self, given, options):
        """The answer to the instance, with the time and the subproblems that it takes."""
        self.instance = PROBLEMS[self.model].from_text(given.decode())
        began = time.monotonic()
        whole = run(self.program, "solve %s --stats%s" % (self.model, options), self.folder, given)[:2]
        self.seconds = time.monotonic() - began
        self.finished = int(whole[1].split()[-1])
        self.best = self.value_of(whole, 0)

    def options(self):
        """Options of a search, drawn anew for each."""
        width = min(self.draw.randint(1, MOST_WIDTH) for _ in range(2))
        drawn = " --width %d --workers %d" % (width, self.draw.randint(1, MOST_WORKERS))
        return drawn + (" --cutset frontier" if self.draw.random() < 0.3 else "")

    def note(self, name, options):
        if " --workers 1 " not in options + " ":
            self.lists_more.add(name)

    def value_of(self, ended, within):
        """The value that a whole search or a join proved, None where it is infeasible."""
        status, output = ended
        if status == 1:
            return claim(output.startswith(b"infeasible\n"), "an answer", ended)
        found = PROVED.match(output.decode())
        claim(status == 0 and found and int(found[1] or 0) == within, "an answer", ended)
        self.is_solution(int(found[2]), found[3])
        return int(found[2])

    def is_solution(self, value, assignment):
        claim(self.instance.value([int(it) for it in assignment.split()]) == value, "no solution of its value", value, assignment)

    def path(self, name):
        return os.path.join(self.folder, name)

    def reports(self, name, depth):
        """The reports of all parts of the journal with this name, each by whatever way it was settled."""
        kept, of = content(self.path(name)), self.draw.randint(2, MOST_PARTS if depth == 0 else MOST_INNER_PARTS)
        journal, tracker, parts = Journal(Path(self.path(name))), Tracker(), []
        frontier = tracker.take_new(journal).open
        for index in range(of):
            self.names += 1
            part = "part-%d" % self.names
            words = "split %s --part %d/%d" % (name, index, of)
            status, output = run(self.program, words, self.folder)[:2]
            claim(status == 0, words, status, output)
            prepare(self.path(part), output)
            parts.append(part)
        claim(run(self.program, words, self.folder)[1] == output, "split again prints something else")
        claim(content(self.path(name)) == kept, "split changed the journal")
        self.are_parts(parts, journal.digest, frontier, name in self.lists_more)
        self.seen["parts"] += of
        reports = []
        for index, part in enumerate(parts):
            reports.append(self.settled(part, depth))
            self.is_report(reports[index], index, of, journal.digest)
            self.known.append(reports[index])
        return reports

    def are_parts(self, parts, digest, frontier, may_be_less):
        """Each of the open subproblems is in one part, in turn, and all begin with one incumbent."""
        tickets, counts, incumbents = [], [], set()
        for index, part in enumerate(parts):
            head, entries = read(self.path(part))
            claim(head.part == Part(index, len(parts), digest) and head.within == self.within, "the head of a part", head.part, head.within)
            claim(len(entries) == 1 and isinstance(entries[0].record, Snapshot), "the records of a part", entries)
            listed = entries[0].record.subproblems
            tickets += [it.ticket for it in listed]
            counts.append(len(listed))
            incumbents.add(entries[0].record.incumbent)
        claim(len(tickets) == len(set(tickets)) and (len(tickets) == frontier or may_be_less and len(tickets) < frontier), "open and dealt out", frontier, tickets)
        claim(counts == sorted(counts, reverse=True) and counts[0] - counts[-1] <= 1, "dealt out unevenly", counts)
        claim(len(incumbents) == 1, "other incumbents", incumbents)

    def settled(self, part, depth):
        """The report of a part, by resumes that are stopped, killed or end, or by its own parts."""
        for _ in range(self.draw.randint(0, MOST_TRIES)):
            status, output = self.resumed(part)
            if status == 0:
                return output
            if depth < MOST_DEPTH and self.draw.random() < 0.3:
                self.seen["split again"] += 1
                reports = self.reports(part, depth + 1)
                status, output = self.joined(part, reports)
                claim(status == 0, "the parts of a part have joined to", status, output)
                return output
        flag, offer = self.offered()
        status, output = run(self.program, "resume %s --stats%s%s" % (part, flag, self.options()), self.folder, offer)[:2]
        claim(status == 0, "a part ended", status, output)
        self.is_taken(part, offer, output)
        return output

    def offered(self):
        """The flag of a resume and its input: some of the reports that are settled so far, in any order; often none."""
        if not self.offers or not self.known or self.draw.random() < 0.4:
            return "", b""
        self.seen["resumes with an incumbent"] += 1
        return " --incumbent", b"".join(self.draw.choices(self.known, k=self.draw.randint(1, 4)))

    def is_taken(self, name, offer, output):
        """Whether a search tells a value that is no less than each that it was offered, and than what it told before: the journal keeps those."""
        told, least = VALUE.search(output.decode()), [int(it) for it in VALUE.findall(offer.decode())] + self.told.get(name, [])
        claim(not least or told and int(told[1]) >= max(least), "the value of a better solution that was offered or told before", least, output)
        self.told[name] = [int(told[1])] if told else []

    def resumed(self, part):
        """Status and output of a resume with a budget, or one that is killed. No byte of a record is lost by it."""
        before, head = self.whole_records(part), read(self.path(part))[0]
        options = self.options()
        self.note(part, options)
        flag, offer = self.offered()
        words = "resume %s%s%s --budget %d" % (part, flag, options, self.draw.randint(0, self.finished // 2 + 1))
        if self.draw.random() < 0.4:
            prepare(self.path("offer"), offer)
            child = begin(self.program, words, self.folder, self.path("offer"))
            time.sleep(self.draw.uniform(0, self.seconds))
            child.kill()
            status, output = end(child)[:2]
        else:
            status, output = run(self.program, words, self.folder, offer)[:2]
        self.seen["kills"] += status == KILLED
        if status != KILLED:
            self.is_taken(part, offer, output)
        claim(self.whole_records(part).startswith(before), "records were lost")
        claim(read(self.path(part))[0] == head, "another head")
        if status == 2:
            found = STOPPED.fullmatch(output.decode())
            claim(found and Part(int(found[1]), int(found[2]), found[3]) == head.part, words, output)
            self.seen["parts that were stopped"] += 1
        else:
            claim(status in (0, KILLED), words, status, output)
        return status, output

    def whole_records(self, name):
        """The bytes of a journal up to its first closed gate; what stands after that means nothing."""
        journal = Journal(Path(self.path(name)))
        for _ in journal.advance():
            pass
        return content(self.path(name))[: journal.offset]

    def is_report(self, report, index, of, digest):
        """Whether it is what a part with this number has settled."""
        found = SETTLED.fullmatch(report.decode())
        claim(found and int(found[1] or 0) == self.within, "a report", report)
        claim(Part(int(found[2]), int(found[3]), found[4]) == Part(index, of, digest), "a report of another part", report)
        if found[5] is not None:
            self.is_solution(int(found[5]), found[6])
            claim(self.best is not None and int(found[5]) <= self.best, "a value above the best", report)

    def joined(self, name, reports):
        """Status and output of a join, which changes no file."""
        kept = content(self.path(name))
        ended = run(self.program, "join --journal " + name, self.folder, b"".join(reports))[:2]
        claim(content(self.path(name)) == kept, "join changed the journal")
        return ended

    def refusals(self, name, reports):
        """Tries each change of the reports that must be refused."""
        for kind, changed, answer, status in changes(self.draw, self.instance, reports):
            ended = self.joined(name, changed)
            claim(ended[0] == status and re.fullmatch(answer, ended[1].decode()), "reports that are %s: wanted" % kind, answer, ended)
            self.seen["refusals"] += 1

    def goes_on(self, name, reports):
        """Goes on with the whole search from the reports in any order, whose part, journal and distance do not count, to its end."""
        if not self.offers:
            return
        kept = content(self.path(name))
        for kind, changed, answer, status in wrong_reports(self.draw, self.instance, reports):
            ended = run(self.program, "resume %s --incumbent" % name, self.folder, b"".join(changed))[:2]
            claim(ended[0] == status and re.fullmatch(answer, ended[1].decode()), "offered reports that are %s: wanted" % kind, answer, ended)
            claim(content(self.path(name)) == kept, "refused reports changed the journal")
            self.seen["refused offers"] += 1
        offer = re.sub(rb"journal .", b"journal 0", b"".join(self.draw.choices(reports, k=len(reports))))
        ended = run(self.program, "resume %s --incumbent%s" % (name, self.options()), self.folder, offer)[:2]
        self.is_taken(name, offer, ended[1])
        value = self.value_of(ended, self.within)
        claim((value is None) == (self.best is None), "the whole search went on to", ended)
        claim(value is None or self.best - self.within <= value <= self.best, "its value, where the best is", self.best, ended)


def instead(reports, place, text):
    """The reports with this text in the place of one."""
    return [*reports[:place], text.encode(), *reports[place + 1 :]]


def changes(draw, instance, reports):
    """Reports that are changed in some way, with the answer and the status that a join of them must have."""
    place = draw.randrange(len(reports))
    one = reports[place].decode()
    others = [it for it in range(len(reports)) if it != place]
    other = draw.choice(others)
    swapped = list(reports)
    swapped[place], swapped[other] = reports[other], reports[place]
    yield "missing", reports[:place] + reports[place + 1 :], r"reports order \d+\n", 3
    yield "there twice", [*reports[: place + 1], *reports[place:]], r"reports order \d+\n", 3
    yield "in another order", swapped, "reports order %d\n" % min(place, other), 3
    digest = re.search("journal ([0-9a-f]{64})", one)[1]
    changed = ("1" if digest[0] != "1" else "2") + digest[1:]
    yield "of another journal", instead(reports, place, one.replace(digest, changed)), "reports journal %d\n" % place, 3
    yield "of another distance", instead(reports, place, "settled within 7\n" + one.split("\n", 1)[1]), "reports distance %d\n" % place, 3
    yield from wrong_reports(draw, instance, reports)


def wrong_reports(draw, instance, reports):
    """The same of texts that are no reports, and of reports whose solution is none: a search that goes on refuses them too."""
    place = draw.randrange(len(reports))
    one, before = reports[place].decode(), b"".join(reports[:place]).count(b"\n")
    first = one.split("\n", 1)[0]
    yield "none", [], r"report \S+ 1 1\n", 3
    yield "stopped", instead(reports, place, one.replace(first, "stopped budget", 1)), r"report \S+ %d \d+\n" % (before + 1), 3
    yield "cut short", instead(reports, place, first + "\n"), r"report \S+ \d+ \d+\n", 3
    value = re.search(r"value (-?\d+)\nassignment(.*)\n", one)
    if value:
        refused = "reports value %d\n" % place
        yield "of another value", instead(reports, place, one.replace("value " + value[1], "value %d" % (int(value[1]) + 1))), refused, 9
        decisions = [int(it) for it in value[2].split()]
        at = draw.randrange(len(decisions))
        decisions[at] += 1
        if instance.value(decisions) != int(value[1]):
            other = one.replace("assignment" + value[2], " ".join(map(str, ["assignment", *decisions])))
            yield "of another assignment", instead(reports, place, other), refused, 9


if __name__ == "__main__":
    sys.exit(main())
