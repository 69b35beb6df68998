#!/usr/bin/env python3
"""Counts what a sceptic has to read: the definitions that a clause stands on, with their lines.

    tools/audit.py                     prints a table, for the clause of `run` and for parts of it
    tools/audit.py --write             writes docs/READING.md: that table, and the files of the clause of `run` from the top down
    tools/audit.py CRATE/FILE NAME     lists the definitions under one, as answers/Reports IsProved

It follows names through the imports of specs/, through the re-exports of Lib.antt, and into modules with parameters. Comments, blank lines and
imports are not counted, nor is what the kit defines, nor the types that are declared in src/ (their number is given).
"""
import collections
import itertools
import os
import re
import sys

TOP = os.path.dirname(os.path.dirname(os.path.abspath(__file__)))
WORD = r"[A-Za-z_][\w\-']*"
MARKS = r"(?:(?:pub|abbrev|unfoldable|opaque|record|data)\s+)*"
PROBLEMS = {
    "knapsack": ("knapsack/OwnWords packed_value", "knapsack/Program program_of", "knapsack/Reading instance_text"),
    "maximum cut": ("max_cut/Cuts cut_value", "max_cut/Program program", "max_cut/Edges instance_text"),
    "MAX-2SAT": ("max_two_sat/OwnWords own_value", "max_two_sat/Program program", "max_two_sat/Texts instance_at"),
    "quadratic optimisation": ("qubo/OwnWords own_value", "qubo/Program program", "qubo/Reading instance_text"),
    "tours": ("tsp_windows/OwnWords tour_value", "tsp_windows/Program program_of", "tsp_windows/Texts spelled"),
    "jobs": ("one_machine/OwnWords order_value", "one_machine/Program program_of", "one_machine/Texts instance_at"),
    "tables": ("table_model/OwnWords own_value", "table_model/Program program_of", "table_model/Reading table_text"),
}

CLAUSE = ("answers/Ended", "HasEnded")
PAGE = f"{TOP}/docs/READING.md"
HEAD = """# What a sceptic reads, in order

A proof need not be read: the kit checks it. What has to be read is what the proofs are about. This page lists it for the clause of `run`
(`commands/src/running.rt`), which says what a run of the program does. It begins with the top theorem, and each room stands on those after it.
Of a file only the named number of definitions belongs to the clause. `tools/audit.py CRATE/FILE NAME` lists the definitions under one.

This page is made by `tools/audit.py --write` from crates.txt and specs/. Lines are counted without comments, blank lines and imports.

## How much it is

{table}

## The files of the clause of `run`
"""

JOURNALS = ["answers/Journals HasKept", "answers/Journals HasLeftBegun", "answers/Kept LeavesAfterResume"]


def title_of(lines):
    """The first sentence of the comment at the head of a file."""
    head = [line.removeprefix("--").strip() for line in itertools.takewhile(lambda line: line.startswith("--"), lines)]
    return re.split(r"(?<=\.) (?=[A-Z])", " ".join(head))[0]


class File:
    """A file of specs/: the lines of each of its definitions, and where the names that it imports come from."""

    def __init__(self, path):
        self.lines, self.imports, self.shown = {}, {}, {}
        of, in_module = None, False
        with open(path, encoding="utf-8") as text:
            lines = text.read().splitlines()
            self.title = title_of(lines)
            for line in map(str.rstrip, lines):
                if line.startswith("module "):
                    of, in_module = None, True
                    continue
                in_module = in_module and (not line or line.startswith(" "))
                line = line[2:] if in_module else line
                taken = re.match(rf"(pub )?use (\S+?)(?:\.{{(.*)}}| as ({WORD}))?$", line)
                if taken:
                    self.take(*taken.groups())
                    of = None
                elif not line or line.startswith(("--", "pub mod ", "mod ")):
                    continue
                else:
                    begun = re.match(rf"(?!unfolding ){MARKS}({WORD})", line)
                    of = begun[1] if begun else of
                    self.lines.setdefault(of, []).append(line)

    def take(self, is_shown, path, names, alias):
        for name in re.split(r",\s*", names or ""):
            first, _, other = name.partition(" as ")
            self.imports[other or first] = (path, first)
        if alias:
            self.imports[alias] = (path, alias)
        if is_shown:
            self.shown[path.split(".")[-1]] = path

    def words(self, name):
        return {it.split(".")[0] for line in self.lines[name] for it in re.findall(rf"{WORD}(?:\.{WORD})*", line)}


def read_specs():
    found = {}
    for crate in sorted(os.listdir(f"{TOP}/crates")):
        for at, _, names in os.walk(f"{TOP}/crates/{crate}/specs"):
            for name in names:
                if name.endswith(".antt"):
                    inside = os.path.relpath(f"{at}/{name}", f"{TOP}/crates")[:-5]
                    found["Rattle." + inside.replace("/", ".")] = File(f"{at}/{name}")
    return found


def home(specs, path):
    """The file that a path leads to, through the re-exports of its crate's Lib."""
    parts = path.split(".")
    lib = specs.get(".".join([*parts[:3], "Lib"]))
    return lib.shown.get(parts[3], path) if path not in specs and lib and len(parts) > 3 else path


def meaning(specs, at, word):
    """The definition, or the type declared in src/, that a word of a file stands for."""
    if word in specs[at].lines:
        return at, word
    path, name = specs[at].imports.get(word, ("", ""))
    path = home(specs, path)
    if path in specs and name in specs[path].lines:
        return path, name
    declared = re.match(r"Rattle\.(\w+)\.specs\.declared\.([\w.]*?\w+)(\.TheVariants)?$", path)
    return ("declared", f"{declared[1]}.{declared[2]}") if declared and declared[1] not in ("std", "core") else None


def under(specs, starts):
    """All that these definitions stand on, and they themselves."""
    found, left = [], list(starts)
    while left:
        it = left.pop(0)
        if it in found:
            continue
        found.append(it)
        if it[0] != "declared":
            left += sorted(filter(None, {meaning(specs, it[0], word) for word in specs[it[0]].words(it[1])}))
    return found


def start(specs, place):
    file, name = place.split(" ")
    at = "Rattle." + file.replace("/", ".specs.", 1).replace("/", ".")
    if at not in specs or name not in specs[at].lines:
        sys.exit(f"audit: there is no {name} in specs/ of {file}")
    return at, name


def count(specs, places):
    found = [it for it in under(specs, [start(specs, place) for place in places]) if it[0] != "declared"]
    return len(found), sum(len(specs[at].lines[name]) for at, name in found), len({at for at, _ in found})


def rows():
    yield "all that the clause of `run` says (`HasEnded`)", [" ".join(CLAUSE)]
    yield "`proved`, for any problem (`IsProved`)", ["answers/Reports IsProved"]
    yield "`proved within G`, for any problem (`IsProvedWithin`)", ["answers/Reports IsProvedWithin"]
    yield "`infeasible` (`IsInfeasible`)", ["answers/Reports IsInfeasible"]
    yield "`stopped` (`IsStopped`, `IsBounded`)", ["answers/Outcomes IsStopped", "answers/Outcomes IsBounded"]
    yield "what a crash leaves of a journal (`HasKept`, `HasLeftBegun`, `LeavesAfterResume`)", JOURNALS
    for name, (own, program, grammar) in PROBLEMS.items():
        yield f"{name}: the value in its own words", [own]
        yield f"{name}: its dynamic program", [program]
        yield f"{name}: its grammar", [grammar]


def table(specs):
    head = "| What one has to read | definitions | lines | files |\n|---|---|---|---|"
    return "\n".join([head, *("| {} | {} | {:,} | {} |".format(title, *count(specs, places)) for title, places in rows())])


def rooms():
    """The headings of crates.txt with their crates, the highest first."""
    found = []
    with open(f"{TOP}/crates.txt", encoding="utf-8") as text:
        for line in map(str.strip, text):
            if line.startswith("# ") and ":" not in line:
                found.append((line.removeprefix("# "), []))
            elif line and not line.startswith("#"):
                found[-1][1].append(re.split(r"[ :]", line)[0])
    return [(room, crates[::-1]) for room, crates in found[::-1]]


def page(specs):
    """docs/READING.md: the files of the clause of `run`, room by room from the top down."""
    found = [it for it in under(specs, [start(specs, " ".join(CLAUSE))]) if it[0] != "declared"]
    names = collections.defaultdict(list)
    for at, name in found:
        names[at].append(name)
    text = HEAD.format(table=table(specs))
    for room, crates in rooms():
        files = [at for crate in crates for at in names if at.split(".")[1] == crate]
        if files:
            text += f"\n### {room.capitalize()}\n\n| File | What it says | Definitions | Lines |\n|---|---|---|---|\n"
        for at in files:
            place = at.removeprefix("Rattle.").replace(".", "/") + ".antt"
            lines = sum(len(specs[at].lines[name]) for name in names[at])
            text += f"| [`{place}`](../crates/{place}) | {specs[at].title} | {len(names[at])} | {lines} |\n"
    return text


def size_of_all():
    """How many lines specs/, proofs/ and src/ have in all."""
    lines = collections.Counter()
    for at, _, names in os.walk(f"{TOP}/crates"):
        kind = re.search(r"/(specs|proofs|src)(/|$)", at)
        for name in names if kind and "/out/" not in f"{at}/" else ():
            with open(f"{at}/{name}", encoding="utf-8") as text:
                lines[kind[1]] += sum(1 for _ in text)
    return map(lines.get, ("specs", "proofs", "src"))


def main():
    if len(sys.argv) == 2 and sys.argv[1] != "--write" or len(sys.argv) > 3:
        sys.exit(__doc__)
    specs = read_specs()
    if sys.argv[1:] == ["--write"]:
        with open(PAGE, "w", encoding="utf-8") as text:
            text.write(page(specs))
    elif len(sys.argv) == 3:
        for at, name in under(specs, [start(specs, " ".join(sys.argv[1:]))]):
            lines = len(specs[at].lines[name]) if at != "declared" else "a type of src/"
            print(f"{at.removeprefix('Rattle.').replace('.specs.', '/').replace('.', '/')} {name}: {lines}")
    else:
        print(table(specs))
        print("\nIn all {:,} lines of specs/, {:,} of proofs/ and {:,} of code with contracts.".format(*size_of_all()))


if __name__ == "__main__":
    main()
