#!/usr/bin/env python3
"""Puts what crates.txt says into the tables of docs/ARCHITECTURE.md: what each crate stands on.

    tools/map.py              prints each row that is not as crates.txt has it
    tools/map.py --write      writes the rows, and draws the rooms (docs/img/rooms.svg)
"""
import os
import re
import subprocess
import sys

TOP = os.path.dirname(os.path.dirname(os.path.abspath(__file__)))
PAGE = f"{TOP}/docs/ARCHITECTURE.md"
COLUMN = "Stands on"


def crates():
    """Each crate of crates.txt with what it stands on."""
    found = {}
    with open(f"{TOP}/crates.txt", encoding="utf-8") as text:
        for line in text:
            name, mark, needs = line.split("#")[0].partition(":")
            if mark:
                found[name.split()[0]] = needs.split()
    return found


def cells(line):
    return [cell.strip() for cell in line.strip().strip("|").split("|")]


def with_columns(text, needs):
    """The page with the columns that crates.txt gives, and each crate whose row was another."""
    lines, changed, at = text.splitlines(), [], None
    for i, line in enumerate(lines):
        if not line.startswith("|"):
            at = None
        elif COLUMN in cells(line):
            at = cells(line).index(COLUMN)
        elif at is not None and (name := re.match(r"\| `(\w+)` \|", line)):
            row = cells(line)
            row[at] = ", ".join(f"`{need}`" for need in needs.get(name[1], [])) or "-"
            row = "| " + " | ".join(row) + " |"
            if row != line:
                changed.append(name[1])
            lines[i] = row
    return "\n".join(lines) + "\n", changed


def main():
    if sys.argv[1:] not in ([], ["--write"]):
        sys.exit(__doc__)
    with open(PAGE, encoding="utf-8") as page:
        text, changed = with_columns(page.read(), crates())
    if sys.argv[1:] == ["--write"]:
        with open(PAGE, "w", encoding="utf-8") as page:
            page.write(text)
        subprocess.run([sys.executable, f"{TOP}/tools/plots/rooms.py"], check=True)
    for name in changed:
        print(f"docs/ARCHITECTURE.md: the row of {name} is not as in crates.txt")
    sys.exit(1 if changed and sys.argv[1:] != ["--write"] else 0)


if __name__ == "__main__":
    main()
