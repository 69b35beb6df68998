#!/usr/bin/env python3
"""Makes the man page from a document in Markdown.

man_page.py DOCUMENT.. > hammockdove.1: the first DOCUMENT that is there is taken, so that one can stand in for another.
"""

from __future__ import annotations

import re
import sys
from collections.abc import Iterator
from pathlib import Path

NAME = "hammockdove"
ABOUT = "exact discrete maximisation by branch and bound on decision diagrams"
SYNOPSIS = (
    "solve MODEL [OPTION]..",
    "resume FILE [OPTION]..",
    "resume FILE --incumbent [OPTION]..",
    "check",
    "join",
    "split FILE --part I/K",
    "join --journal FILE",
    "digest MODEL",
    "generate MODEL N SEED [--solve]",
)
_INLINE = re.compile(r"`([^`]+)`|\*\*(.+?)\*\*|!?\[([^\]]*)\]\([^)]*\)|(?<![\w*])\*(\w[^*]*)\*(?![\w*])")
_CONTENTS = re.compile(r"[-*] (\[[^\]]*\]\(#[^)]*\)(, )?)+\Z")
_RULE = re.compile(r"\|[\s:|-]+\|\Z")


def escaped(text: str) -> str:
    """Text as roff takes it for plain letters."""
    return text.replace("\\", r"\e").replace("-", r"\-").replace("'", r"\(aq").replace("`", r"\(ga")


def inline(text: str) -> str:
    """A paragraph with code and strong words in bold, stressed ones in italics, and links as their words."""
    out: list[str] = []
    last = 0
    for found in _INLINE.finditer(text):
        code, strong, link, stressed = found.groups()
        words = inline(link) if link is not None else rf"\fI{escaped(stressed)}\fR" if stressed else rf"\fB{escaped(code or strong)}\fR"
        out += [escaped(text[last : found.start()]), words]
        last = found.end()
    return guarded("".join([*out, escaped(text[last:])]))


def guarded(line: str) -> str:
    """A line that roff does not take for a request."""
    return rf"\&{line}" if line.startswith((".", "'")) else line


def cells(line: str) -> list[str]:
    """The cells of a table's row; a bar in code is none of its bars."""
    inside = line.strip().strip("|")
    return [it.strip().replace(r"\|", "|") for it in re.split(r"(?<!\\)\|(?=(?:[^`]*`[^`]*`)*[^`]*\Z)", inside)]


def table(rows: list[str]) -> Iterator[str]:
    """A table as a list: the first cell is the term, the second what is said of it, each further one follows the name of its column."""
    heads, *rest = [cells(row) for row in rows if not _RULE.match(row.strip())]
    for row in rest:
        yield ".TP"
        yield inline(row[0]) or r"\&"
        told = [(head, cell) for head, cell in zip(heads[1:], row[1:]) if cell]
        parts = [inline(cell) if not at or not head else f"{inline(head)}: {inline(cell)}" for at, (head, cell) in enumerate(told)]
        yield "; ".join(parts) or r"\&"


def code(lines: list[str]) -> Iterator[str]:
    """Lines that stand as they are."""
    yield from (".PP", ".RS 4", ".nf")
    yield from (guarded(escaped(line)) for line in lines)
    yield from (".fi", ".RE")


def blocks(text: str) -> Iterator[tuple[str, list[str]]]:
    """The blocks of a document with their kinds: code, heading, table, item, text."""
    kind = ""
    found: list[str] = []
    for line in re.sub(r"<!--.*?-->\n?", "", text, flags=re.S).splitlines():
        if kind == "code":
            if line.startswith("```"):
                yield kind, found
                kind, found = "", []
            else:
                found.append(line)
            continue
        now = (
            "code" if line.startswith("```")
            else "heading" if line.startswith("#")
            else "table" if line.startswith("|")
            else "item" if re.match(r"[-*] ", line)
            else "" if not line.strip()
            else "item" if kind == "item" and line.startswith(" ")
            else "text"
        )  # fmt: skip
        if found and (now != kind or now == "heading" or (now == "item" and not line.startswith(" "))):
            yield kind, found
            found = []
        kind = now
        found += [] if now in ("", "code") else [line]
    if found:
        yield kind, found


def body(text: str) -> Iterator[str]:
    """The document as roff, without its title."""
    for kind, lines in blocks(text):
        if kind == "heading":
            depth, words = len(lines[0]) - len(lines[0].lstrip("#")), lines[0].lstrip("# ")
            if depth > 1:
                yield f'.{"SH" if depth == 2 else "SS"} "{inline(words.upper() if depth == 2 else words)}"'
        elif kind == "code":
            yield from code(lines)
        elif kind == "table":
            yield from table(lines)
        elif kind == "item" and not _CONTENTS.match(lines[0]):
            yield from (".IP \\(bu 3", inline(" ".join(it.strip() for it in lines)[2:]))
        elif kind == "text":
            yield from (".PP", inline(" ".join(it.strip() for it in lines)))


def page(text: str) -> str:
    """The whole man page."""
    head = [f'.TH {NAME.upper()} 1', ".SH NAME", rf"{NAME} \- {ABOUT}", ".SH SYNOPSIS"]
    for words in SYNOPSIS:
        head += [rf".B {NAME}", escaped(words), ".br"]
    files = [".SH SEE ALSO", "The grammars and all printed texts stand in docs/FORMATS.md, in the folder share/doc/hammockdove of the installation, which has the examples too."]
    return "\n".join([*head, ".SH DESCRIPTION", *body(text.replace("./hammockdove ", "hammockdove ")), *files]) + "\n"


def main() -> int:
    if len(sys.argv) < 2:
        sys.exit(__doc__)
    for name in sys.argv[1:]:
        path = Path(name)
        if path.is_file():
            sys.stdout.write(page(path.read_text(encoding="utf-8")))
            return 0
    print(f"man_page.py: none of these is there: {' '.join(sys.argv[1:])}", file=sys.stderr)
    return 1


if __name__ == "__main__":
    sys.exit(main())
