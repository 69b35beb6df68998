#!/usr/bin/env python3
"""Draws the rooms of crates.txt (docs/img/rooms.svg) and the way of an instance (docs/img/way.svg).

    tools/plots/rooms.py
"""
import os

from draw import FAINT, INK, Picture

TOP = os.path.dirname(os.path.dirname(os.path.dirname(os.path.abspath(__file__))))
COLOURS = {"theory": "#fbe9e7", "problems": "#fff3d6", "program": "#e3f0e6", "tests": "#f3f3f3"}


def rooms():
    """Each heading of crates.txt with its crates."""
    found = []
    with open(os.path.join(TOP, "crates.txt"), encoding="utf-8") as lines:
        for line in lines:
            if line.startswith("#") and ":" not in line:
                found.append((line[1:].strip(), []))
            elif ":" in line and found:
                found[-1][1].append(line.split(":")[0].split()[0])
    return [(name, crates) for name, crates in found if crates]


def box(picture, x, y, wide, high, fill, stroke="#b0b0b0"):
    picture.parts.append(f'<rect x="{x:.1f}" y="{y:.1f}" width="{wide:.1f}" height="{high:.1f}" rx="5" fill="{fill}" stroke="{stroke}"/>')


def lines_of(crates, most):
    """The crates with their places, in lines of at most `most` points."""
    lines, x = [[]], 0
    for crate in crates:
        wide = 16 + 7.1 * len(crate)
        if x + wide > most and lines[-1]:
            lines.append([])
            x = 0
        lines[-1].append((crate, x, wide))
        x += wide + 8
    return lines


def draw_rooms():
    found = rooms()
    spread = [(name, lines_of(crates, 640)) for name, crates in found]
    picture = Picture(880, 60 + sum(18 + 30 * len(lines) for _, lines in spread))
    picture.text(20, 26, "The rooms", 17, weight="bold")
    picture.text(125, 26, "a crate stands on crates of rooms below its own, and on some of its own room", 12, FAINT)
    y = 44
    for name, lines in reversed(spread):
        high = 8 + 30 * len(lines)
        box(picture, 20, y, 840, high, COLOURS.get(name, "#eaf1f8"), "none")
        picture.text(32, y + 24, name, 13, weight="bold")
        for number, line in enumerate(lines):
            for crate, x, wide in line:
                box(picture, 200 + x, y + 7 + 30 * number, wide, 24, "#ffffff")
                picture.text(200 + x + wide / 2, y + 23 + 30 * number, crate, 12, anchor="middle")
        y += high + 10
    picture.write("rooms.svg", "The rooms of the repository with their crates, from the outside below to the program and its tests above")


def step(picture, x, y, wide, title, told, fill="#ffffff"):
    box(picture, x, y, wide, 48, fill)
    picture.text(x + wide / 2, y + 20, title, 13, anchor="middle", weight="bold")
    picture.text(x + wide / 2, y + 37, told, 11, FAINT, "middle")


def arrow(picture, x1, y1, x2, y2, label="", side=1):
    picture.line(x1, y1, x2, y2, INK, 1.4)
    size, down = 5, abs(y2 - y1) > abs(x2 - x1)
    ahead = 1 if (y2 > y1 if down else x2 > x1) else -1
    ends = [(x2 - size, y2 - ahead * size * 1.6), (x2 + size, y2 - ahead * size * 1.6)] if down else [(x2 - ahead * size * 1.6, y2 - size), (x2 - ahead * size * 1.6, y2 + size)]
    points = " ".join(f"{x:.1f},{y:.1f}" for x, y in [(x2, y2)] + ends)
    picture.parts.append(f'<polygon points="{points}" fill="{INK}"/>')
    if label:
        x, y = (x1 + x2) / 2, (y1 + y2) / 2
        picture.text(x + (8 * side if down else 0), y + (4 if down else -6), label, 11, FAINT, ("start" if side > 0 else "end") if down else "middle")


def draw_way():
    picture = Picture(900, 480)
    picture.text(20, 26, "The way of an instance", 17, weight="bold")
    step(picture, 20, 50, 190, "words", "what is asked, the settings")
    step(picture, 250, 50, 190, "bytes", "standard input")
    step(picture, 480, 50, 190, "instance", "read by the grammar")
    step(picture, 710, 50, 170, "dynamic program", "states, decisions, gains")
    arrow(picture, 210, 74, 248, 74)
    arrow(picture, 440, 74, 478, 74)
    arrow(picture, 670, 74, 708, 74)
    box(picture, 20, 130, 860, 240, "#eaf1f8", "none")
    picture.text(34, 152, "search: rounds of one worker or of several", 13, weight="bold")
    step(picture, 40, 200, 220, "board", "incumbent, open subproblems, slots", "#fff3d6")
    step(picture, 330, 170, 200, "restricted diagram", "cuts wide layers: a solution")
    step(picture, 330, 280, 200, "relaxed diagram", "merges wide layers: bounds")
    step(picture, 640, 280, 210, "children", "exact nodes with their bounds")
    arrow(picture, 795, 98, 795, 140)
    arrow(picture, 260, 212, 328, 196, "take")
    arrow(picture, 328, 216, 262, 228)
    picture.text(292, 242, "improve", 11, FAINT, "middle")
    arrow(picture, 430, 218, 430, 278, "if the width took something")
    arrow(picture, 530, 304, 638, 304, "cutset")
    picture.line(745, 328, 745, 342, INK, 1.4)
    picture.line(745, 342, 150, 342, INK, 1.4)
    arrow(picture, 150, 342, 150, 250)
    picture.text(160, 360, "finish: children enter by the fringe and the dominance table", 11, FAINT)
    step(picture, 40, 404, 220, "last board", "nothing open, or a stop")
    step(picture, 330, 404, 200, "answer", "proved, infeasible, stopped")
    step(picture, 640, 404, 210, "report and status", "standard output")
    arrow(picture, 90, 248, 90, 402)
    arrow(picture, 260, 428, 328, 428)
    arrow(picture, 530, 428, 638, 428)
    picture.text(450, 472, "With --cover an exploration adds a cover. With --journal each improve and finish is on the disk before the board changes.", 11, FAINT, "middle")
    picture.write("way.svg", "The way of an instance from words and bytes over the board and its diagrams to a report")


if __name__ == "__main__":
    draw_rooms()
    draw_way()
