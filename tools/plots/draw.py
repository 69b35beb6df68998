#!/usr/bin/env python3
"""Draws the pictures of docs/img from the data files beside them, by the standard library alone.

    tools/plots/draw.py          writes sizes.svg, workers.svg and progress.svg

The data comes from `measure.py` (sizes.txt), `workers.py` (workers.txt) and `progress.py` (progress.txt); the head of each file says where and when.
"""
import math
import os

IMAGES = os.path.join(os.path.dirname(os.path.dirname(os.path.dirname(os.path.abspath(__file__)))), "docs", "img")
INK, FAINT, GRID = "#222222", "#666666", "#e2e2e2"
COLOURS = {"hammockdove": "#b3261e", "plain": "#7a7a7a", "ordered": "#e07b39", "toulbar2": "#1f6fb2", "clasp": "#2e8b57", "cbc": "#b8860b", "glpsol": "#7b4fa3"}
LABELS = {"hammockdove": "Hammockdove", "plain": "plain Rust", "ordered": "plain Rust, ordered", "glpsol": "GLPK"}
TITLES = {"knapsack": ("Knapsack", "items"), "maxcut": ("Maximum cut", "vertices"), "max2sat": ("MAX-2SAT", "variables"), "tsptw": ("Tours, narrow windows", "nodes"),
          "tardiness": ("Tardiness on one machine", "jobs")}


def rows_of(name):
    with open(os.path.join(IMAGES, name), encoding="utf-8") as data:
        return [line.split() for line in data if line.strip() and not line.startswith("#")]


class Picture:
    """The lines of an SVG."""

    def __init__(self, width, height):
        self.width, self.height, self.parts = width, height, []

    def text(self, x, y, words, size=12, fill=INK, anchor="start", weight="normal"):
        words = words.replace("&", "&amp;").replace("<", "&lt;")
        self.parts.append(f'<text x="{x:.1f}" y="{y:.1f}" font-size="{size}" fill="{fill}" text-anchor="{anchor}" font-weight="{weight}">{words}</text>')

    def line(self, x1, y1, x2, y2, stroke=GRID, width=1.0, dash=""):
        dashed = f' stroke-dasharray="{dash}"' if dash else ""
        self.parts.append(f'<line x1="{x1:.1f}" y1="{y1:.1f}" x2="{x2:.1f}" y2="{y2:.1f}" stroke="{stroke}" stroke-width="{width}"{dashed}/>')

    def path(self, points, stroke, width=2.0):
        way = " ".join(f"{'L' if number else 'M'}{x:.1f} {y:.1f}" for number, (x, y) in enumerate(points))
        self.parts.append(f'<path d="{way}" fill="none" stroke="{stroke}" stroke-width="{width}" stroke-linejoin="round"/>')

    def dot(self, x, y, fill, hollow=False):
        inside = "#ffffff" if hollow else fill
        self.parts.append(f'<circle cx="{x:.1f}" cy="{y:.1f}" r="3.5" fill="{inside}" stroke="{fill}" stroke-width="1.5"/>')

    def write(self, name, title):
        head = f'<svg xmlns="http://www.w3.org/2000/svg" viewBox="0 0 {self.width} {self.height}" width="{self.width}" height="{self.height}" font-family="Helvetica, Arial, sans-serif">'
        ground = f'<rect width="{self.width}" height="{self.height}" fill="#ffffff"/>'
        with open(os.path.join(IMAGES, name), "w", encoding="utf-8") as out:
            out.write("\n".join([head, f"<title>{title}</title>", ground] + self.parts + ["</svg>"]) + "\n")


def placed(label_ys, least):
    """Heights of labels, in the given order from above, moved apart by at least so much."""
    ys = []
    for y in label_ys:
        ys.append(y if not ys else max(y, ys[-1] + least))
    return ys


def panel(picture, left, top, wide, high, model, rows):
    """Seconds by size of one problem, each solver a line; hollow dots on the limit did not end."""
    lowest, highest = 0.005, 60.0
    title, unit = TITLES[model]
    sizes = [int(row[1]) for row in rows]
    most = max(sizes) * 1.0
    least = min(sizes) * 0.9 if min(sizes) * 3 > most else 0
    place_x = lambda size: left + (size - least) / (most - least) * wide
    place_y = lambda seconds: top + high * (1 - math.log(max(seconds, lowest) / lowest) / math.log(highest / lowest))
    picture.text(left, top - 14, title, 14, weight="bold")
    for seconds, label in ((0.01, "0.01 s"), (0.1, "0.1 s"), (1, "1 s"), (10, "10 s"), (60, "60 s")):
        picture.line(left, place_y(seconds), left + wide, place_y(seconds))
        picture.text(left - 6, place_y(seconds) + 4, label, 11, FAINT, "end")
    for size in sorted(set(sizes)):
        if all(abs(place_x(size) - place_x(other)) > 18 for other in sorted(set(sizes)) if other > size):
            picture.text(place_x(size), top + high + 18, f"{size:,}", 11, FAINT, "middle")
    picture.text(left + wide, top + high + 34, unit, 11, FAINT, "end")
    ends = []
    for solver in COLOURS:
        points = sorted((int(row[1]), float(row[4]), row[5] == "limit") for row in rows if row[3] == solver)
        if not points:
            continue
        spots = [(place_x(size), place_y(60.0 if late else seconds)) for size, seconds, late in points]
        picture.path(spots, COLOURS[solver])
        for (x, y), (_, _, late) in zip(spots, points):
            picture.dot(x, y, COLOURS[solver], late)
        ends.append((spots[-1][1], spots[-1][0], solver))
    ends.sort()
    for y, (end_y, end_x, solver) in zip(placed([end[0] for end in ends], 15), ends):
        picture.line(end_x + 5, end_y, left + wide + 10, y, COLOURS[solver], 0.6, "2 2")
        picture.text(left + wide + 13, y + 4, LABELS.get(solver, solver), 12, COLOURS[solver], weight="bold" if solver == "hammockdove" else "normal")


def sizes():
    rows = rows_of("sizes.txt")
    models = [model for model in TITLES if any(row[0] == model for row in rows)]
    picture = Picture(930, 60 + 290 * ((len(models) + 1) // 2))
    picture.text(20, 26, "Time to a proved answer, by size", 17, weight="bold")
    for number, model in enumerate(models):
        left, top = 70 + 445 * (number % 2), 82 + 290 * (number // 2)
        panel(picture, left, top, 265, 180, model, [row for row in rows if row[0] == model])
    picture.text(20, picture.height - 8, "Drawn instances, one thread, processor seconds on a logarithmic scale. A hollow dot: no answer within 60 s. What each line was measured on: sizes.txt.", 11, FAINT)
    picture.write("sizes.svg", "Time to a proved answer by size, for each problem and solver")


def workers():
    rows = rows_of("workers.txt")
    picture = Picture(690, 350)
    picture.text(20, 26, "Speed by workers", 17, weight="bold")
    left, top, wide, high = 60, 55, 320, 220
    place_x = lambda count: left + (count - 1) / 3 * wide
    place_y = lambda speed: top + high * (1 - (speed - 1) / 3.5)
    for speed in (1, 2, 3, 4):
        picture.line(left, place_y(speed), left + wide, place_y(speed))
        picture.text(left - 8, place_y(speed) + 4, f"{speed} ×", 11, FAINT, "end")
    for count in (1, 2, 3, 4):
        picture.text(place_x(count), top + high + 18, str(count), 11, FAINT, "middle")
    picture.text(left + wide / 2, top + high + 38, "workers", 12, FAINT, "middle")
    picture.line(place_x(1), place_y(1), place_x(4), place_y(4), FAINT, 1, "4 4")
    colours, ends = ["#b3261e", "#1f6fb2", "#2e8b57", "#b8860b"], []
    for colour, row in zip(colours, rows):
        name, times = row[0].replace("_", " "), [float(word) for word in row[1:4]]
        spots = [(place_x(count), place_y(times[0] / seconds)) for count, seconds in zip((1, 2, 4), times)]
        picture.path(spots, colour)
        for x, y in spots:
            picture.dot(x, y, colour)
        ends.append((spots[-1][1], name, colour, times))
    ends.sort()
    for y, (end_y, name, colour, times) in zip(placed([end[0] for end in ends], 17), ends):
        picture.text(left + wide + 14, y + 4, f"{name}: {times[0]:.1f} s to {times[2]:.1f} s", 12, colour)
    picture.text(20, 342, "Wall time of one run each on four idle virtual processors, width 100. Dashed: linear speed.", 11, FAINT)
    picture.write("workers.svg", "How many times as fast a search is with two and four workers")


def progress():
    rows = [(int(row[0]), int(row[1]), int(row[2])) for row in rows_of("progress.txt")]
    picture = Picture(700, 350)
    picture.text(20, 26, "Bound and incumbent of a long search", 17, weight="bold")
    left, top, wide, high = 60, 55, 480, 210
    most, top_value = rows[-1][0], max(bound for _, _, bound in rows)
    low = min(value for _, value, _ in rows) // 50 * 50
    place_x = lambda taken: left + math.log(taken) / math.log(most) * wide
    place_y = lambda value: top + high * (1 - (value - low) / (top_value * 1.03 - low))
    for value in range(low, int(top_value) + 1, 50):
        picture.line(left, place_y(value), left + wide, place_y(value))
        picture.text(left - 8, place_y(value) + 4, str(value), 11, FAINT, "end")
    power = 1
    while power <= most:
        picture.text(place_x(power), top + high + 18, f"{power:,}", 11, FAINT, "middle")
        power *= 10
    picture.text(left + wide / 2, top + high + 38, "subproblems taken", 12, FAINT, "middle")
    for column, colour in ((2, "#b3261e"), (1, "#1f6fb2")):
        spots = [(place_x(row[0]), place_y(row[column])) for row in rows]
        picture.path(spots, colour)
        for x, y in spots:
            picture.parts.append(f'<circle cx="{x:.1f}" cy="{y:.1f}" r="2.2" fill="{colour}"/>')
    picture.text(place_x(12), place_y([b for t, _, b in rows if t <= 12][-1]) - 8, "bound: no solution exceeds it", 12, "#b3261e")
    picture.text(place_x(12), place_y([v for t, v, _ in rows if t <= 12][-1]) + 20, "incumbent: the best solution so far", 12, "#1f6fb2")
    last = rows[-1]
    picture.dot(place_x(last[0]), place_y(last[1]), INK)
    picture.text(place_x(last[0]) + 10, place_y(last[1]) - 2, f"proved {last[1]}", 12, INK, weight="bold")
    picture.text(place_x(last[0]) + 10, place_y(last[1]) + 13, f"after {last[0]:,}", 11, FAINT)
    picture.text(20, 342, "The cut that `generate maxcut 44 1` draws, width 100, one worker. Subproblems on a logarithmic scale.", 11, FAINT)
    picture.write("progress.svg", "Bound and incumbent of a long search by subproblems taken")


if __name__ == "__main__":
    sizes()
    workers()
    progress()
