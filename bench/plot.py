#!/usr/bin/env -S python3 -B
"""Draws what bench/growth and bench/solver measured, as an SVG picture on the standard output."""
import json
import math
import statistics

import measure

BLUE, ORANGE, GREY, INK = "#0072b2", "#d55e00", "#9a9a9a", "#222222"
UNITS = {-6: "1 µs", -5: "10 µs", -4: "100 µs", -3: "1 ms", -2: "10 ms", -1: "100 ms", 0: "1 s", 1: "10 s", 2: "100 s"}


class Panel:
    """A part of the picture with two axes. A scale that is given by powers of ten is logarithmic."""

    def __init__(self, left, top, width, height, x_range, y_range, x_log, title):
        self.left, self.top, self.width, self.height = left, top, width, height
        self.x_range, self.y_range, self.x_log = x_range, y_range, x_log
        self.parts = [text(left, top - 14, title, "start", weight="bold", size=15)]

    def drawn(self):
        frame = f'<rect x="{self.left}" y="{self.top}" width="{self.width}" height="{self.height}" fill="none" stroke="{INK}"/>'
        return "\n".join([*self.parts, frame])

    def x(self, value):
        low, high = self.x_range
        at = math.log10(value) if self.x_log else value
        return self.left + self.width * (at - low) / (high - low)

    def y(self, value):
        low, high = self.y_range
        return self.top + self.height * (high - math.log10(value)) / (high - low)

    def tick_x(self, value, label):
        x, bottom = self.x(value), self.top + self.height
        self.parts.append(line(x, self.top, x, bottom, "#e6e6e6"))
        self.parts.append(text(x, bottom + 17, label, "middle"))

    def tick_y(self, value, label):
        y = self.y(value)
        self.parts.append(line(self.left, y, self.left + self.width, y, "#e6e6e6"))
        self.parts.append(text(self.left - 7, y + 4, label, "end"))

    def name_x(self, label):
        self.parts.append(text(self.left + self.width / 2, self.top + self.height + 38, label, "middle"))

    def name_y(self, label):
        x, y = self.left - 62, self.top + self.height / 2
        self.parts.append(f'<text x="{x}" y="{y}" text-anchor="middle" transform="rotate(-90 {x} {y})">{label}</text>')


def line(x1, y1, x2, y2, color, more=""):
    return f'<line x1="{x1:.1f}" y1="{y1:.1f}" x2="{x2:.1f}" y2="{y2:.1f}" stroke="{color}" {more}/>'


def text(x, y, words, anchor, color=INK, size=12, weight="normal"):
    return f'<text x="{x:.1f}" y="{y:.1f}" text-anchor="{anchor}" fill="{color}" font-size="{size}" font-weight="{weight}">{words}</text>'


def mark(x, y, color, square, filled=True, size=4.5):
    fill = color if filled else "white"
    if square:
        return f'<rect x="{x - size:.1f}" y="{y - size:.1f}" width="{2 * size}" height="{2 * size}" fill="{fill}" stroke="{color}" stroke-width="1.5"/>'
    return f'<circle cx="{x:.1f}" cy="{y:.1f}" r="{size}" fill="{fill}" stroke="{color}" stroke-width="1.5"/>'


def arrow(x, y, dx, dy, color):
    """From a mark into the direction in which the true value lies."""
    across = 3.5 if dx == 0 else 0, 3.5 if dy == 0 else 0
    tip, foot = (x + 17 * dx, y + 17 * dy), (x + 11 * dx, y + 11 * dy)
    corners = (tip, (foot[0] - across[0], foot[1] - across[1]), (foot[0] + across[0], foot[1] + across[1]))
    points = " ".join(f"{a:.1f},{b:.1f}" for a, b in corners)
    return line(x + 5 * dx, y + 5 * dy, *foot, color, 'stroke-width="1.5"') + f'<polygon points="{points}" fill="{color}"/>'


def ratio_lines(panel):
    """Where the solver takes as long as our program, and ten, a hundred, a thousand times as long."""
    slope = math.degrees(math.atan2(panel.height / (panel.y_range[1] - panel.y_range[0]), panel.width / (panel.x_range[1] - panel.x_range[0])))
    for times, label, at in ((1, "equal", 0.3), (10, "10 times", 3), (100, "100 times", 20), (1000, "1000 times", 20)):
        low = max(10 ** panel.x_range[0], times * 10 ** panel.y_range[0])
        high = min(10 ** panel.x_range[1], times * 10 ** panel.y_range[1])
        style = 'stroke-width="1.5"' if times == 1 else 'stroke-dasharray="4 4"'
        panel.parts.append(line(panel.x(low), panel.y(low / times), panel.x(high), panel.y(high / times), GREY, style))
        x, y = panel.x(at), panel.y(at / times)
        panel.parts.append(f'<g transform="rotate({-slope:.1f} {x:.1f} {y:.1f})">' + text(x, y - 5, label, "middle", GREY) + "</g>")


def solver_point(panel, row):
    """A layer: its mark, and a thin line to what the solver takes without the rows for cliques."""
    square = row["name"].startswith("squares")
    color = BLUE if square else ORANGE
    x, without = (panel.x(max(row[form][1], 1e-4)) for form in ("cliques", "edges"))
    y = panel.y(row["seconds"])
    proved = row["cliques"][0] is not None
    parts = [line(x, y, without, y, color, 'stroke-opacity="0.35"')]
    parts.append(f'<circle cx="{without:.1f}" cy="{y:.1f}" r="2" fill="{color}" fill-opacity="0.5"/>')
    if not row["best"]:
        parts.append(arrow(x, y, 0, -1, color))
    if not proved:
        parts.append(arrow(x, y, 1, 0, color))
    parts.append(mark(x, y, color, square, row["best"] and proved))
    return parts


def solver_panel(data):
    panel = Panel(95, 60, 430, 520, (-4, 2), (-5, 1.2), True, "Time to a proven optimum")
    for power in range(-4, 3):
        panel.tick_x(10**power, UNITS[power])
    for power in range(-5, 2):
        panel.tick_y(10**power, UNITS[power])
    panel.name_x("cbc, with rows for cliques (small dots: without them)")
    panel.name_y("the proved program, from text to text")
    ratio_lines(panel)
    panel.parts.append(text(panel.x(2e-4), panel.y(0.02), "cbc first", "start", GREY, 14))
    panel.parts.append(text(panel.x(60), panel.y(5e-4), "the proved program first", "end", GREY, 14))
    for row in sorted(data["rows"], key=lambda row: row["best"]):
        panel.parts += solver_point(panel, row)
    x = panel.left + panel.width - 140
    for i, (color, square, filled, label) in enumerate(
        ((BLUE, True, True, "squares on a grid"), (ORANGE, False, True, "wires with stitches"), (INK, True, False, "not proved: longer"))
    ):
        y = panel.top + panel.height - 60 + 20 * i
        panel.parts += [mark(x, y, color, square, filled), text(x + 12, y + 4, label, "start")]
    return panel


def growth_panel(data, top, value, y_range, title, labels, y_name):
    """Every run as a point, and the medians as a line, as far as most runs ended best."""
    panel = Panel(640, top, 300, 210, (0, 530), y_range, False, title)
    for pieces in range(0, 513, 128):
        panel.tick_x(pieces, str(pieces))
    for power, label in labels.items():
        if y_range[0] <= power <= y_range[1]:
            panel.tick_y(10**power, label)
    panel.name_x("pieces")
    panel.name_y(y_name)
    for masks, color, square in ((3, BLUE, True), (4, ORANGE, False)):
        runs = [run for run in data["runs"] if run["masks"] == masks]
        shift = -2.5 if square else 2.5
        panel.parts += [mark(panel.x(run["pieces"]) + shift, panel.y(value(run)), color, square, run["best"], 2) for run in runs]
        points = []
        for pieces in sorted({run["pieces"] for run in runs}):
            of_size = [run for run in runs if run["pieces"] == pieces]
            if 2 * sum(run["best"] for run in of_size) > len(of_size):
                points.append(f"{panel.x(pieces):.1f},{panel.y(statistics.median_low(map(value, of_size))):.1f}")
        path = " ".join(points)
        panel.parts.append(f'<polyline points="{path}" fill="none" stroke="{color}" stroke-width="2"/>')
        y = panel.top + panel.height - 36 + 18 * (masks - 3)
        panel.parts += [mark(panel.left + 200, y, color, square, True, 3), text(panel.left + 210, y + 4, f"K={masks}", "start")]
    return panel


def main():
    growth = json.loads((measure.DATA / "growth.json").read_text())
    solver = json.loads((measure.DATA / "solver.json").read_text())
    counts = {0: "≤ 1", 2: "100", 4: "10,000", 6: "1,000,000", 8: "100,000,000"}
    panels = (
        solver_panel(solver),
        growth_panel(growth, 60, lambda run: max(1, run["steps"]), (-0.5, 8.5), f"Steps (budget {growth['budget']:,})", counts, "steps"),
        growth_panel(growth, 370, lambda run: run["seconds"], (-5, 0), "Time", UNITS, "time of the run"),
    )
    print('<svg xmlns="http://www.w3.org/2000/svg" viewBox="0 0 970 650" font-family="Helvetica, Arial, sans-serif" font-size="12">')
    print('<rect width="970" height="650" fill="white"/>')
    for panel in panels:
        print(panel.drawn())
    print("</svg>")


if __name__ == "__main__":
    main()
