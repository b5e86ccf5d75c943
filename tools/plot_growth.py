#!/usr/bin/env python3
"""Draws the table of `rust/bench --growth` as SVG: one panel for each setting that is changed, one curve for each call.

    rust/bench --growth > growth.tsv
    python3 tools/plot_growth.py growth.tsv growth.svg
"""
import csv
import math
import sys
from collections import defaultdict

PANELS = [
    ("L", "L", "lines (L)"),
    ("F", "F", "frames (F)"),
    ("P", "P", "pages (P)"),
    ("live", "live", "live frames"),
]
# Each call: its words, its colour on light and on dark ground, its mark.
CALLS = {
    "advance": ("ADVANCE(4)", "#a4262c", "#ff8a80", "square"),
    "sweep": ("ROLLBACK that sweeps", "#8a5a00", "#f0b849", "diamond"),
    "first_write": ("WRITE, first of its page", "#5c2d91", "#c8a2f0", "triangle"),
    "read_miss": ("READ, not in the cache", "#00695c", "#5fd3c4", "circle"),
    "write": ("WRITE", "#b0307a", "#ff9ad0", "square"),
    "read_hit": ("READ, in the cache", "#1a5fb4", "#8ab4f8", "diamond"),
    "rollback": ("ROLLBACK", "#3a6b00", "#a5d66a", "triangle"),
    "mark": ("MARK", "#555555", "#bbbbbb", "circle"),
}
WIDE, HIGH = 400, 300  # of a panel's field
LEFT, TOP, BETWEEN, BELOW = 76, 56, 92, 84
LEGEND = 92


def read(path):
    with open(path, newline="") as file:
        rows = list(csv.DictReader(file, delimiter="\t"))
    curves = defaultdict(list)
    for row in rows:
        place = next(column for name, column, _ in PANELS if name == row["changed"])
        curves[row["changed"], row["call"]].append((int(row[place]), float(row["ns"])))
    base = {}
    for name, column, _ in PANELS:
        values = {row[column] for row in rows if row["changed"] != name and row["changed"] != "live"}
        base[name] = values.pop() if len(values) == 1 else "?"
    return curves, base


def time_words(ns):
    for unit, size in (("ms", 1e6), ("µs", 1e3)):
        if ns >= size:
            return f"{ns / size:g} {unit}"
    return f"{ns:g} ns"


def mark(kind, x, y, call):
    r = 3.6
    if kind == "circle":
        return f'<circle class="dot {call}" cx="{x:.1f}" cy="{y:.1f}" r="{r}"/>'
    corners = {
        "square": [(-r, -r), (r, -r), (r, r), (-r, r)],
        "diamond": [(0, -1.3 * r), (1.3 * r, 0), (0, 1.3 * r), (-1.3 * r, 0)],
        "triangle": [(0, -1.2 * r), (1.2 * r, r), (-1.2 * r, r)],
    }[kind]
    points = " ".join(f"{x + dx:.1f},{y + dy:.1f}" for dx, dy in corners)
    return f'<polygon class="dot {call}" points="{points}"/>'


def text(x, y, words, kind="", anchor="middle", more=""):
    return f'<text x="{x:.1f}" y="{y:.1f}" class="{kind}" text-anchor="{anchor}"{more}>{words}</text>'


def style():
    light = "".join(f".{c}{{stroke:{v[1]}}}.dot.{c}{{fill:{v[1]}}}" for c, v in CALLS.items())
    dark = "".join(f".{c}{{stroke:{v[2]}}}.dot.{c}{{fill:{v[2]}}}" for c, v in CALLS.items())
    return (
        "<style>"
        "svg{background:#fff}text{font:13px sans-serif;fill:#222}.title{font-weight:bold;font-size:15px}.small{font-size:12px}"
        ".grid{stroke:#ddd}.frame{stroke:#666;fill:none}.curve{fill:none;stroke-width:1.8}.dot{stroke:none}"
        + light
        + "@media (prefers-color-scheme:dark){svg{background:#16181c}text{fill:#e6e6e6}.grid{stroke:#33373d}.frame{stroke:#999}"
        + dark
        + "}.dot{stroke:none!important}</style>"
    )


def panel(name, words, curves, x0, y0, low, high):
    out = []
    values = sorted({x for (changed, _), points in curves.items() if changed == name for x, _ in points})
    first, last = math.log2(values[0]), math.log2(values[-1])

    def at_x(value):
        return x0 + WIDE * (math.log2(value) - first) / (last - first)

    def at_y(ns):
        return y0 + HIGH * (1 - (math.log10(ns) - low) / (high - low))

    for power in range(low, high + 1):
        y = at_y(10.0**power)
        out.append(f'<line class="grid" x1="{x0}" x2="{x0 + WIDE}" y1="{y:.1f}" y2="{y:.1f}"/>')
        out.append(text(x0 - 8, y + 4, time_words(10**power), "small", "end"))
    for value in values:
        x = at_x(value)
        out.append(f'<line class="grid" x1="{x:.1f}" x2="{x:.1f}" y1="{y0}" y2="{y0 + HIGH}"/>')
        out.append(text(x, y0 + HIGH + 18, f"{value:,}", "small"))
    out.append(f'<rect class="frame" x="{x0}" y="{y0}" width="{WIDE}" height="{HIGH}"/>')
    out.append(text(x0 + WIDE / 2, y0 + HIGH + 40, words))
    middle = y0 + HIGH / 2
    turned = f' transform="rotate(-90 {x0 - 60} {middle})"'
    out.append(text(x0 - 60, middle, "time of one call", more=turned))
    for call, (_, _, _, kind) in CALLS.items():
        points = sorted(curves.get((name, call), []))
        places = [(at_x(x), at_y(ns)) for x, ns in points]
        path = " ".join(f"{x:.1f},{y:.1f}" for x, y in places)
        out.append(f'<polyline class="curve {call}" points="{path}"/>')
        out.extend(mark(kind, x, y, call) for x, y in places)
    return out


def draw(curves, base):
    times = [ns for points in curves.values() for _, ns in points]
    low, high = math.floor(math.log10(min(times))), math.ceil(math.log10(max(times)))
    wide = LEFT + 2 * WIDE + BETWEEN + 24
    tall = TOP + 2 * (HIGH + BELOW) + LEGEND
    out = [
        f'<svg xmlns="http://www.w3.org/2000/svg" viewBox="0 0 {wide} {tall}" width="{wide}" height="{tall}" role="img">',
        "<title>How the time of each call grows with L, F, P and the live frames</title>",
        style(),
        text(wide / 2, 26, "Time of one call, one setting changed at a time", "title"),
        text(
            wide / 2,
            45,
            f"the others stay: L {base['L']}, P {base['P']}, F {base['F']} (256 where live frames change), {base['live']} live frames; both scales logarithmic",
            "small",
        ),
    ]
    for number, (name, _, words) in enumerate(PANELS):
        x0 = LEFT + (number % 2) * (WIDE + BETWEEN)
        y0 = TOP + 4 + (number // 2) * (HIGH + BELOW)
        out += panel(name, words, curves, x0, y0, low, high)
    y0 = TOP + 2 * (HIGH + BELOW)
    for number, (call, (words, _, _, kind)) in enumerate(CALLS.items()):
        x = LEFT + (number % 4) * 220
        y = y0 + 16 + (number // 4) * 28
        out.append(f'<line class="curve {call}" x1="{x}" x2="{x + 30}" y1="{y}" y2="{y}"/>')
        out.append(mark(kind, x + 15, y, call))
        out.append(text(x + 38, y + 4, words, anchor="start"))
    return "\n".join(out + ["</svg>"]) + "\n"


def main():
    if len(sys.argv) != 3:
        sys.exit("usage: plot_growth.py TABLE.tsv PICTURE.svg")
    curves, base = read(sys.argv[1])
    with open(sys.argv[2], "w") as file:
        file.write(draw(curves, base))


if __name__ == "__main__":
    main()
