#!/usr/bin/env python3
"""Draws docs/growth.svg from docs/times.tsv: how the times grow with the symbols of a line and with the tests of a pattern.

usage: python3 tools/plot.py
"""

import csv
import math
import os

DOCS = os.path.join(os.path.dirname(os.path.dirname(os.path.abspath(__file__))), "docs")
REPORTS = {"longest": "#1f77b4", "marks": "#2ca02c", "split": "#ff7f0e", "order": "#000000"}
ENGINES = {"ours": "#000000", "RE2": "#d62728", "Hyperscan": "#9467bd", "PCRE2": "#8c564b", "TRE": "#17a2b8"}
PANELS = {
    "speaker/symbols": "{[A-Z]+}: {.*}",
    "stars/symbols": "52 times .* in eight tags",
    "sounds/tests": "{door|bell|..}, 160 symbols",
    "opt/tests": "a?..a?a..a, 160 symbols",
    "stars/tests": ".*.. in eight tags, 160 symbols",
}
WIDE, HIGH, LEFT, TOP, ACROSS, DOWN = 190, 210, 70, 80, 226, 320
LEAST, MOST = 100, 2 * 10**7
UNITS = {100: "100 ns", 1000: "1 µs", 10**4: "10 µs", 10**5: "100 µs", 10**6: "1 ms", 10**7: "10 ms"}


def read_times():
    """For each series its sizes, and by engine and report the times at them."""
    series = {}
    with open(os.path.join(DOCS, "times.tsv"), encoding="utf-8", newline="") as table:
        for row in csv.DictReader(table, delimiter="\t"):
            name, _, size = row["case"].partition("=")
            if size:
                for report in REPORTS:
                    points = series.setdefault(name, {}).setdefault((row["engine"], report), [])
                    if row[report] != "-":
                        points.append((int(size), int(row[report])))
    return series


def text(x, y, words, more=""):
    words = words.replace("&", "&amp;").replace("<", "&lt;")
    return f'<text x="{x:.0f}" y="{y:.0f}" {more}>{words}</text>'


def panel(left, top, title, under, sizes, curves):
    """One plot, both axes logarithmic: curves are a colour and points each."""
    low, high = math.log(sizes[0]), math.log(sizes[-1])

    def x_of(size):
        return left + 8 + (WIDE - 16) * (math.log(size) - low) / (high - low)

    def y_of(time):
        return top + HIGH - HIGH * math.log(time / LEAST) / math.log(MOST / LEAST)

    drawn = [f'<rect x="{left}" y="{top}" width="{WIDE}" height="{HIGH}" fill="none" stroke="#888"/>', text(left, top - 8, title)]
    for time in UNITS:
        drawn.append(f'<line x1="{left}" x2="{left + WIDE}" y1="{y_of(time):.1f}" y2="{y_of(time):.1f}" stroke="#ddd"/>')
    for size in sizes:
        # 120 stands too near to 160 to be written out.
        if size != 120:
            drawn.append(text(x_of(size), top + HIGH + 15, str(size), 'text-anchor="middle"'))
    drawn.append(text(left + WIDE / 2, top + HIGH + 32, under, 'text-anchor="middle"'))
    for colour, points in curves:
        if points:
            path = " ".join(f"{x_of(size):.1f},{y_of(time):.1f}" for size, time in points)
            drawn.append(f'<polyline points="{path}" fill="none" stroke="{colour}" stroke-width="1.8"/>')
            drawn.extend(f'<circle cx="{x_of(size):.1f}" cy="{y_of(time):.1f}" r="2.4" fill="{colour}"/>' for size, time in points)
    return drawn


def legend(y, words, colours):
    drawn, x = [text(LEFT, y, words, 'font-weight="bold"')], LEFT + 20 + 8 * len(words)
    for name, colour in colours.items():
        drawn.append(f'<line x1="{x:.0f}" x2="{x + 20:.0f}" y1="{y - 4}" y2="{y - 4}" stroke="{colour}" stroke-width="2.5"/>')
        drawn.append(text(x + 25, y, name))
        x += 45 + 8 * len(name)
    return drawn


def main():
    series = read_times()
    width, height = LEFT + ACROSS * len(PANELS), TOP + 2 * DOWN - 20
    drawn = [
        f'<svg xmlns="http://www.w3.org/2000/svg" viewBox="0 0 {width} {height}" width="{width}" height="{height}" font-family="sans-serif" font-size="12">',
        f'<rect width="{width}" height="{height}" fill="white"/>',
    ]
    rows = [
        ("Ours: each report, and the whole order", REPORTS, lambda colour: ("ours", colour)),
        ("The whole order: ours and the others", ENGINES, lambda colour: (colour, "order")),
    ]
    for row, (words, colours, key) in enumerate(rows):
        top = TOP + row * DOWN
        drawn += legend(top - 42, words, colours)
        for time, unit in UNITS.items():
            y = top + HIGH - HIGH * math.log(time / LEAST) / math.log(MOST / LEAST)
            drawn.append(text(LEFT - 8, y + 4, unit, 'text-anchor="end"'))
        for column, (name, title) in enumerate(PANELS.items()):
            times = series[name]
            sizes = [size for size, _ in times["ours", "order"]]
            curves = [(colour, times.get(key(what), [])) for what, colour in colours.items()]
            drawn += panel(LEFT + column * ACROSS, top, title, name.split("/")[1], sizes, curves)
    drawn.append("</svg>")
    with open(os.path.join(DOCS, "growth.svg"), "w", encoding="utf-8") as picture:
        picture.write("\n".join(drawn) + "\n")


if __name__ == "__main__":
    main()
