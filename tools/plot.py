#!/usr/bin/env python3
"""Plots the ratios that the benchmark prints: the library's time by the reference's, a bar for each row, on a scale of powers of two.

    make -s bench | tools/plot.py "date, machine" > docs/performance.svg
"""
import math
import re
import sys

HEADING = re.compile(r"^(\S.*?)\s+library\s+reference\s+ratio")
ROW = re.compile(r"^(.{10,}?)\s+([\d.]+) us\s+([\d.]+) us\s+([\d.]+)\s+\d+")
WIDTH, LEFT, HEIGHT = 420, 330, 17


def read(lines):
    """Headings, without a ratio, and rows, with theirs."""
    for line in lines:
        heading, row = HEADING.match(line), ROW.match(line)
        if heading:
            yield heading.group(1), None
        elif row:
            yield row.group(1).strip(), max(float(row.group(4)), 0.01)  # two places are printed: less shows as 0.00


def text(x, y, words, more=""):
    words = words.replace("&", "&amp;").replace("<", "&lt;")
    print('<text x="%.1f" y="%d"%s>%s</text>' % (x, y, more, words))


def main():
    sys.stdin.reconfigure(errors="replace")
    rows = list(read(sys.stdin))
    ratios = [math.log2(ratio) for _, ratio in rows if ratio]
    if not ratios:
        sys.exit("no row of the benchmark was read")
    low, high = min(-1, math.floor(min(ratios))), max(1, math.ceil(max(ratios)))
    at = lambda power: LEFT + WIDTH * (power - low) / (high - low)
    tall = 60 + HEIGHT * len(rows)
    print('<svg xmlns="http://www.w3.org/2000/svg" width="%d" height="%d" font-family="sans-serif" font-size="11">' % (LEFT + WIDTH + 60, tall))
    print('<rect width="100%" height="100%" fill="#fff"/>')
    text(10, 18, "time of the library by time of the reference; " + " ".join(sys.argv[1:]), ' font-size="13" font-weight="bold"')
    for power in range(low, high + 1):
        print('<path d="M %.1f 30 V %d" stroke="%s"/>' % (at(power), tall - 20, "#000" if power == 0 else "#ccc"))
        text(at(power), tall - 6, "%g" % 2.0 ** power, ' text-anchor="middle"')
    for i, (name, ratio) in enumerate(rows):
        y = 34 + HEIGHT * i
        if ratio is None:
            text(10, y + 10, name, ' font-weight="bold"')
            continue
        a, b = sorted((at(0), at(math.log2(ratio))))
        print('<rect x="%.1f" y="%d" width="%.1f" height="%d" fill="#48a"/>' % (a, y, max(b - a, 1), HEIGHT - 5))
        text(LEFT - 8, y + 10, name, ' text-anchor="end"')
        text(b + 4, y + 10, "%.2f" % ratio)
    print("</svg>")


main()
