#!/usr/bin/env python3
"""The plot of docs/MEASUREMENTS.md: for each row that `make bench` prints, a bar for the ratio to the second version and one for the ratio to the fast plain version.

    make -s bench | tools/ratios.py > docs/ratios.svg
"""
import math
import re
import sys

RATIO = r'\s+(?:-|([\d.]+) \(([\d.]+) to ([\d.]+)\))'
ROW = re.compile(r'^(.+?)\s+[\d.]+ ns' + RATIO + RATIO)
VERSIONS = (('the second version', '#4c8c4a'), ('the fast plain version', '#c0603a'))
LEFT, WIDE, BAR, HIGH, TOP, BELOW = 250, 440, 11, 30, 52, 24
LEAST = 0.1


def rows():
    """The name of each row, and for each version the median, the lowest and the highest ratio, or None."""
    for found in filter(None, map(ROW.match, sys.stdin)):
        numbers = [found[n] and float(found[n]) for n in range(2, 8)]
        yield found[1], [numbers[i:i + 3] if numbers[i] else None for i in (0, 3)]


def marks(most):
    """The marks of a scale of powers of ten that reaches the highest ratio."""
    all_marks = [LEAST, 1, 10]
    while all_marks[-1] < most:
        all_marks.append(all_marks[-1] * 10)
    return all_marks


def main():
    drawn = list(rows())
    scale = marks(max(ratio[0] for _, ratios in drawn for ratio in ratios if ratio))

    def across(ratio):
        inside = min(max(ratio, LEAST), scale[-1])
        return LEFT + WIDE * math.log(inside / LEAST) / math.log(scale[-1] / LEAST)
    height = TOP + HIGH * len(drawn) + BELOW
    out = [f'<svg xmlns="http://www.w3.org/2000/svg" width="{LEFT + WIDE + 60}" height="{height}" font-family="sans-serif" font-size="12">',
           '<rect width="100%" height="100%" fill="white"/>',
           '<text x="10" y="16">our time over that of each version (left of 1 we are quicker)</text>']
    x = 10
    for name, fill in VERSIONS:
        out.append(f'<rect x="{x}" y="26" width="{BAR}" height="{BAR}" fill="{fill}"/>')
        out.append(f'<text x="{x + BAR + 5}" y="36">{name}</text>')
        x += 160
    for mark in scale:
        at = across(mark)
        out.append(f'<line x1="{at:.1f}" y1="{TOP - 6}" x2="{at:.1f}" y2="{height - BELOW}" stroke="{"black" if mark == 1 else "#cccccc"}"/>')
        out.append(f'<text x="{at:.1f}" y="{height - 8}" text-anchor="middle">{mark:g}</text>')
    for n, (name, ratios) in enumerate(drawn):
        y = TOP + HIGH * n
        out.append(f'<text x="{LEFT - 10}" y="{y + BAR + 4}" text-anchor="end">{name}</text>')
        for (_, fill), ratio in zip(VERSIONS, ratios):
            if ratio:
                median, low, high = ratio
                from_, to = sorted((across(1), across(median)))
                out.append(f'<rect x="{from_:.1f}" y="{y}" width="{max(to - from_, 1):.1f}" height="{BAR}" fill="{fill}"/>')
                out.append(f'<line x1="{across(low):.1f}" y1="{y + BAR / 2}" x2="{across(high):.1f}" y2="{y + BAR / 2}" stroke="black"/>')
                out.append(f'<text x="{max(to, across(high)) + 5:.1f}" y="{y + BAR - 1}" font-size="11">{median:.2f}</text>')
            y += BAR + 1
    out.append('</svg>')
    print('\n'.join(out))


main()
