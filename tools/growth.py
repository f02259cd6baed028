"""The plot of growth: instructions a line of gczone beside plain Rust, at two scales, from docs/PERFORMANCE.md."""

import math
import re

from trace_model import TOP

# family, scale, lines, gczone, .., plain Rust, ratio: other columns may stand between.
ROW = re.compile(r"\| (\w+) \| (0\.\d+) \| [\d,]+ \| .*\| ([\d.]+) \|$")
LEFT, WIDTH, ROW_HEIGHT, HEAD = 96, 520, 18, 48
MARKS = (1, 1.5, 2, 3, 5, 10, 20, 50, 100, 200, 500, 1000)


def ratios():
    """For each family the ratios at its scales, the small one first."""
    found = {}
    for line in (TOP / "docs/PERFORMANCE.md").read_text().splitlines():
        row = ROW.match(line)
        if row:
            found.setdefault(row[1], []).append(float(row[3]))
    return found


def growth():
    """The plot as SVG: a dot for the small scale, a ring for the large one, and a line between them."""
    found = ratios()
    most = max(ratio for both in found.values() for ratio in both)
    top = next((mark for mark in MARKS if mark >= most), most)

    def x(ratio):
        return round(LEFT + WIDTH * math.log(ratio) / math.log(top), 1)

    height = HEAD + ROW_HEIGHT * len(found) + 12
    parts = [
        f'<svg xmlns="http://www.w3.org/2000/svg" width="{LEFT + WIDTH + 60}" height="{height}"',
        ' font-family="sans-serif" font-size="11">',
        f'<rect width="{LEFT + WIDTH + 60}" height="{height}" fill="white"/>',
        '<text x="8" y="14">instructions a line, gczone to plain Rust: dot at scale 0.02, ring at scale 0.32</text>',
    ]
    for mark in (mark for mark in MARKS if mark <= top):
        parts.append(f'<line x1="{x(mark)}" y1="{HEAD - 8}" x2="{x(mark)}" y2="{height - 8}" stroke="#dddddd"/>')
        parts.append(f'<text x="{x(mark)}" y="{HEAD - 14}" text-anchor="middle" fill="#606060">{mark}</text>')
    for at, (family, both) in enumerate(found.items()):
        y = HEAD + at * ROW_HEIGHT + 6
        parts.append(f'<text x="8" y="{y + 4}">{family}</text>')
        ends = f'x1="{x(both[0])}" y1="{y}" x2="{x(both[-1])}" y2="{y}"'
        parts.append(f'<line {ends} stroke="#a04000" stroke-width="2"/>')
        parts.append(f'<circle cx="{x(both[0])}" cy="{y}" r="4" fill="#202020"/>')
        if both[1:]:
            parts.append(f'<circle cx="{x(both[1])}" cy="{y}" r="4" fill="white" stroke="#202020" stroke-width="1.5"/>')
    return "\n".join([*parts, "</svg>", ""])
