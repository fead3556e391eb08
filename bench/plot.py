"""Draws the figures of bench/figures.txt as bars, each picture an SVG under docs/pictures.

    python3 bench/plot.py           draws them
    python3 bench/plot.py --check   compares with the stored pictures, and ends with status 1 if they differ
"""

import os
import sys
from html import escape

sys.dont_write_bytecode = True

from conversations import TOP

LABELS, BARS, VALUES = 340, 380, 90
ROW, HEAD, FOOT = 24, 46, 12
INK, BAR, PAPER = "#1b1f24", "#2f6f9f", "#ffffff"


def pictures(text):
    """For each picture: its file, its title, the unit of its values, and its bars."""
    found = []
    for line in text.splitlines():
        parts = [part.strip() for part in line.lstrip("= ").split("|")]
        if line.startswith("="):
            found.append((*parts, []))
        elif line and not line.startswith("#"):
            found[-1][3].append((parts[0], float(parts[1])))
    return found


def bar(place, label, value, most):
    """One bar, with its label before it and its value after it."""
    y = HEAD + ROW * place
    width = BARS * value / most
    return [
        f'<text x="{LABELS - 8}" y="{y + 15}" text-anchor="end">{escape(label)}</text>',
        f'<rect x="{LABELS}" y="{y + 4}" width="{width:.1f}" height="{ROW - 8}" fill="{BAR}"/>',
        f'<text x="{LABELS + width + 6:.1f}" y="{y + 15}">{value:,g}</text>',
    ]


def drawn(title, unit, bars):
    """The text of the picture."""
    most = max(value for _, value in bars)
    width, height = LABELS + BARS + VALUES, HEAD + ROW * len(bars) + FOOT
    lines = [
        f'<svg xmlns="http://www.w3.org/2000/svg" viewBox="0 0 {width} {height}" width="{width}" height="{height}" '
        f'font-family="sans-serif" font-size="13" fill="{INK}">',
        f'<rect width="{width}" height="{height}" fill="{PAPER}"/>',
        f'<text x="12" y="20" font-weight="bold">{escape(title)}</text>',
        f'<text x="12" y="37">{escape(unit)}</text>',
    ]
    for place, (label, value) in enumerate(bars):
        lines += bar(place, label, value, most)
    return "\n".join([*lines, "</svg>", ""])


def main(words):
    with open(os.path.join(TOP, "bench/figures.txt"), encoding="utf-8") as file:
        found = pictures(file.read())
    status = 0
    for name, title, unit, bars in found:
        path, text = os.path.join(TOP, "docs/pictures", name), drawn(title, unit, bars)
        if words == ["--check"]:
            with open(path, encoding="utf-8") as file:
                status |= file.read() != text
        else:
            os.makedirs(os.path.dirname(path), exist_ok=True)
            with open(path, "w", encoding="utf-8") as file:
                file.write(text)
    return int(status)


if __name__ == "__main__":
    sys.exit(main(sys.argv[1:]))
