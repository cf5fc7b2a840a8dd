#!/usr/bin/env python3
"""Writes an SVG of a terminal's screen, as `tmux capture-pane -e -p` prints it: bench/pictures/screen.py <SCREEN >PICTURE"""
import re
import sys
from xml.sax.saxutils import escape

# The size of a character, and the space around the text.
WIDTH, HEIGHT, MARGIN = 8.4, 20, 16
PAPER, INK = "#f6f8fa", "#24292f"
# What stands for the first sixteen colours of a terminal on light paper.
COLOURS = ["#24292f", "#c4361d", "#0b6b52", "#9a6700", "#0a3fb5", "#8250df", "#1b7c83", "#57606a"] * 2
CODE = re.compile(r"\x1b\[([0-9;]*)m")


def colour(number):
    """One of the 256 colours: of the cube only how blue or red it is counts, so that it is seen on light paper."""
    if number < 16:
        return COLOURS[number]
    if number >= 232:
        return "#8c959f"
    red, blue = (number - 16) // 36, (number - 16) % 6
    return "#0a3fb5" if blue > red else "#9a6700"


def follow(style, codes):
    """What codes make of a style, which is ink, paper, and whether it is underlined."""
    ink, paper, line = style
    codes = iter([int(code or 0) for code in codes.split(";")])
    for code in codes:
        if code == 0:
            ink, paper, line = INK, None, False
        elif code in (4, 24):
            line = code == 4
        elif code in (38, 48):
            next(codes, 0)
            found = colour(next(codes, 0))
            ink, paper = (found, paper) if code == 38 else (ink, None)
        elif code in (39, 49):
            ink, paper = (INK, paper) if code == 39 else (ink, None)
        elif 30 <= code <= 37 or 90 <= code <= 97:
            ink = COLOURS[code % 10]
        elif 40 <= code <= 47 or 100 <= code <= 107:
            paper = "#e7ecf2"
    return ink, paper, line


def draw(x, y, text, style):
    ink, paper, line = style
    wide = len(text) * WIDTH
    if paper:
        print(f'<rect x="{x:.1f}" y="{y - 14}" width="{wide:.1f}" height="{HEIGHT}" fill="{paper}"/>')
    if text.strip():
        under = ' text-decoration="underline"' if line else ""
        print(f'<text x="{x:.1f}" y="{y}" textLength="{wide:.1f}" xml:space="preserve" fill="{ink}"{under}>{escape(text)}</text>')


def main():
    lines = sys.stdin.read().rstrip("\n").split("\n")
    wide = max(len(CODE.sub("", line).rstrip()) for line in lines) * WIDTH + 2 * MARGIN
    high, style = len(lines) * HEIGHT + 2 * MARGIN, (INK, None, False)
    print(f'<svg xmlns="http://www.w3.org/2000/svg" width="{wide:.0f}" height="{high}" font-size="14"')
    print('  font-family="ui-monospace, Menlo, Consolas, DejaVu Sans Mono, monospace">')
    print(f'<rect width="100%" height="100%" rx="6" fill="{PAPER}" stroke="#d0d7de"/>')
    for number, line in enumerate(lines):
        x, y = MARGIN, MARGIN + HEIGHT * number + 14
        for at, part in enumerate(CODE.split(line)):
            if at % 2:
                style = follow(style, part)
            else:
                draw(x, y, part, style)
                x += len(part) * WIDTH
    print("</svg>")


main()
