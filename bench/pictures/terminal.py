#!/usr/bin/env python3
"""Writes an SVG of a terminal with the lines of standard input: bench/pictures/terminal.py <LINES >PICTURE"""
import sys
from xml.sax.saxutils import escape

# The size of a character, and the space around the text.
WIDTH, HEIGHT, MARGIN = 8.4, 20, 16


def colour(line):
    if line.startswith("error"):
        return "#c4361d"
    return "#0b6b52" if set(line.split("|", 1)[-1].strip()[:1]) & set("^-") else "#24292f"


def main():
    lines = sys.stdin.read().rstrip("\n").split("\n")
    wide, high = max(map(len, lines)) * WIDTH + 2 * MARGIN, len(lines) * HEIGHT + 2 * MARGIN
    print(f'<svg xmlns="http://www.w3.org/2000/svg" width="{wide:.0f}" height="{high}" font-size="14"')
    print('  font-family="ui-monospace, Menlo, Consolas, DejaVu Sans Mono, monospace">')
    print('<rect width="100%" height="100%" rx="6" fill="#f6f8fa" stroke="#d0d7de"/>')
    for number, line in enumerate(lines):
        y = MARGIN + HEIGHT * number + 14
        print(f'<text x="{MARGIN}" y="{y}" xml:space="preserve" fill="{colour(line)}">{escape(line)}</text>')
    print("</svg>")


main()
