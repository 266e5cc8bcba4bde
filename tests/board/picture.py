#!/usr/bin/env python3
"""picture.py PAGE: a board as a drawing (docs/board.svg): a heading above each field, and a band for each stack."""

import sys
from pathlib import Path

WIDTHS = [1, 1, 10, 2, 2, 1, 1] + [5] * 8
NAMES = ["stack", "height", "id", "plan", "state", "tried", "status"] + [f"V{variable}" for variable in range(8)]
COLUMNS = 72
COLUMN, ROW = 10, 20
LEFT, TOP, MARGIN = 16, 74, 12
STATUS = {"A": "#1a7f37", "W": "#9a6700", "S": "#57606a"}
BANDS = ["#ffffff", "#eef3f8"]


def ends():
    """The last column of each field, from 1."""
    last = -1
    for width in WIDTHS:
        last += width + 1
        yield last


def heading(name, last):
    """A field's name, slanted, above its last column."""
    x = LEFT + last * COLUMN - COLUMN // 2
    return f'<text transform="translate({x} {TOP - 8}) rotate(-50)" class="name">{name}</text>'


def row(place, line):
    """A line of the board: its band, and each field at the right of its columns."""
    y = TOP + place * ROW
    band = BANDS[int(line[0]) % 2]
    yield f'<rect x="{LEFT - 6}" y="{y}" width="{COLUMNS * COLUMN + 12}" height="{ROW}" fill="{band}"/>'
    for name, width, last in zip(NAMES, WIDTHS, ends(), strict=True):
        text = line[last - width : last].strip()
        colour = f' style="fill: {STATUS[text]}; font-weight: bold"' if name == "status" else ""
        size = len(text) * COLUMN
        x = LEFT + last * COLUMN - size
        yield f'<text x="{x}" y="{y + 15}" textLength="{size}"{colour}>{text}</text>'


def picture(lines):
    """The whole drawing."""
    width, height = LEFT * 2 + COLUMNS * COLUMN + 20, TOP + ROW * len(lines) + MARGIN
    yield f'<svg xmlns="http://www.w3.org/2000/svg" width="{width}" height="{height}" viewBox="0 0 {width} {height}">'
    yield "<style>text { font: 15px monospace; fill: #1f2328 } .name { font: 12px sans-serif; fill: #57606a }</style>"
    yield f'<rect width="{width}" height="{height}" fill="#ffffff"/>'
    for name, last in zip(NAMES, ends(), strict=True):
        yield heading(name, last)
    for place, line in enumerate(lines):
        yield from row(place, line)
    yield "</svg>"


for drawn in picture(Path(sys.argv[1]).read_text(encoding="ascii").splitlines()):
    print(drawn)
