#!/usr/bin/env python3
"""page.py IMAGE..: the board of each image (docs/IMAGE-FORMAT.md, docs/BOARD.md), written from these pages and nothing else."""

import sys
from pathlib import Path

STACKS_ENTRY = 12
SHORT_CONTENTS = 20
FIRST_VARIABLE = 65_528
WIDTHS = [1, 1, 10, 2, 2, 1, 1] + [5] * 8


def page(image):
    """A line for each instance, the stacks in order, the lowest instance first."""
    at = int.from_bytes(image[STACKS_ENTRY : STACKS_ENTRY + 2], "little")
    wide = 2 if image[0] == SHORT_CONTENTS else 4

    def number(size=2):
        nonlocal at
        at += size
        return int.from_bytes(image[at - size : at], "little")

    lines = []
    for stack in range(1, number() + 1):
        heights = number()
        number(wide)
        for height in range(1, heights + 1):
            plan, state, tried, status = number(), number(), number(), "AWS"[number()]
            entries = [number() for _ in range(8)]
            shown = [str(entry) if entry < FIRST_VARIABLE else "-" for entry in entries]
            fields = [stack, height, number(wide), plan, state, tried, status, *shown]
            lines.append(" ".join(str(field).rjust(width) for field, width in zip(fields, WIDTHS, strict=True)) + "\n")
    return "".join(lines)


for name in sys.argv[1:]:
    sys.stdout.write(page(Path(name).read_bytes()))
