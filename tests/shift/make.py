#!/usr/bin/env python3
"""Builds an image's bytes (docs/IMAGE-FORMAT.md) from its text, NAME.txt; README.md beside this file has the text's form.

    make.py            writes each image of tests/shift
    make.py --check    says whether each image is what its text builds
"""

import sys
from pathlib import Path

FIRST_VARIABLE = 65_528
VARIABLES = 8
NEGATIVE = 32_768
KINDS = ["added", "removed", "told", "achieve", "query"]
STATUSES = ["active", "waiting", "suspended"]
EXTERNAL, GOAL = 0, 1
FAILED_BYTES = 4
# How many bytes the number of an event or an instance has, in the newest form and in the older one.
WIDE, NARROW = 4, 2
PLACE = Path(__file__).parent


def numbers(*values):
    """Numbers of 16 bits, low byte first."""
    return b"".join(int(value).to_bytes(2, "little") for value in values)


def listed(items):
    """How many items, then the items."""
    return numbers(len(items)) + b"".join(items)


def literal(words):
    """A sign with a predicate, and three terms."""
    head = int(words[0][1:]) + (NEGATIVE if words[0][0] == "-" else 0)
    return numbers(head, *words[1:])


def event(number, origin, words):
    """Its number, in bytes, where it comes from, its kind and literal, and the plans that have failed for it."""
    failed = sum(1 << int(plan) for plan in words[6:])
    return numbers(*origin, KINDS.index(words[0])) + literal(words[1:5]) + failed.to_bytes(FAILED_BYTES, "little") + number


def instance(number, words):
    """Its id, in bytes, plan, state, how many branches were tried, its status, and the values of its first variables."""
    bound = words[4:]
    unbound = range(FIRST_VARIABLE + len(bound), FIRST_VARIABLE + VARIABLES)
    return numbers(*words[:3], STATUSES.index(words[3]), *bound, *unbound) + number


class Text:
    """An image's text, read line by line."""

    def __init__(self):
        self.library, self.counts = b"", b""
        self.width = WIDE
        self.beliefs, self.events, self.stacks = [], [], []
        self.edits = []

    def number(self, word):
        """The number of an event or an instance, or a count of them, low byte first."""
        return int(word).to_bytes(self.width, "little")

    def line(self, head, words):
        if head == "older":
            self.width = NARROW
        elif head == "library":
            self.library = (PLACE.parent / "journals" / words[0] / "library").read_bytes()
        elif head == "belief":
            self.beliefs.append(literal(words))
        elif head == "event":
            self.events.append(event(self.number(words[0]), (EXTERNAL, 0, 0), words[1:]))
        elif head == "goal":
            self.events.append(event(self.number(words[0]), (GOAL, words[1], words[2]), words[3:]))
        elif head == "stack":
            self.stacks.append((self.number(words[0]), []))
        elif head == "instance":
            self.stacks[-1][1].append(instance(self.number(words[0]), words[1:]))
        elif head == "counts":
            self.counts = b"".join(map(self.number, words))
        elif head in ("set", "length"):
            self.edits.append((head, [int(word) for word in words]))
        else:
            raise ValueError(f"{head!r} says nothing")

    def encoded(self):
        stacks = [numbers(len(instances)) + external + b"".join(instances) for external, instances in self.stacks]
        bodies = [self.library, listed(self.beliefs), listed(self.events), listed(stacks), self.counts]
        if self.width == WIDE:
            bodies.append(numbers(8 * WIDE))
        at, contents = 4 * len(bodies), b""
        for body in bodies:
            contents += numbers(at, len(body))
            at += len(body)
        image = contents + b"".join(bodies)
        for head, values in self.edits:
            if head == "set":
                image = image[: values[0]] + bytes(values[1:]) + image[values[0] + len(values) - 1 :]
            else:
                image = image[: values[0]].ljust(values[0], b"\0")
        return image


def built(path):
    text = Text()
    for place, line in enumerate(path.read_text().splitlines(), 1):
        words = line.split("#")[0].split()
        try:
            if words:
                text.line(words[0], words[1:])
        except (ValueError, IndexError) as wrong:
            sys.exit(f"{path}:{place}: {wrong}")
    return text.encoded()


def main():
    paths = sorted(PLACE.glob("*/*.txt"))
    for path in paths:
        image = path.with_suffix("")
        if sys.argv[1:] != ["--check"]:
            image.write_bytes(built(path))
        elif image.read_bytes() != built(path):
            sys.exit(f"{image} is not what {path} builds")
    print(f"{len(paths)} images agree with their text" if sys.argv[1:] else f"{len(paths)} images written")


main()
