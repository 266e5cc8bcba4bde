#!/usr/bin/env python3
"""Builds a library's bytes (docs/LIBRARY-FORMAT.md) from its text, library.txt; README.md beside this file has the text's form.

    make.py [FOLDER..]            writes FOLDER/library from FOLDER/library.txt
    make.py --check [FOLDER..]    says whether FOLDER/library is what FOLDER/library.txt builds
Without folders: every folder of tests/journals, tests/endings and examples that has a library.txt.
"""

import re
import sys
from pathlib import Path

FIRST_VARIABLE = 65_528
NEGATIVE = 32_768
MARK = 16  # for each variable up to the one whose least value decides, added to a trigger kind
TRIGGERS = ["added", "removed", "told", "achieve", "query"]
ACTIONS = ["add", "remove"]
BRANCHES = ["add", "remove", "do", "achieve", "query", "divide"]
VARIABLES = 8
SITUATIONS = {"if": "context", "while": "maintenance"}
LISTS = ["success", "failure"]
PLACES = ["tests/journals", "tests/endings", "examples"]


class Wrong(Exception):
    """A line of the text that says nothing."""


# ---- Numbers and literals


def number(value):
    """A number of 16 bits, low byte first."""
    if not 0 <= value <= 65_535:
        raise Wrong(f"{value} is not in 0..65535")
    return value.to_bytes(2, "little")


def numbers(*values):
    return b"".join(number(value) for value in values)


def listed(items):
    """How many items, then the items."""
    return number(len(items)) + b"".join(items)


def constant(word):
    if not re.fullmatch(r"[0-9]+", word):
        raise Wrong(f"{word!r} is no number")
    return int(word)


def index(word, words):
    if word not in words:
        raise Wrong(f"{word!r} is none of {', '.join(words)}")
    return words.index(word)


def variable(word):
    if not re.fullmatch(r"V[0-7]", word):
        raise Wrong(f"{word!r} is no variable")
    return int(word[1])


def term(word):
    return FIRST_VARIABLE + variable(word) if word.startswith("V") else constant(word)


def division(words):
    """LENGTH by PANEL into Vq rest Vr, as a literal: q + 8 r in place of its predicate."""
    if len(words) != 7 or words[1::2] != ["by", "into", "rest"]:
        raise Wrong(f"{' '.join(words)!r} is no division")
    panels, offcut = variable(words[4]), variable(words[6])
    return numbers(panels + VARIABLES * offcut, term(words[0]), term(words[2]), 0)


# ---- The text


class Plan:
    """A plan's parts as they are read."""

    def __init__(self):
        self.kind = None
        self.mark = 0
        self.trigger = None
        self.context = None
        self.maintenance = None
        self.success = []
        self.failure = []
        self.states = []

    def encoded(self):
        for part in ("kind", "context", "maintenance"):
            if getattr(self, part) is None:
                raise Wrong(f"a plan without its {part}")
        states = listed([listed(branches) for branches in self.states])
        trigger = number(self.kind + self.mark) + self.trigger
        return trigger + listed(self.context) + listed(self.maintenance) + listed(self.success) + listed(self.failure) + states


class Text:
    """A library's text, read line by line."""

    def __init__(self):
        self.predicates = {}
        self.beliefs = []
        self.plans = []
        self.edits = []

    def line(self, words):
        head, rest = words[0], words[1:]
        if head == "predicate":
            self.name(rest)
        elif head == "belief":
            self.beliefs += self.literals(rest)
        elif head == "plan":
            self.plans.append(Plan())
        elif head in ("set", "append", "length"):
            self.edits.append((head, [constant(word) for word in rest]))
        elif self.plans:
            self.part(self.plans[-1], head, rest)
        else:
            raise Wrong(f"{head!r} stands outside a plan")

    def name(self, words):
        if len(words) != 2 or not re.fullmatch(r"[a-z][a-z-]*", words[0]):
            raise Wrong("a predicate has a name and a number")
        self.predicates[words[0]] = constant(words[1])

    def part(self, plan, head, words):
        """One line of a plan."""
        if head == "when":
            plan.kind, plan.trigger = index(words[0], TRIGGERS), self.literal(words[1:])
        elif head == "least" and len(words) == 1:
            plan.mark = MARK * (variable(words[0]) + 1)
        elif head in SITUATIONS:
            self.alternative(plan, SITUATIONS[head], words)
        elif head == "on" and words[0] in LISTS:
            getattr(plan, words[0]).append(number(index(words[1], ACTIONS)) + self.literal(words[2:]))
        elif head == "state":
            if words != [str(len(plan.states))]:
                raise Wrong(f"state {len(plan.states)} comes next")
            plan.states.append([])
        elif plan.states and words[-2:-1] == ["then"]:
            kind = number(index(head, BRANCHES))
            literal = division(words[:-2]) if head == "divide" else self.literal(words[:-2])
            plan.states[-1].append(kind + literal + number(constant(words[-1])))
        else:
            raise Wrong(f"{head!r} is no part of a plan")

    def alternative(self, plan, part, words):
        if getattr(plan, part) is None:
            setattr(plan, part, [])
        if words == ["always"]:
            getattr(plan, part).append(listed([]))
        elif words != ["never"]:
            getattr(plan, part).append(listed(self.literals(words)))

    def literals(self, words):
        return [self.literal(part.split()) for part in " ".join(words).split(",")]

    def literal(self, words):
        """A sign with a predicate, by number or name, and up to three terms."""
        if not 1 <= len(words) <= 4 or words[0][0] not in "+-":
            raise Wrong(f"{' '.join(words)!r} is no literal")
        name = words[0][1:]
        predicate = self.predicates[name] if name in self.predicates else constant(name)
        if predicate >= NEGATIVE:
            raise Wrong(f"predicate {predicate} is over 32767")
        sign = NEGATIVE if words[0][0] == "-" else 0
        terms = [term(word) for word in words[1:]]
        return numbers(predicate + sign, *terms, *[0] * (3 - len(terms)))

    def encoded(self):
        plans = [plan.encoded() for plan in self.plans]
        at = 4 + 4 * len(plans) + 8 * len(self.beliefs)
        library = numbers(len(plans), len(self.beliefs))
        for plan in plans:
            library += numbers(at, len(plan))
            at += len(plan)
        return edited(bytearray(library + b"".join(self.beliefs + plans)), self.edits)


def edited(library, edits):
    """The library after the edits that damage it."""
    for head, values in edits:
        if head == "set":
            library[values[0] : values[0] + len(values) - 1] = bytes(values[1:])
        elif head == "append":
            library += bytes(values)
        else:
            library = library[: values[0]].ljust(values[0], b"\0")
    return bytes(library)


def build(source):
    """The bytes of a text; ends the run at a line that says nothing."""
    text = Text()
    place = 0
    try:
        for place, line in enumerate(source.read_text().splitlines(), 1):
            words = line.split("#")[0].split()
            if words:
                text.line(words)
        return text.encoded()
    except (Wrong, IndexError, ValueError) as error:
        sys.exit(f"{source}:{place}: {error}")


# ---- The folders


def folders():
    root = Path(__file__).resolve().parents[2]
    return sorted(source.parent for place in PLACES for source in root.glob(f"{place}/*/library.txt"))


def main(words):
    check = words[:1] == ["--check"]
    chosen = [Path(word) for word in words[check:]] or folders()
    for folder in chosen:
        library = folder / "library"
        built = build(folder / "library.txt")
        if not check:
            library.write_bytes(built)
        elif not library.exists() or library.read_bytes() != built:
            sys.exit(f"{folder.name}: library is not what library.txt builds")
    print(f"{len(chosen)} libraries {'agree with' if check else 'built from'} their text")


main(sys.argv[1:])
