#!/usr/bin/env python3
"""Gives the repository's own definitions and lemmas the spelling of today's Rattle, by the table respell.tsv beside this script.

usage: python3 tools/respell.py [ROOT]     once, right after the kit's port.py, at the top of the repository

A definition is in snake case; a dash of a lemma's name stays where it joins two names, and else is `_`; a lemma that would have its
definition's name gets `_lem`. Proofs, specifications and clauses are turned by the kit's snake.py, code spans of
README.md and docs/ too, must-fail edits by this script.
"""

import os
import re
import subprocess
import sys

HERE = os.path.dirname(os.path.realpath(__file__))
TABLE = os.path.join(HERE, "respell.tsv")
# Below the folder of the page that `rt doc` names.
SNAKE = "port/notes/2026-11-18-names-are-in-snake-case/snake.py"
WORD = re.compile(r"[^\s(){}.;,@\"«»]+")


def rows():
    with open(TABLE, encoding="utf-8") as f:
        return dict(line.rstrip("\n").split("\t") for line in f)


def edits(root):
    for crate in sorted(os.listdir(os.path.join(root, "crates"))):
        folder = os.path.join(root, "crates", crate, "must-fail")
        for name in sorted(os.listdir(folder)) if os.path.isdir(folder) else ():
            yield os.path.join(folder, name)


def turned(text, table):
    """An edit of specs/ or of a clause: the table's words, projections written tight, a library's new words."""
    of_specs = re.search(r"(?m)^file: (specs|proofs)/", text) is not None

    def line(m):
        head, body = m[1], m[2]
        if of_specs or head == "#":
            body = WORD.sub(lambda w: table.get(w[0], w[0]), body)
        if of_specs:
            body = re.sub(r"(?<=[\w'₀-₉)]) \.(?=[a-z0-9])", ".", body)
            body = re.sub(r"\((\w+(?:\.\w+)+)\)", r"\1", body)
        return head + body

    return re.sub(r"(?m)^(old:|new:|#)(.*)$", line, text)


def snake():
    """The kit's script that rewrites names by a table."""
    page = subprocess.run(["rt", "doc"], check=True, capture_output=True, text=True).stdout.split()[0]
    return os.path.join(os.path.dirname(page), SNAKE)


def main(root):
    table, script = rows(), snake()
    crates = os.path.join(root, "crates")
    subprocess.run([sys.executable, script, "--table", TABLE, "--skip-behind", "goal,c,w,l,g", crates], check=True, stdout=subprocess.DEVNULL)
    pages = [os.path.join(root, page) for page in ("README.md", "docs")]
    subprocess.run([sys.executable, script, "--table", TABLE, "--only", "md", *pages], check=True, stdout=subprocess.DEVNULL)
    for path in edits(root):
        with open(path, encoding="utf-8") as f:
            old = f.read()
        new = turned(old, table)
        if new != old:
            with open(path, "w", encoding="utf-8") as f:
                f.write(new)


if __name__ == "__main__":
    main(sys.argv[1] if len(sys.argv) > 1 else ".")
