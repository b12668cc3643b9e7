#!/usr/bin/env python3
"""Brings the repository's own definitions and lemmas to today's spelling, once, after port.py.

usage: python3 tools/respell.py        at the top of the repository

tools/respell.txt has a line for each name: old new. Words are joined by an underscore; a dash joins two names in a law
about the one of the other, as in length-book_of. Of two names that would fall together the lemma ends in _lem.
Functions of src/, exported C names, strings, inputs and outputs keep their names.
"""
import os
import re
import sys

HERE = os.path.dirname(os.path.realpath(__file__))
LETTER = r"A-Za-z0-9_'₀-₉ℕℤ"
NAME = re.compile(rf"(?<![{LETTER}-])[a-z][{LETTER}]*(?:-[{LETTER}]+)*")
CAMEL = re.compile(r"[a-z0-9][A-Z]")


def table():
    with open(os.path.join(HERE, "respell.txt"), encoding="utf-8") as f:
        return dict(line.split() for line in f if line.strip())


def respelled(text, names):
    return NAME.sub(lambda m: names.get(m.group(0), m.group(0)), text)


def source(text, names):
    """Of a source file the imports, clauses and comments: no name of the program is in camel case."""
    camel = {old: new for old, new in names.items() if CAMEL.search(old)}
    lines = []
    for line in text.split("\n"):
        lines.append(respelled(line, names if line.startswith("ghost use ") else camel))
    return "\n".join(lines)


def main():
    names = table()
    changed = 0
    for folder, folders, files in os.walk(os.path.join(os.path.dirname(HERE), "crates")):
        folders[:] = sorted(f for f in folders if f != "out")
        for name in sorted(files):
            path = os.path.join(folder, name)
            if not name.endswith((".rt", ".antt")):
                continue
            with open(path, encoding="utf-8") as f:
                text = f.read()
            new = source(text, names) if name.endswith(".rt") else respelled(text, names)
            if new != text:
                changed += 1
                with open(path, "w", encoding="utf-8") as f:
                    f.write(new)
    print(f"respell: {changed} files changed")
    return 0


sys.exit(main())
