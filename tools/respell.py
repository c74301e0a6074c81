#!/usr/bin/env python3
"""Spells the repository's own definitions and lemmas as the library does, by the table beside this file.

usage: python3 tools/respell.py     at the top of a repository that the kit's own script has turned

Words of a name are joined by `_`, two names by `-`, and a type is in camel case. Each whole name is replaced in .antt and .rt
files, in the edits below must-fail/, and between backticks in pages. Run twice, it changes nothing more.
"""
import os
import re

HERE = os.path.dirname(os.path.realpath(__file__))
ROOT = os.path.dirname(HERE)
NAME = re.compile(r"[^\s(){}\[\],;.`\"«»λ]+")
QUOTED = re.compile(r"`[^`\n]*`")


def table():
    with open(os.path.join(HERE, "respelled.tsv"), encoding="utf-8") as f:
        return dict(line.rstrip("\n").split("\t") for line in f)


def files():
    for folder, dirs, names in os.walk(ROOT):
        dirs[:] = sorted(d for d in dirs if d not in ("out", ".git", "tools"))
        for name in sorted(names):
            if name.endswith((".antt", ".rt", ".edit", ".md")):
                yield os.path.join(folder, name)


def main():
    new = table()

    def words(text):
        return NAME.sub(lambda m: new.get(m.group(), m.group()), text)

    for path in files():
        with open(path, encoding="utf-8") as f:
            old = f.read()
        if path.endswith(".md"):
            text = QUOTED.sub(lambda m: words(m.group()), old)
        else:
            text = words(old)
        if text != old:
            with open(path, "w", encoding="utf-8") as f:
                f.write(text)


main()
