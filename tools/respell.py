#!/usr/bin/env python3
"""Brings the names of this repository's own definitions, fields and lemmas to Rattle's spelling: snake case, a dash between two names.

usage: tools/respell.py [FOLDER]    over crates/ (specs, proofs, clauses, must-fail edits) and the pages of the folder, in place.
Types, facts and modules (upper camel case), functions of src/, strings and exported names stay. A lemma whose name would fall together
with that of its function gets `_lem`.
"""

import os
import re
import sys

CAMEL = re.compile(r"(?<![A-Za-z0-9_'\u00b7])[a-z][a-z0-9]*[A-Z][A-Za-z0-9]*(?![A-Za-z0-9])")
# Variables of a proof, a letter with a mark.
VARIABLES = {"hF", "hO", "hR"}
# Lemmas about a definition whose name, in snake case, they have already: (crate, lemma).
LEMMAS = [
    ("text", "true_text"),
    ("text", "one_line"),
    ("text", "one_form"),
    ("text", "header_of"),
    ("circuits", "of_node"),
]


def snake(m):
    word = m[0]
    if word in VARIABLES:
        return word
    if word.startswith("getD"):
        word = "get_or" + word[4:]
    # A fact keeps its capital within the name of a lemma.
    before = m.string[m.start() - 1] if m.start() else ""
    if word == "isTerm" and before == "-":
        return "IsTerm"
    return re.sub(r"(?<=[a-z0-9])[A-Z]", lambda c: "_" + c[0].lower(), word)


def turned(text, path):
    crate = re.search(r"crates/(\w+)/", path)
    for name, lemma in LEMMAS:
        if crate and crate[1] == name and path.endswith(".antt"):
            text = re.sub(r"(?<![\w'.-])" + lemma + r"(?![\w'-])", lemma + "_lem", text)
    return CAMEL.sub(snake, text)


def main():
    root = sys.argv[1] if len(sys.argv) > 1 else "."
    paths = [os.path.join(root, "README.md")]
    for top in ("crates", "docs"):
        for folder, dirs, files in os.walk(os.path.join(root, top)):
            dirs[:] = [d for d in dirs if d != "out"]
            paths += [os.path.join(folder, f) for f in files if f.endswith((".antt", ".rt", ".edit", ".md"))]
    for path in sorted(paths):
        with open(path, encoding="utf-8") as f:
            old = f.read()
        new = turned(old, path)
        if new != old:
            with open(path, "w", encoding="utf-8") as f:
                f.write(new)


main()
