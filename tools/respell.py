#!/usr/bin/env python3
"""Spells this repository's own definitions and lemmas as today's Rattle does: words in snake case, a dash between two names.

usage: tools/respell.py [ROOT]

It was run once, right after the kit's port.py, on the tree that port.py made. respelled.tsv beside it has a row for each name: old, a tab, new.
It turns whole words of the .antt files of specs/ and proofs/, and of the clauses and comments of the .rt files; strings, and the names of the
files, functions and crates, stay. A row whose new name is the old one and '_lem' is a lemma that had the name that a definition gets: such a
name stays behind a dot and in a path, where it is a crate's or a function's. A second run would turn those again, so run it once.
"""
import os
import re
import sys

HERE = os.path.dirname(os.path.realpath(__file__))
WORD = re.compile(r'[^\s(){}.;,@"«»]+')
PATH = re.compile(r"\buse [\w.+\-]+?\.(?=\{)|\buse [\w.+\-]+")
STRING = re.compile(r'"(?:\\.|[^"\\\n])*"')


def table():
    with open(os.path.join(HERE, "respelled.tsv"), encoding="utf-8") as f:
        return dict(line.rstrip("\n").split("\t") for line in f)


def turned(text, names, rust):
    """The text with each word of the table turned, outside paths of imports and strings."""
    out, at = [], 0
    skip = re.compile(PATH.pattern + "|" + STRING.pattern) if rust else PATH

    def one(m, part):
        word = m[0]
        new = names.get(word)
        if new is None and rust is False and word.rstrip("'`:") != word:
            bare = word.rstrip("'`:")
            return names[bare] + word[len(bare) :] if bare in names else word
        if new is None:
            return word
        lemma = new == word + "_lem"
        if lemma and (rust or part[m.start() - 1 : m.start()] == "."):
            return word
        return new

    for m in skip.finditer(text):
        piece = text[at : m.start()]
        out += [WORD.sub(lambda w: one(w, piece), piece), m[0]]
        at = m.end()
    piece = text[at:]
    return "".join(out) + WORD.sub(lambda w: one(w, piece), piece)


def main(root):
    names = table()
    for folder, dirs, files in os.walk(os.path.join(root, "crates")):
        dirs[:] = sorted(d for d in dirs if d != "out")
        for name in sorted(files):
            rust = name.endswith(".rt")
            if not rust and not name.endswith(".antt"):
                continue
            path = os.path.join(folder, name)
            with open(path, encoding="utf-8") as f:
                old = f.read()
            new = turned(old, names, rust)
            if new != old:
                with open(path, "w", encoding="utf-8") as f:
                    f.write(new)


if __name__ == "__main__":
    main(sys.argv[1] if len(sys.argv) > 1 else os.path.dirname(HERE))
