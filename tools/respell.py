#!/usr/bin/env python3
"""Brings the definitions and lemmas of specs/ and proofs/ to snake case, by the table respell.tsv beside it: crate or *, old name, new name.

usage: python3 tools/respell.py [FOLDER]      FOLDER: the repository, else the one that this script lies in

It was run once, after the kit's own script: on a tree that it has turned it would turn right names again.

In a .antt file every word of the table is turned; in a .rt file only words in camel case, which the code itself has none of, outside strings;
a row for one crate goes before a row for all. Names that a file takes from the library stay."""
import os
import re
import sys

HERE = os.path.dirname(os.path.realpath(__file__))
WORD = re.compile(r"[^\s(){}.,;:\[\]|⌜⌝λ→≡×⊎∷\"`!=?@#\\]+")
STRING = re.compile(r'"(?:[^"\\]|\\.)*"')
CAMEL = re.compile(r"[a-z0-9'][A-Z]")
LIBRARY = re.compile(r"use (?:Rattle\.(?:std|core)|borrow|mathlib|Prim|Lib|logic)[\w.+-]*\.\{([^}]*)\}")


def table():
    rows = {}
    with open(os.path.join(HERE, "respell.tsv"), encoding="utf-8") as f:
        for line in f:
            crate, old, new = line.rstrip("\n").split("\t")
            rows[crate, old] = new
    return rows


def turned(text, crate, rows, code):
    of_library = {name.strip() for names in LIBRARY.findall(text) for name in names.split(",") if " as " not in name}

    def one(m):
        word = m[0]
        if word in of_library or (code and not CAMEL.search(word)):
            return word
        new = rows.get((crate, word), rows.get(("*", word), word))
        # a path's own words and the fields of a step keep their spelling where the row is for a lemma of one crate
        if (crate, word) in rows and m.start() and text[m.start() - 1] == ".":
            return rows.get(("*", word), word)
        return new

    if not code:
        return WORD.sub(one, text)
    out, at = [], 0
    for s in STRING.finditer(text):
        out += [WORD.sub(one, text[at : s.start()]), s[0]]
        at = s.end()
    return "".join(out) + WORD.sub(one, text[at:])


def main():
    root = sys.argv[1] if len(sys.argv) > 1 else os.path.dirname(HERE)
    rows = table()
    changed = 0
    inside = os.path.join(root, "crates")
    for folder, dirs, files in os.walk(inside):
        dirs[:] = [d for d in dirs if d != "out"]
        crate = os.path.relpath(folder, inside).split(os.sep)[0]
        for name in files:
            if not name.endswith((".antt", ".rt")):
                continue
            path = os.path.join(folder, name)
            with open(path, encoding="utf-8") as f:
                text = f.read()
            new = turned(text, crate, rows, name.endswith(".rt"))
            if new != text:
                changed += 1
                with open(path, "w", encoding="utf-8") as f:
                    f.write(new)
    print(f"respell: {changed} files changed")


main()
