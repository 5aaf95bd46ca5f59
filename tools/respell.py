#!/usr/bin/env python3
"""Spells the repository's own definitions and lemmas as Rattle's style asks: snake case, and a dash only between two names.

usage: python3 tools/respell.py     at the top of the repository, once, after port.py

The names stand in tools/respell.tsv, old and new. They are replaced in specs/, proofs/, the clauses of src/ and the must-fail edits.
"""
import os
import re

HERE = os.path.dirname(os.path.abspath(__file__))
# A name goes from one space, bracket or mark to the next, so "put-all" is not found in "put-all-next".
WORD = re.compile(r"[^\s(){}\[\];.,@\"`|:⌜⌝&*!]+")


def main():
    with open(os.path.join(HERE, "respell.tsv"), encoding="utf-8") as f:
        names = dict(line.rstrip("\n").split("\t") for line in f)
    for folder, dirs, files in os.walk("crates"):
        dirs[:] = [d for d in dirs if d != "out"]
        for name in files:
            if not name.endswith((".antt", ".rt", ".edit")):
                continue
            path = os.path.join(folder, name)
            with open(path, encoding="utf-8") as f:
                text = f.read()
            new = WORD.sub(lambda m: names.get(m.group(), m.group()), text)
            if new != text:
                with open(path, "w", encoding="utf-8") as f:
                    f.write(new)


if __name__ == "__main__":
    main()
