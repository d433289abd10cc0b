#!/usr/bin/env python3
"""Brings the definitions and lemmas of crates/ to the spelling that Rattle's library has: words in snake case, a dash only between two names.

usage: python3 tools/port/respell.py [FOLDER]

Run once at the top of the repository (or on the FOLDER that is one), right after the kit's port.py. tools/port/names.txt, beside this file, has the
old and the new name in each line. Every place of a file of specs/, proofs/ or src/ that has the old name as a whole word gets the new one, all in one
pass, so that a new name which is also an old one is not turned twice. In a function's Proof.antt a word with dashes behind a point is Rattle's own and stays.
"""
import os
import re
import sys

WORD = re.compile(r"\.?[^\s(){}\[\],.;:=λ`\"]+")


def names(path):
    with open(path, encoding="utf-8") as f:
        return dict(line.split() for line in f if line.strip())


def turned(text, table, hand_made):
    def one(match):
        word = match.group(0)
        dot, name = (".", word[1:]) if word.startswith(".") else ("", word)
        if dot and hand_made and "-" in name:
            return word
        return dot + table.get(name, name)

    return WORD.sub(one, text)


def main(root):
    table = names(os.path.join(os.path.dirname(os.path.realpath(__file__)), "names.txt"))
    changed = 0
    for folder, dirs, files in os.walk(os.path.join(root, "crates")):
        dirs[:] = [d for d in dirs if d != "out"]
        for name in files:
            if not name.endswith((".antt", ".rt")):
                continue
            path = os.path.join(folder, name)
            with open(path, encoding="utf-8") as f:
                text = f.read()
            new = turned(text, table, name == "Proof.antt")
            if new != text:
                changed += 1
                with open(path, "w", encoding="utf-8") as f:
                    f.write(new)
    print(f"respell: {len(table)} names, {changed} files")


if __name__ == "__main__":
    main(sys.argv[1] if len(sys.argv) > 1 else ".")
