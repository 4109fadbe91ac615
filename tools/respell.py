#!/usr/bin/env python3
"""Respells the repository's own antt names, once, after /opt/rattle/port/port.py: words and lemmas in snake case, where a dash joins two words.

usage: python3 tools/respell.py        at the top of the repository

tools/respell.txt has the names, old and new. Functions of src/, generated names (those of goals and steps), strings and outputs keep theirs.
"""
import os
import re

WORD = re.compile(r"[A-Za-z0-9_'\-\u2080-\u2089\u03b1-\u03c9]+")
# what a new name would fall together with, renamed first: a lemma, and a local fact
FIRST = {"crates/decimal/proofs/Runs.antt": ("is_digit", "is_digit_lem"), "crates/conversion/proofs/TextSteps.antt": ("is_real", "real_text")}


def read(path):
    with open(path, encoding="utf-8") as f:
        return f.read()


def write(path, text):
    with open(path, "w", encoding="utf-8") as f:
        f.write(text)


def turned(path, text, names):
    of_function = "/proofs/" in path and "/" in path.split("/proofs/")[1]
    aliases = set(re.findall(r"^use .* as ([\w\-]+)", text, re.M)) - {"tie"}

    def one(m):
        name = m.group(0)
        if name not in names or ("-" in name and path.endswith(".rt")):
            return name
        if "-" in name and of_function and text[: m.start()].endswith("."):
            # a step of the walk, unless it stands in a module of ours
            alias = re.search(r"([\w\-]+)\.$", text[: m.start()])
            if not (alias and alias.group(1) in aliases):
                return name
        return names[name]

    return WORD.sub(one, text)


def main():
    here = os.path.dirname(os.path.realpath(__file__))
    names = dict(line.split() for line in read(os.path.join(here, "respell.txt")).splitlines())
    for path, (old, new) in FIRST.items():
        # a file that is respelled already is left
        if os.path.exists(path) and new not in read(path):
            write(path, re.sub(r"(?<![\w.\-])" + old + r"(?![\w\-])", new, read(path)))
    for top, folders, files in os.walk("crates"):
        folders[:] = [f for f in folders if f != "out"]
        for file in files:
            path = os.path.join(top, file)
            if file.endswith((".antt", ".rt", ".edit")):
                text = read(path)
                new = turned(path, text, names)
                if new != text:
                    write(path, new)


if __name__ == "__main__":
    main()
