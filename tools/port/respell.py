#!/usr/bin/env python3
"""Brings the repository's own definitions and lemmas to today's spelling, by names.tsv beside this file: old name, tab, new name.

usage: respell.py [TOP]     once, over a tree that port.py has turned

Words of the specifications are in snake case; in a lemma's name a dash joins two names and an underscore adds a plain word. Whole names
alone turn: in specs/ and proofs/, in clauses, `ghost use` items and comments of src/, in must-fail edits, and in code spans of the documents.
"""
import os
import re
import sys

HERE = os.path.dirname(os.path.realpath(__file__))
TOKEN = re.compile(r"""[^\s(){}\[\].;,@"«»`]+""")
SPAN = re.compile(r"`[^`\n]+`")
STRING = re.compile(r'"(?:\\.|[^"\\\n])*"')


def table():
    with open(os.path.join(HERE, "names.tsv"), encoding="utf-8") as f:
        return dict(line.rstrip("\n").split("\t") for line in f)


def turned(text, names):
    return TOKEN.sub(lambda m: names.get(m.group(), m.group()), text)


def outside_strings(text, names):
    parts, at = [], 0
    for m in STRING.finditer(text):
        parts += [turned(text[at : m.start()], names), m.group()]
        at = m.end()
    return "".join(parts) + turned(text[at:], names)


def main(top):
    names = table()
    for folder, dirs, files in os.walk(top):
        dirs[:] = [d for d in dirs if d not in (".git", "out", "target")]
        for name in files:
            path = os.path.join(folder, name)
            inside = os.path.relpath(path, top).startswith("crates" + os.sep)
            if inside and name.endswith((".antt", ".edit")):
                turn = turned
            elif inside and name.endswith(".rt"):
                turn = outside_strings
            elif name.endswith(".md") and not name.startswith("PORT"):
                turn = lambda text, names: SPAN.sub(lambda m: turned(m.group(), names), text)
            else:
                continue
            with open(path, encoding="utf-8") as f:
                old = f.read()
            new = turn(old, names)
            if new != old:
                with open(path, "w", encoding="utf-8") as f:
                    f.write(new)


main(sys.argv[1] if len(sys.argv) > 1 else os.path.join(HERE, "..", ".."))
