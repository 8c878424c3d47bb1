#!/usr/bin/env python3
"""Respells names of definitions and lemmas by the table respell.tsv beside this file: words in snake case.

usage: python3 tools/respell.py        once, at the top of the repository, after the toolchain's own script

It turns whole names alone: everywhere in .antt files, and in .rt files in `ghost use` items and in clauses. A name behind
`goal.`, `c.` or `w.` is one that the check makes, and stays. Names of functions in src/ stay.
"""
import os
import re

HERE = os.path.dirname(os.path.realpath(__file__))
NAME = re.compile(r"[^\s(){}.;,@\"«»:\[\]|]+")
CLAUSE = re.compile(r"ghost\s+use\b[^;]*;|\b(?:requires|ensures|ghost)\b\*?\s*\w*\s*[:=]?\s*\{")


def table():
    with open(os.path.join(HERE, "respell.tsv"), encoding="utf-8") as f:
        return dict(line.rstrip("\n").split("\t") for line in f)


def turn(text, rows):
    def one(m):
        before = text[: m.start()]
        if re.search(r"(?<![\w'.])(?:goal|c|w)(?:\.[^\s(){}]+)?\.$", before[-80:]):
            return m[0]
        return rows.get(m[0], m[0])

    turned = NAME.sub(one, text)
    # `x as x` says nothing
    return re.sub(r"(?<![^\s{,])(\w+) as \1(?=[,}\s])", r"\1", turned)


def clause_end(text, at):
    depth = 0
    for i in range(at, len(text)):
        depth += {"{": 1, "}": -1}.get(text[i], 0)
        if depth == 0:
            return i + 1
    return len(text)


def turn_source(text, rows):
    out, at = [], 0
    while m := CLAUSE.search(text, at):
        end = clause_end(text, m.end() - 1) if m[0].endswith("{") else m.end()
        out += [text[at : m.start()], turn(text[m.start() : end], rows)]
        at = end
    return "".join(out) + text[at:]


def main():
    rows = table()
    for folder, dirs, files in os.walk("crates"):
        dirs[:] = sorted(d for d in dirs if d != "out")
        for f in sorted(files):
            if not f.endswith((".rt", ".antt")):
                continue
            path = os.path.join(folder, f)
            with open(path, encoding="utf-8") as it:
                old = it.read()
            new = turn(old, rows) if f.endswith(".antt") else turn_source(old, rows)
            if new != old:
                with open(path, "w", encoding="utf-8") as it:
                    it.write(new)


main()
