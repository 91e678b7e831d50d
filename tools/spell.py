#!/usr/bin/env python3
"""Brings this repository's own definitions and lemmas to the spelling of today's kit: words in snake case, no dash in a name of ours.

usage: python3 tools/spell.py      at the top of a checkout that port.py of the kit has turned, once

It reads the rows of tools/spellings.tsv (old, a tab, new), and turns whole names alone:
  crates/**/*.antt   the code and the comments' code spans; in proofs/F/ a name with a dash turns only where the file imports it or has it
                     behind a dot, since goals and steps have dashes too
  crates/**/*.rt     names in camel case (the code of Rust has none)
  docs, README       code spans, of names in camel case or with a dash
Functions of src/, exported names, strings, inputs and outputs have none of these names. A row whose new name ends in _lem is a lemma
whose name would have fallen together with its definition's.
"""
import os
import re

HERE = os.path.dirname(os.path.realpath(__file__))
ROWS = dict(line.rstrip("\n").split("\t") for line in open(os.path.join(HERE, "spellings.tsv"), encoding="utf-8"))
NAME = re.compile(r'[^\s(){}.;,@"«»`]+')
SPAN = re.compile(r"`[^`\n]*`")
IMPORT = re.compile(r"^\s*(?:pub )?use [^\n{]*\{([^}]*)\}", re.M)
CAMEL = re.compile(r"\b[a-z][a-z0-9_]*[A-Z]\w*")


def turn(text, may):
    def one(m):
        w = m.group(0)
        if w not in ROWS or not may(w, text[: m.start()][-5:]):
            # a name of ours behind the minus or the prime of nothing else stays as it is
            return w
        return ROWS[w]

    return NAME.sub(one, text)


def antt(text, by_function):
    imported = set()
    for m in IMPORT.finditer(text):
        imported |= set(NAME.findall(m.group(1)))

    def may(w, before):
        if before.endswith(("tie.", "goal.")):
            return False
        return "-" not in w or not by_function or w in imported or before.endswith(".")

    out = []
    for line in text.split("\n"):
        m = re.search(r"(^|(?<=\s))--(?!-)", line)
        code, said = (line[: m.start()], line[m.start() :]) if m else (line, "")
        said = SPAN.sub(lambda s: turn(s.group(0), lambda w, b: True), said)
        said = CAMEL.sub(lambda s: ROWS.get(s.group(0), s.group(0)), said)
        out.append(turn(code, may) + said)
    return "\n".join(out)


def rt(text):
    return CAMEL.sub(lambda m: ROWS.get(m.group(0), m.group(0)), text)


def page(text):
    return SPAN.sub(lambda s: turn(s.group(0), lambda w, b: True), text)


def rewrite(path, by):
    with open(path, encoding="utf-8") as f:
        old = f.read()
    new = by(old)
    if new != old:
        with open(path, "w", encoding="utf-8") as f:
            f.write(new)


def main():
    for folder, folders, files in os.walk("crates"):
        folders[:] = [d for d in folders if d != "out"]
        for f in files:
            path = os.path.join(folder, f)
            if f.endswith(".antt"):
                own = re.search(r"/proofs/[^/]+/", path) is not None
                rewrite(path, lambda t: antt(t, own))
            elif f.endswith(".rt"):
                rewrite(path, rt)
    for folder in ("docs", "docs/changes", "."):
        for f in os.listdir(folder):
            if f.endswith(".md"):
                rewrite(os.path.join(folder, f), page)


main()
