#!/usr/bin/env python3
"""Brings this repository's own definitions, fields and lemmas to the spelling of today's Rattle, as tools/respelling.tsv lists them.

usage: python3 tools/respell.py        once, at the top of the repository, after the toolchain's port/port.py

Words of specs/ and proofs/, of clauses and `ghost use` items in src/, of must-fail edits, and in code spans of pages. A function of
src/, a string, an input and an output keep their names. A lemma that fell together with a definition got `_lem`.
"""
import os
import re
import subprocess
import sys

HERE = os.path.dirname(os.path.realpath(__file__))
TABLE = os.path.join(HERE, "respelling.tsv")
KIT = os.path.dirname(subprocess.run(["rt", "doc"], stdout=subprocess.PIPE, universal_newlines=True, check=True).stdout.strip())
SNAKE = os.path.join(KIT, "port/notes/2026-11-18-names-are-in-snake-case/snake.py")
WORD = re.compile(r"[^\s(){}.;,@\"«»\[\]`]+")

with open(TABLE, encoding="utf-8") as f:
    table = dict(line.rstrip("\n").split("\t") for line in f)


def edits():
    for folder, _, files in os.walk("crates"):
        if os.path.basename(folder) == "must-fail":
            yield from (os.path.join(folder, f) for f in files if f.endswith(".edit"))


def main():
    pages = [p for p in ("README.md", "CONTRIBUTING.md") if os.path.exists(p)]
    pages += [os.path.join("docs", f) for f in sorted(os.listdir("docs")) if f.endswith(".md") and f[0] not in "0"]
    done = subprocess.run([sys.executable, SNAKE, "--table", TABLE, "--only", "antt,rt,md", "crates", *pages])
    for path in edits():
        with open(path, encoding="utf-8") as f:
            text = f.read()
        new = WORD.sub(lambda m: table.get(m[0], m[0]), text)
        if new != text:
            with open(path, "w", encoding="utf-8") as f:
                f.write(new)
            print(path)
    return done.returncode


sys.exit(main())
