#!/usr/bin/env python3
"""Gives this repository's own definitions and lemmas the spelling of today's Rattle: words in snake case, no middle
dot.

usage: python3 tools/respell.py     at the top, once, after /opt/rattle/port/port.py

port.py respells the names of the kit, and some of ours. This turns the rest, in the crates, in their must-fail edits
and in the pages and tests that name them. Functions of src/, exported names, strings, inputs and outputs are in snake
case already, and stay.
"""

import os
import re

# A word in camel case that begins with a small letter: in this repository each is a definition's, a lemma's or a
# variable's.
WORD = re.compile(r"(?<![A-Za-z0-9_'\u2080-\u2089])[a-z][a-z0-9]*(?:[A-Z][A-Za-z0-9]*)+")
HUMP = re.compile(r"(?<=[a-z0-9])([A-Z])")

# Names of the kit that we used under a name with a middle dot, and one that port.py leaves in edits and pages.
KIT = [
    ("get_or-append as List·getD-append", "get_or-append"),
    ("get_or-map as List·getD-map", "get_or-map"),
    ("List·getD-append", "get_or-append"),
    ("List·getD-map", "get_or-map"),
    ("getD", "get_or"),
]

# What port.py turns in the crates' sources, turned here in the edits of them.
SPELLING = [
    (re.compile(r"Rattle·(\w+)·specs\.specs\."), r"Rattle.\1.specs."),
    (re.compile(r"Rattle·(\w+)·proofs\.proofs\."), r"Rattle.\1.proofs."),
    (re.compile(r"Rattle·(\w+)·(specs|proofs)\."), r"Rattle.\1.\2."),
    (re.compile(r"Rattle·(\w+)\."), r"Rattle.\1."),
    (re.compile(r"\bthe-variants\b"), "TheVariants"),
    (re.compile(r"\bthe-constants\b"), "TheConstants"),
    (re.compile(r"\bnegℤ"), "neg_ℤ"),
    (re.compile("\u2032"), "'"),
]

# Two lemmas that would have their definition's name.
LEMMAS = [
    ("crates/laws/proofs/Counted.antt", "count_at", "count_at_lem"),
    ("crates/old_text/proofs/Said.antt", "count_held", "count_held_lem"),
]

PAGES = ["README.md", "docs", ".ci", "user/rust/tests/refusals.rs"]


def snake(word):
    return HUMP.sub(r"_\1", word).lower()


def files(top, endings):
    for folder, folders, names in os.walk(top):
        folders[:] = sorted(f for f in folders if f not in ("out", "target", ".git"))
        for name in sorted(names):
            if name.endswith(endings):
                yield os.path.join(folder, name)


def read(path):
    with open(path, encoding="utf-8") as f:
        return f.read()


def write(path, text):
    if read(path) != text:
        with open(path, "w", encoding="utf-8") as f:
            f.write(text)


def turned(text, names):
    for old, new in KIT:
        text = text.replace(old, new)
    return WORD.sub(lambda m: snake(m.group()) if m.group() in names else m.group(), text)


def main():
    for path, lemma, name in LEMMAS:
        write(path, re.sub(r"(?<![\w-])" + lemma + r"(?![\w-])", name, read(path)))
    sources = list(files("crates", (".antt", ".rt")))
    edits = list(files("crates", (".edit",)))
    names = {w for p in sources + edits for w in WORD.findall(read(p))}
    taken = {}
    for w in sorted(names):
        if taken.setdefault(snake(w), w) != w:
            raise SystemExit(f"{w} and {taken[snake(w)]} fall together")
    for p in sources:
        write(p, turned(read(p), names))
    for p in edits:
        text = read(p)
        for pattern, new in SPELLING:
            text = pattern.sub(new, text)
        write(p, turned(text, names))
    # Pages also name what port.py has respelled already.
    for page in PAGES:
        for p in files(page, ("",)) if os.path.isdir(page) else [page]:
            if "landings" not in p:
                text = read(p)
                known = {w for w in WORD.findall(text) if re.search(r"\b" + snake(w) + r"\b", SOURCES)}
                write(p, turned(text, known))


SOURCES = "\n".join(re.sub(WORD, lambda m: snake(m.group()), read(p)) for p in files("crates", (".antt",)))

if __name__ == "__main__":
    main()
