#!/usr/bin/env python3
"""Brings the pages to the names that the definitions and lemmas have since tools/respell.py (and port.py before it) turned them.

  tools/repages.py TABLE     at the top of the repository; TABLE has the lines OLD NEW that `tools/respell.py --list` prints where port.py left the sources

In the pages' code spans and marks (`<!-- FILE NAME -->`) and in the names of .ci/theorems.txt a word is turned that no source has any more: to what TABLE says, else to its snake case
where a source has that. Blocks of code are left: .ci/statements takes those of theorems from the sources."""
import glob
import os
import re
import sys

PAGES = ["README.md", "oracle/README.md", *sorted(glob.glob("docs/*.md"))]
# what .ci/pages and .ci/statements write, and the port's own page, which names both spellings
MADE = {"docs/CRATES.md", "docs/STATEMENTS.md", "docs/PORT.md"}
WORD = re.compile(r"[^\W\d][\w′″'-]*")
# commands and files
KEPT = {"dual-ledger", "tests/manual"}


def read(path):
    with open(path, encoding="utf-8", newline="") as it:
        return it.read()


def sources():
    """Every word of the sources."""
    found = set()
    for top, dirs, names in os.walk("crates"):
        dirs[:] = [d for d in dirs if d not in ("out", "must-fail")]
        for name in names:
            if name.endswith((".antt", ".rt")):
                found |= set(WORD.findall(read(os.path.join(top, name))))
    return found


def snake(name):
    if re.search(r"(^|-)[A-Z]", name):
        return name
    new = re.sub(r"(?<=[a-z0-9₀-₉])([A-Z])", lambda m: "_" + m[1].lower(), name)
    return new.replace("-", "_").replace("′", "'").replace("″", "''")


def main(table):
    known = dict(line.split() for line in read(table).split("\n") if len(line.split()) == 2)
    here = sources()

    def turn(word):
        if word in here or word in KEPT:
            return word
        new = known.get(word, snake(word))
        return new if new in here else word

    turned = lambda text: WORD.sub(lambda m: turn(m[0]), text)
    span = re.compile(r"^```.*?^```$|(?<!`)`([^`\n]+)`", re.M | re.S)
    for path in PAGES:
        if path not in MADE:
            text = read(path)
            new = span.sub(lambda m: m[0] if m[1] is None else f"`{turned(m[1])}`", text)
            new = re.sub(r"^(<!-- \S+ )(\S+)( -->)$", lambda m: m[1] + turned(m[2]) + m[3], new, flags=re.M)
            write(path, text, new)
    path = ".ci/theorems.txt"
    text = read(path)
    write(path, text, re.sub(r"^((?:theorem|meaning) \S+ )(\S+)", lambda m: m[1] + turned(m[2]), text, flags=re.M))


def write(path, text, new):
    if new != text:
        with open(path, "w", encoding="utf-8", newline="") as it:
            it.write(new)
        print(path)


main(sys.argv[1])
