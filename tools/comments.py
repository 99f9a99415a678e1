#!/usr/bin/env python3
"""Gives words of comments back their dashes, where tools/respell.py took them for names, as `set-up`.

  tools/comments.py COMMIT      at the top; COMMIT is the one before tools/respell.py ran"""
import os
import re
import subprocess
import sys

sys.path.insert(0, os.path.dirname(os.path.abspath(__file__)))
import respell

token = re.compile(respell.WORD)
COMMENT = re.compile(r"(?:^|(?<=\s))(?:--|//|#)(?!\[|!)[^\n]*", re.M)
listed = dict(line.split(" ") for line in sys.stdin.read().split("\n") if line)
for path in respell.files(".antt", ".rt"):
    was = subprocess.run(["git", "show", f"{sys.argv[1]}:{path}"], capture_output=True, text=True)
    if was.returncode:
        continue
    back = {}
    for it in COMMENT.findall(was.stdout):
        for word in token.findall(re.sub(r"`[^`]*`", " ", it)):
            if "-" in word and word in listed:
                back[listed[word]] = word
    if not back:
        continue
    text = respell.read(path)

    def one(m):
        return "".join(p if p.startswith("`") else token.sub(lambda w: back.get(w[0], w[0]), p) for p in re.split(r"(`[^`]*`)", m[0]))

    out = COMMENT.sub(one, text)
    if out != text:
        with open(path, "w", encoding="utf-8", newline="") as it:
            it.write(out)
        print(path, *back.values())
