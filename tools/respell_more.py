#!/usr/bin/env python3
"""Spells the definitions that tools/respell.py did not find (several in one signature, or quoted) in snake case.

  tools/respell_more.py --apply      at the top, once"""
import re
import sys

if sys.argv[1:] != ["--apply"]:
    sys.exit(__doc__)
import glob

NAMES = """toldWords saidOver checkRead valueRead outerRead countRead belowRead verticesRead firstRead sumRead strictRead speedRead belongsRead indexRead
recordedOn flooredRead fillsRead whatWord kindWord answerOver lineCalls stateKind orNext lineRest noneBy keptBy emptyBy plainRead askedWords""".split()
QUOTED = "all-serials a-serial As-run state-of state-digits not-text not-file length-in first-begins a-vertex a-state".split()
new = {name: re.sub(r"([a-z])([A-Z])", lambda m: m[1] + "_" + m[2].lower(), name) for name in NAMES}
new |= {f"«{name}»": f"«{name.replace('-', '_')}»" for name in QUOTED}
token = re.compile(r"«[^»]*»|[^\s(){}\[\].;,@\"«»`:|]+")
for path in glob.glob("crates/*/**/*", recursive=True) + glob.glob("docs/*.md") + ["README.md", ".ci/theorems.txt"]:
    if "/out/" in path or not path.endswith((".antt", ".rt", ".edit", ".md", ".txt")):
        continue
    with open(path, encoding="utf-8", newline="") as it:
        text = it.read()
    out = token.sub(lambda m: new.get(m[0], m[0]), text)
    if out != text:
        with open(path, "w", encoding="utf-8", newline="") as it:
            it.write(out)
        print(path)
