#!/usr/bin/env python3
"""Gives the names of the kit's libraries back their spelling, where tools/respell.py took them for the repository's own.

  tools/library_names.py COMMIT      at the top; COMMIT is the one before tools/respell.py ran

In each file of which COMMIT has a `use` line of a library of the kit, a name of that line stands again as it did."""
import os
import re
import subprocess
import sys

sys.path.insert(0, os.path.dirname(os.path.abspath(__file__)))
import respell

OWN = re.compile(r"Rattle\.(" + "|".join(sorted(os.listdir("crates"))) + r")\.")
USE = re.compile(r"^ *(?:ghost )?use ([^\s{]+)\.\{([^}]*)\}", re.M)
token = re.compile(respell.WORD)
commit = sys.argv[1]
for path in respell.files(".antt", ".rt"):
    was = subprocess.run(["git", "show", f"{commit}:{path}"], capture_output=True, text=True)
    if was.returncode:
        continue
    back = {}
    for module, names in USE.findall(was.stdout):
        if not OWN.match(module):
            for name in re.split(r",\s*", names):
                name = name.split(" as ")[0].strip()
                if respell.turned(name) != name:
                    back[respell.turned(name)] = name
    text = respell.read(path)
    if back:
        out = token.sub(lambda m: back.get(m[0], m[0]), text)
        if out != text:
            with open(path, "w", encoding="utf-8", newline="") as it:
                it.write(out)
            print(path, *back.values())
