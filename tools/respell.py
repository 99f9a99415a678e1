#!/usr/bin/env python3
"""Spells the definitions and lemmas of this repository as today's Rattle spells names: in snake case, types and facts in upper camel case.

  tools/respell.py --apply|--list      at the top of a repository as port.py left it; --list prints OLD NEW and changes nothing

A name is turned where it is declared in specs/ or proofs/: `freeSlot` becomes `free_slot`, `named-of` becomes `named_of`. A dash stays where it
joins two names, one of which is a type, a fact or a constructor in capitals, as in `line-D`. Where a definition and a lemma would fall together,
the lemma takes `_lem` after its name. Names of src/, strings, and what Rattle makes keep their spelling."""
import collections
import os
import re
import sys

if __name__ == "__main__" and "--list" not in sys.argv and "--apply" not in sys.argv:
    sys.exit(__doc__)
os.chdir(os.path.dirname(os.path.dirname(os.path.abspath(__file__))) if os.path.isdir(os.path.join(os.path.dirname(os.path.abspath(__file__)), "..", "crates")) else ".")
WORD = r"[^\s(){}\[\].;,@\"«»`:|]+"
DECLARED = re.compile(r"^( *)(?:(?:abbrev|unfoldable|opaque|pub|ruleset) )*(" + WORD + r")(?: [^:\n]*)? : ", re.M)
KIND = re.compile(r"^(?:pub )?(?:abbrev |unfoldable )?(?:pub )?(?:data|record) (" + WORD + r")")


# lemmas that port.py had turned already, and that would fall together with a definition of their file
FIRST = [
    ("crates/sound_bench/proofs/", "node_at", "node_at_lem"),
    ("crates/engine_laws/proofs/Asked.antt", "index_in", "index_in_lem"),
    ("crates/record_measures/proofs/Plains.antt", "digits_of", "digits_in"),
    ("crates/groups/proofs/Only.antt", "length_back", "length_back_lem"),
]


def files(*endings):
    for top, dirs, names in os.walk("crates"):
        dirs[:] = sorted(d for d in dirs if d not in ("out", "target"))
        for name in sorted(names):
            if name.endswith(endings):
                yield os.path.join(top, name)


def read(path):
    with open(path, encoding="utf-8", newline="") as it:
        return it.read()


def turned(name):
    """The new spelling of a name."""
    if re.search(r"(^|-)[A-Z\u2124\u2115]", name):
        return name
    new = re.sub(r"(?<=[a-z0-9₀-₉])([A-Z])", lambda m: "_" + m[1].lower(), name)
    return new.replace("-", "_").replace("\u2032", "'").replace("\u2033", "''")


def names_of():
    """The names that specs/ and proofs/ declare, fields and constructors among them; not the answers of proofs of functions."""
    found = collections.OrderedDict()
    for path in files(".antt"):
        if os.path.basename(path) in ("Proof.antt", "Answers.antt", "Invariants.antt"):
            continue
        spec = "/specs/" in path
        for line in read(path).split("\n"):
            m = DECLARED.match(line)
            if m and not line.lstrip().startswith(("--", "let ", "data ", "record ", "pub data ", "pub record ")) and not m[2].startswith(("λ", "(", "{")):
                found[m[2]] = found.get(m[2], False) or spec
    return found


def table():
    """OLD to NEW. Two names fall together only where one file has both; then a lemma takes `_lem`."""
    declared = names_of()
    token = re.compile(WORD)
    within = collections.defaultdict(set)
    for path in files(".antt"):
        for word in set(token.findall(read(path))):
            within[word].add(path)
    new, places = {}, collections.defaultdict(set)
    for name in declared:
        if turned(name) == name:
            places[name] |= within[name]
    for dashed in (False, True):
        for kind in (True, False):  # what is cited from specs/ first: it keeps the plain spelling
            for name, spec in declared.items():
                if spec == kind and turned(name) != name and ("-" in name) == dashed:
                    at = turned(name)
                    while places[at] & within[name]:
                        at += "_lem"
                    new[name] = at
                    places[at] |= within[name]
    return new


def first():
    for where, old, to in FIRST:
        for path in files(".antt"):
            if path.startswith(where):
                text = read(path)
                with open(path, "w", encoding="utf-8", newline="") as it:
                    it.write(re.sub(r"(?<![\\w'-])" + old + r"(?![\\w'-])", to, text))


def apply(new):
    token = re.compile(WORD)
    for path in files(".antt", ".rt", ".edit"):
        text = read(path)
        out = token.sub(lambda m: new.get(m[0], m[0]), text)
        if out != text:
            with open(path, "w", encoding="utf-8", newline="") as it:
                it.write(out)
            print(path)


if __name__ == "__main__":
    if "--list" not in sys.argv:
        first()
    names = table()
    if "--list" in sys.argv:
        for old, to in names.items():
            print(old, to)
    else:
        apply(names)
