#!/usr/bin/env python3
"""Declares an argument of a lemma earlier, and passes it earlier wherever the lemma is cited.

  tools/reorder.py FILE NAME K J      in FILE's lemma NAME the explicit argument K (by name, or its place from 0) comes to stand before J

A recursion that generalises an argument wants what that argument's type depends on declared before it."""
import glob
import os
import re
import sys

WORD = r"[^\s(){}\[\].;,@\"«»`:|]+"


def atom(text, at):
    """Where the argument that begins at `at` ends: a name or a bracket, with its projections."""
    start = at
    if text[at] in "([":
        depth = 0
        while True:
            if text[at] in "([{":
                depth += 1
            elif text[at] in ")]}":
                depth -= 1
                if depth == 0:
                    break
            at += 1
        at += 1
    else:
        m = re.compile(WORD).match(text, at)
        if not m or m[0] in ("→", "≡", "=", "↦", "in", "∙", "∷", "++", "+", "-", "*", "<", "≤", "×", "⊎"):
            return None
        at = m.end()
    m = re.compile(r"(?:\.[^\s(){}\[\].;,]+)*").match(text, at)
    return m.end()


def binders(text, at):
    """The binder groups of a signature from `at`: (start, end, names, explicit)."""
    found = []
    while True:
        m = re.compile(r"\s*").match(text, at)
        at = m.end()
        if at >= len(text) or text[at] not in "({":
            return found
        end, depth = at, 0
        while True:
            if text[end] in "({":
                depth += 1
            elif text[end] in ")}":
                depth -= 1
                if depth == 0:
                    break
            end += 1
        inner = text[at + 1 : end]
        if " : " not in inner:
            return found
        names, kind = inner.split(" : ", 1)
        found.append([names.split(), kind, text[at] == "("])
        at = end + 1
        found[-1].append(at)


def main(file, name, k, j):
    text = open(file, encoding="utf-8").read()
    m = re.search(r"^ *(?:pub )?" + re.escape(name) + r" : ", text, re.M)
    groups = binders(text, m.end())
    flat = [(n, kind, e) for names, kind, e, _ in groups for n in names]
    explicit = [i for i, it in enumerate(flat) if it[2]]
    named = [flat[i][0] for i in explicit]
    if k in [it[0] for it in flat if not it[2]]:
        # an implicit argument: only the signature changes
        moved = flat.pop([it[0] for it in flat].index(k))
        flat.insert([it[0] for it in flat].index(j), moved)
        out, last = [], None
        for n, kind, e in flat:
            if last and last[1] == kind and last[2] == e:
                last[0].append(n)
            else:
                last = [[n], kind, e]
                out.append(last)
        sig = " ".join(("(" if e else "{") + " ".join(ns) + " : " + kind + (")" if e else "}") for ns, kind, e in out)
        open(file, "w", encoding="utf-8").write(text[: m.end()] + sig + text[groups[-1][3] :])
        return
    k, j = (int(it) if it.isdigit() else named.index(it) for it in (k, j))
    at_k, at_j = k, j
    moved = flat.pop(explicit[k])
    at = explicit[j]
    flat.insert(at, moved)
    out, last = [], None
    for n, kind, e in flat:
        if last and last[1] == kind and last[2] == e:
            last[0].append(n)
        else:
            last = [[n], kind, e]
            out.append(last)
    sig = " ".join(("(" if e else "{") + " ".join(ns) + " : " + kind + (")" if e else "}") for ns, kind, e in out)
    head = m.end()
    tail = text[groups[-1][3] :]
    before, signature = text[: head], sig
    module = re.sub(r"^crates/(\w+)/(proofs|specs)/(.*)\.antt$", lambda g: f"Rattle.{g[1]}.{g[2]}." + g[3].replace("/", "."), file)

    # the explicit parameters of the sections that the lemma stands in, which it takes first from outside
    start, indent, sections, pos = text.rfind("\n", 0, m.start() + 1) + 1, len(text[text.rfind("\n", 0, m.end()) + 1 :]) - len(text[text.rfind("\n", 0, m.end()) + 1 :].lstrip()), [], 0
    for s in re.finditer(r"^( *)module _ (.*) where$", text[: m.start() + 1], re.M):
        end = re.search(r"^ {0," + str(len(s[1])) + r"}[^\s]", text[s.end() + 1 :], re.M)
        stop = s.end() + 1 + end.start() if end else len(text)
        if stop > m.start() + 1:
            count = sum(len(names) for names, _, e, _ in binders(s[2], 0) if e)
            sections.append((s.end(), stop, count))

    def cites(body, off=0):
        k, j = at_k + off, at_j + off
        res, pos = "", 0
        pat = re.compile(r"(?<![^\s(){}\[\];,])" + re.escape(name) + r"(?![^\s(){}\[\];,])")
        while True:
            c = pat.search(body, pos)
            if not c:
                return res + body[pos:]
            res += body[pos : c.end()]
            at, args, ok = c.end(), [], True
            for _ in range(k + 1):
                s = re.compile(r"(?:\s*\{[^}]*\})*\s*").match(body, at)
                here = s.end()
                if here >= len(body) or body[here] in ")]};,":
                    ok = False
                    break
                e = atom(body, here)
                if e is None:
                    ok = False
                    break
                args.append((body[at:here], cites(body[here:e], off)))
                at = e
            if ok:
                vals = [v for _, v in args]
                v = vals.pop(k)
                vals.insert(j, v)
                res += "".join(gap + v for (gap, _), v in zip(args, vals))
                pos = at
            else:
                if not re.match(r"\s*(: |[},]|$)", body[c.end() :]):
                    print(f"look: {name}{body[c.end():c.end()+60]!r}")
                pos = c.end()

    for path in glob.glob("crates/*/**/*.antt", recursive=True):
        if "/out/" in path:
            continue
        t = open(path, encoding="utf-8").read()
        if path == file:
            if sections:
                shift = len(before) + len(text) - len(tail) - len(before)
                inner = sections[-1]
                cut = inner[1] - (len(text) - len(tail))
                off = sum(c for _, _, c in sections)
                new = cites(before[: inner[0]], off) + cites(before[inner[0] :]) + signature + cites(tail[:cut]) + cites(tail[cut:], off)
            else:
                new = cites(before) + signature + cites(tail)
        elif re.search(r"use " + re.escape(module) + r"\.\{[^}]*(?<![\w'-])" + re.escape(name) + r"(?![\w'-])", t):
            new = cites(t, sum(c for _, _, c in sections))
        else:
            continue
        if new != t:
            open(path, "w", encoding="utf-8").write(new)
            print(path)


main(*sys.argv[1:])
