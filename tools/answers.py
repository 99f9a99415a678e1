#!/usr/bin/env python3
"""Turns a function's Proof.antt, which walked the code by hand, into Invariants.antt and Answers.antt.

  rt names NAMES; tools/answers.py NAMES CRATE..      at the top of a repository that port.py and tools/respell.py have turned

What `search` found stays unwritten. A step `c.before.before.load-node.result` becomes `c.load_node-n.result`, by the list of names that rattle
writes for the crate; a tuple of clauses that have labels becomes a record. What has no name today is said, by file, and left for the reader."""
import json
import os
import re
import sys

PATH = re.compile(r"(?<![\w'.·-])([A-Za-z_][\w'-]*)((?:\.[\w'₀-₉-]+)+)")
DECL = re.compile(r"^((?:abbrev |unfoldable |pub )*)([^\s:(){}]+) : ", re.M)
said = []


def plain(name):
    return re.sub(r"_lem$", "", name.replace("-", "_")).lower()


def of_need(name):
    name = plain(name)
    name = re.sub(r"^(overflow|nonzero|slice_bounds|offset_bounds|bounds)_(?=(cast|mul|add|sub|div|rem|shl|shr)_)", "", name)
    return name


def blocks(text):
    """The head of a file (comments and imports) and its declarations, each with the comment above it."""
    lines = text.split("\n")
    at = 0
    while at < len(lines) and (not lines[at].strip() or lines[at].startswith(("--", "use "))):
        at += 1
    head, rest = lines[:at], lines[at:]
    # a comment just above the first declaration belongs to it
    back = []
    while head and (head[-1].startswith("--") or not head[-1].strip()) and any(l.startswith("use ") for l in head):
        back.insert(0, head.pop())
    rest = back + rest
    found, now = [], []
    for line in rest:
        starts = DECL.match(line)
        if starts and now and any(DECL.match(l) for l in now):
            keep = []
            while now and (now[-1].startswith("--") or not now[-1].strip()):
                keep.insert(0, now.pop())
            found.append("\n".join(now))
            now = keep
        now.append(line)
    if any(DECL.match(l) for l in now):
        found.append("\n".join(now))
    return head, found


def parts(text):
    """The top-level parts of a tuple `(a, b, c)`, or None."""
    text = text.strip()
    if not text.startswith("("):
        return None
    depth, cut, last = 0, [], 1
    for at, c in enumerate(text):
        if c in "([{":
            depth += 1
        elif c in ")]}":
            depth -= 1
            if depth == 0 and at < len(text) - 1:
                return None
        elif c == "," and depth == 1:
            cut.append(text[last:at])
            last = at + 1
    if depth:
        return None
    return [it.strip() for it in [*cut, text[last:-1]]] if cut else None


def last_let(body):
    """Where the term after the leading lets begins."""
    at = 0
    while True:
        m = re.match(r"\s*(?:--[^\n]*\n\s*)*let ", body[at:])
        if not m:
            return at
        depth, here = 0, at + m.end()
        while here < len(body):
            if body[here] in "([{":
                depth += 1
            elif body[here] in ")]}":
                depth -= 1
            elif depth == 0 and re.match(r"(?<=\s)let\s", body[here - 1 : here + 4]) and body[here - 1].isspace():
                pass
            if depth == 0 and re.match(r"\sin\s", body[here : here + 4] + " "):
                break
            here += 1
        at = here + 3


def field_of(fields, rest, at):
    """Where a path into nested pairs leads among the clauses that were those pairs."""
    n = 0
    while n < len(fields) - 1 and rest and rest[0] == "1":
        n, rest = n + 1, rest[1:]
    if n == len(fields) - 1:
        return ".".join([at, fields[n], *rest])
    if rest and rest[0] == "0":
        return ".".join([at, fields[n], *rest[1:]])
    if rest:
        said.append(f"no clause at {at}.{'.'.join(rest)} of {fields}")
    whole = f"{at}.{fields[-1]}"
    for it in reversed(fields[n:-1]):
        whole = f"({at}.{it}, {whole})"
    return whole


LENT = {}


def lent_of(callee):
    """The parameters of a function: what a call's `.new` has by name."""
    if callee not in LENT:
        crate, *path = callee.split("::")
        for top, _, files in os.walk(f"crates/{crate}/src"):
            for file in files:
                text = open(os.path.join(top, file), encoding="utf-8").read()
                for m in re.finditer(r"\bfn (\w+)\(([^{]*?)\)(?: ->|\s*\n|\s*\{)", text):
                    name = m[1]
                    found = re.findall(r"(\w+): ([^,()]+(?:\([^)]*\))?)", m[2])
                    if name == path[-1]:
                        LENT[callee] = [n for n, ty in found]
        LENT.setdefault(callee, [])
    return LENT[callee]


class Names:
    def __init__(self, of):
        self.of = of
        self.place = {p[0]: n for n, p in enumerate(of["places"])}
        self.needs = {}
        for n, (old, new) in enumerate(of["needs"]):
            self.needs.setdefault(of_need(old), (new, of["asked_at"][n][0]))
        self.asked = {plain(k): v for k, v in of["asked"].items()}

    def up(self, place):
        return self.of["places"][self.place[place]][1] if place in self.place else None

    def chain(self, place):
        while place:
            yield place
            place = self.up(place)

    def step(self, place, name):
        """A step's new name and where it is, looking up from a place; or anywhere, where the chain has none."""
        name = plain(name)
        all_places = [*self.chain(place), *[p[0] for p in self.of["places"]]]
        for at in all_places:
            old, new = self.of["places"][self.place[at]][2]
            if old and plain(old) == name:
                return new, at
        return None, None


def named_parameter(function, n):
    """The n-th parameter of a function, from 1."""
    crate, name = function
    for top, _, files in os.walk(f"crates/{crate}/src"):
        for file in files:
            text = open(os.path.join(top, file), encoding="utf-8").read()
            m = re.search(r"\bfn " + re.escape(name) + r"\((.*?)\)\s*(?:->|$)", text, re.M | re.S)
            if m:
                found = re.findall(r"(?:^|[,(]\s*|\n\s*)(?:mut )?(\w+): ", "(" + m[1])
                if "self" in m[1].split(",")[0]:
                    found.insert(0, "self")
                if n <= len(found):
                    return found[n - 1]
    return None


class Turn:
    def __init__(self, names, where, labels, function):
        self.names, self.where, self.labels, self.function = names, where, labels, function
        self.places = {}

    def value(self, place, fields, here):
        """The new path, or ('place', P) where the fields are only `before`."""
        names, at = self.names, 0
        now = place
        while at < len(fields) and fields[at] == "before":
            now = names.up(now) if now else None
            at += 1
        if at == len(fields):
            return "place", now
        step, rest = fields[at], fields[at + 1 :]
        arm = names.of["arms"][names.place[here]] if here in names.place else None
        if arm:
            for field, old, path in arm[2]:
                if plain(old) == plain(step) and path and rest[: len(path)] == path:
                    return "path", ".".join(["c", arm[0], field, *rest[len(path) :]])
        # an arm that lies further up
        for up in names.chain(here):
            arm = names.of["arms"][names.place[up]]
            if arm:
                for field, old, path in arm[2]:
                    if plain(old) == plain(step) and path and rest[: len(path)] == path:
                        return "path", ".".join(["c", arm[0], field, *rest[len(path) :]])
        if plain(step) == "args" and rest and re.fullmatch(r"t\d+", rest[0]):
            rest = [named_parameter(self.function, int(rest[0][1:])) or rest[0], *rest[1:]]
        if plain(step) in ("args", "ranges", "well_formed", "told", "facts", "lifetimes"):
            return "path", ".".join(["c", plain(step), *rest])
        if step == "requires":
            pre = names.of["pre"]
            if pre and (not rest or rest[0].isdigit()):
                return "path", field_of(pre["fields"], rest, "c.requires")
            return "path", ".".join(["c", "requires", *rest])
        new, at_place = names.step(here, step)
        if new and plain(step) == "match":
            for up in names.chain(here):
                arm = names.of["arms"][names.place[up]]
                if arm and arm[0] == new:
                    for field, old, path in arm[2]:
                        if plain(old) == "match" and not path:
                            return "path", ".".join(["c", new, field, *rest])
        if new is None:
            for var, old in (names.of["typed"][names.place[here]] if here in names.place else []):
                if plain(old) == plain(step):
                    return "path", ".".join(["c", "type_inv", var, *rest])
            said.append(f"{self.where}: no step today for {'.'.join(fields)}")
            return "path", ".".join(["c", step, *rest])
        callee = names.of["places"][names.place[at_place]][3]
        for var, old in names.of["typed"][names.place[here]] if here in names.place and not callee else []:
            if plain(old) == plain(step):
                return "path", ".".join(["c", "type_inv", var, *rest])
        if rest and rest[0] == "new" and callee and len(rest) > 1 and rest[1].isdigit():
            lent = lent_of(callee)
            if lent:
                return "path", field_of(lent, rest[1:], f"c.{new}.new") if len(lent) > 1 else ".".join(["c", new, "new", lent[0], *rest[2:]])
        clauses = names.of["clauses"][names.place[at_place]]
        if clauses is None:
            for up in names.of["places"]:
                if up[2][0] and plain(up[2][0]) == plain(step) and names.of["clauses"][names.place[up[0]]]:
                    clauses = names.of["clauses"][names.place[up[0]]]
        rest = [{"type-inv": "type_inv", "well-formed": "well_formed"}.get(it, it) for it in rest]
        if rest and rest[0] == "ensures" and clauses and (len(rest) == 1 or rest[1].isdigit()):
            return "path", field_of(clauses["fields"], rest[1:], f"c.{new}.ensures")
        return "path", ".".join(["c", new, *rest])

    def body(self, text, here, base="c"):
        """A body with each path turned. The lets that name a place go."""
        self.places = {base: here}
        out, at = "", 0
        let = re.compile(r"let ([^\s:]+)(?: : [^=\n]*)? = ([A-Za-z_][\w'-]*(?:\.before)*) in(?:\s)")
        while True:
            cut = let.search(text, at)
            piece = text[at : cut.start()] if cut else text[at:]
            out += self.paths(piece, here)
            if not cut:
                break
            root, *fields = cut[2].split(".")
            if root in self.places:
                kind, place = self.value(self.places[root], fields, here)
                if kind == "place":
                    self.places[cut[1]] = place
                    at = cut.end()
                    if out.endswith((" ", "\n")) or not out:
                        # what is left of the line
                        at += len(re.match(r"\s*", text[at:])[0]) if out.endswith((" ", "\n")) else 0
                    continue
            out += self.paths(text[cut.start() : cut.end()], here)
            at = cut.end()
        return out

    def paths(self, text, here):
        def one(m):
            root, fields = m[1], m[2][1:].split(".")
            if root not in self.places:
                return m[0]
            kind, new = self.value(self.places[root], fields, here)
            if kind == "place":
                said.append(f"{self.where}: a place handed on: {m[0]}")
                return "c"
            return new

        return PATH.sub(one, text)


def labelled(term, labels):
    """A tuple as the record of its clauses."""
    at = last_let(term)
    lets, last = term[:at], term[at:]
    cut = parts(last)
    while cut and len(cut) < len(labels) and parts(cut[-1]):
        cut = cut[:-1] + parts(cut[-1])
    pad = " " if not lets or lets.endswith((" ", "\n")) else " "
    if cut and len(cut) == len(labels):
        return lets + pad + "record { " + "; ".join(f"{l} = {v}" for l, v in zip(labels, cut)) + " }"
    return lets + pad + "let whole = " + last.strip() + " in record { " + "; ".join(f"{l} = whole" + ".1" * n + (".0" if n < len(labels) - 1 else "") for n, l in enumerate(labels)) + " }"


def ensures_of(crate, path):
    """The labels of a function's ensures, from its source: [] where it has one clause or none."""
    name = path.split(".")[-1].lstrip("+")
    found = []
    for top, _, files in os.walk(f"crates/{crate}/src"):
        for file in files:
            text = open(os.path.join(top, file), encoding="utf-8").read()
            for m in re.finditer(r"\bfn " + re.escape(name) + r"\b.*?^ *\{$", text, re.M | re.S):
                found.append(re.findall(r"^\s*ensures (\w+) \{", m[0], re.M))
    found = [it for it in found if it] or [[]]
    return found[0]


def turn(crate, folder, names):
    path = folder[len(f"crates/{crate}/proofs/") :].replace("/", ".")
    of = names.get(f"Rattle-{crate}-proofs.{path}.Lts")
    file = f"{folder}/Proof.antt"
    text = open(file, encoding="utf-8").read()
    if of is None or "tie.close" not in text:
        said.append(f"{file}: left: {'no names' if of is None else 'a walk of its own'}")
        return
    n = Names(of)
    labels = ensures_of(crate, path)
    head, found = blocks(text)
    inv, ans, local = [], [], []
    # a lemma over a place stands where it is cited
    inlined = {}
    for block in found:
        m = DECL.search(block)
        kind = block[m.end() :].split("\n")[0]
        over = re.match(r"\((\w+) : tie\.", kind)
        clause = re.search(r"^" + re.escape(m[2]) + r" (\w+) = (.*)", block[m.end() :], re.M | re.S)
        if over and clause and not re.search(r"^unfolding", block, re.M):
            inlined[m[2]] = (clause[1], clause[2].strip())

    def put_in(text):
        for _ in range(3):
            for name, (var, body) in inlined.items():
                text = re.sub(r"(?<![\w'.-])" + re.escape(name) + r" ([A-Za-z_][\w'-]*(?:\.before)*)(?![\w'.-])", lambda m: "(" + re.sub(r"(?<![\w'.-])" + var + r"(?=[.\s)])", m[1], body) + ")", text)
        return text

    for block in found:
        m = DECL.search(block)
        kind = block[m.end() :].split("\n")[0]
        name = m[2]
        comment = block[: m.start()]
        body = block[m.end() :]
        body = body[body.index("\n") + 1 :] if "\n" in body else ""
        if kind.startswith("{M : Type 1}"):
            continue
        if "tie.invariant" in kind or "tie.decreases" in kind:
            word = "invariant" if "tie.invariant" in kind else "decreases"
            which = re.search(r"tie\.(?:invariant|decreases)-(\S+)", kind)[1]
            clause = re.match(r"\s*" + re.escape(name) + r"([^=]*)= ?(.*)", body, re.S)
            args, term = clause[1].split(), clause[2].rstrip()
            lists = [(new, vs, of["changed"][k]) for k, ((old, new), vs) in enumerate(of["loops"]) if plain(old) == plain(which)]
            if not lists:
                said.append(f"{file}: no loop today for {which}")
                continue
            new, vs, changed = lists[0]
            want = [f"l.initial.{v}" if c else f"l.{v}" for v, c in zip(vs, changed)] + [f"l.{v}" for v, c in zip(vs, changed) if c]
            if len(want) != len(args):
                args = [a for a in args if not re.fullmatch(r"t\d+", a)]
            if len(want) != len(args):
                said.append(f"{file}: {name} has {len(args)} arguments ({' '.join(args)}), and today {len(want)} ({' '.join(vs)})")
                want = []
                for a in args:
                    stem = re.sub(r"[₀-₉]$", "", a)
                    want.append(f"l.initial.{stem}" if a != stem else f"l.{a}")
            put = dict(zip(args, want))
            put.pop("_", None)
            term = re.sub(r"(?<![\w'.·-])([^\s(){}\[\].;,@]+)", lambda t: put.get(t[1], t[1]), term)
            inv.append(f"{comment}abbrev pub {word}-{new} : goal.{word}-{new}\n{word}-{new} l = {term}\n")
            continue
        if kind.startswith("tie.Need-"):
            need = re.match(r"tie\.Need-(\S+)", kind)[1]
            clause = re.search(r"^" + re.escape(name) + r"((?: [^\s=]+)*) =", body, re.M)
            if not clause:
                said.append(f"{file}: {name} has no clause that is read")
                continue
            before, term = body[: clause.start()], put_in(body[clause.end() :].rstrip())
            if re.fullmatch(r"\s*search rules", term) and "unfolding" not in before:
                continue
            got = n.needs.get(of_need(need))
            if not got:
                said.append(f"{file}: no goal today for {need}: {' '.join(term.split())[:200]}")
                continue
            new, here = got
            args = clause[1].split()
            args = [a for a in args if not a.startswith("κ")]
            t = Turn(n, file, labels, (crate, path.split('.')[-1].lstrip('+')))
            term = t.body(term, here)
            term = term.replace(".type-inv", ".type_inv").replace(".well-formed", ".well_formed")
            term = re.sub(r"simp length-map at (c\.well_formed[\w.]*)", r"\1", term)
            term = re.sub(r"(?<![\w-])to_z-of_z (?!\{|w\d)", "to_z-of_z {w = w64} ", term) if "mir.Facts" in text else term
            # a test of `!x` says `x ≡ false` and `x ≡ true` itself
            term = re.sub(r"not[-_](?:true|false) (?:_|[A-Za-z][\w'.-]*|\([^()]*\)) (c\.if-not-[\w'-]+\.(?:true|false))", r"§\1", term)
            term = re.sub(r"(?<![\w'.§])(c\.if-not-[\w'-]+\.(?:true|false))(?![\w'.])", r"(ap not \1)", term)
            # what was a tuple's own test stays it
            term = term.replace("§", "")
            wanted = None
            if new.startswith("returns"):
                wanted = labels
            elif new.endswith("-requires") or re.search(r"-requires(-|$)", new):
                wanted = n.asked.get(plain(need)) or n.asked.get(plain(new))
            if wanted and len(wanted) > 1:
                term = labelled(term, wanted)
            ans.append(f"{comment}pub {new} : goal.{new}\n{before}{new}{''.join(' ' + a for a in args)} ={term if term.startswith((chr(10), ' ')) else ' ' + term}\n")
            continue
        if name in inlined:
            continue
        if "tie." in kind or "lts." in kind:
            said.append(f"{file}: a lemma over a place: {name} : {kind[:120]}")
            # over the start it becomes a lemma that each answer's c serves
            ans.append("-- TODO place lemma\n" + block.strip() + "\n")
            continue
        (ans if not any("= " in b for b in []) else ans).append(block.strip() + "\n")
    uses = [l for l in head if l.startswith("use ") and not re.search(r"\.(Statement|Tie|Lts)(\.\{statement\})?( as \w+)?$", l)]
    heads = [l for l in head if l.startswith("--")]
    module = f"Rattle.{crate}.proofs.{path}"
    if any("(ap not " in it for it in ans):
        for word, line in (("ap", "use mathlib.Core.Path.{ap}"), ("not", "use mathlib.Core.Bool.{not}")):
            if not any(re.search(r"[{ ]" + word + r"[,}]", l) for l in uses):
                uses.append(line)
    if any("{w = w64}" in it for it in ans) and not any(re.search(r"\bw64\b", l) for l in uses):
        uses.append("use mir.Syntax.{w64}")
    if inv:
        with open(f"{folder}/Invariants.antt", "w", encoding="utf-8") as it:
            it.write("\n".join([*heads, *uses, f"use {module}.Given as goal", "", *inv]).rstrip() + "\n")
    if ans:
        with open(f"{folder}/Answers.antt", "w", encoding="utf-8") as it:
            it.write("\n".join([*heads, *uses, f"use {module}.Goals as goal", "", *ans]).rstrip() + "\n")
    os.remove(file)


def main(argv):
    listed, crates = argv[0], argv[1:]
    for crate in crates:
        names = json.load(open(f"{listed}/crates/{crate}/names.json", encoding="utf-8"))
        for top, dirs, files in sorted(os.walk(f"crates/{crate}/proofs")):
            if "Proof.antt" in files:
                try:
                    turn(crate, top, names)
                except Exception as e:  # a form that is not read: say it, and leave the file
                    said.append(f"{top}: {type(e).__name__}: {e}")
    print("\n".join(said))


if __name__ == "__main__":
    main(sys.argv[1:])
