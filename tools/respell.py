#!/usr/bin/env python3
"""Brings the names that this repository's own definitions and lemmas have to snake case, once, after the toolchain's port.py.

usage: tools/respell.py        at the top of the repository, on the tree that port.py left

It renames what specs/ and proofs/ declare (definitions, lemmas, fields, constructors), wherever it is cited: in .antt files, in clauses and
`ghost use` items of .rt files, and in must-fail edits. A name that a file imports from a library of the kit stays there, and so do the names
that Rattle makes for a function's goals. Functions of src/, exported C names, strings, inputs and outputs are not touched.
It stops, and writes nothing, where two names would fall together.
"""
import collections
import os
import re
import sys

NAME = r"[^\s(){}.;,:@\"«»\[\]]+"
DECLARED = re.compile(r"(?m)^ *(?:(?:pub|abbrev|unfoldable|pattern|axiom|record|data) +)*(" + NAME + r")(?: \{[^{}\n]*\})*(?: \([^()\n]*\))* :(?=\s)")
USE = re.compile(r"(?m)^(?:ghost )?(?:pub )?use ([^\s;{]+?)\.?(?:\{([^}]*)\}|(?: as (" + NAME + r"))?)(?=;|\s|$)")
# The parts of a function's own proof that Rattle names: what is declared in such a file is not a name of this repository.
MADE = re.compile(r"/proofs/(?:.*/)?(?:Proof|Answers|Invariants)\.antt$")
TOKEN = re.compile(r"(?<![^\s(){};,:@\"«»\[\]`'.])([^\s(){}.;,:@\"«»\[\]`]+)")
# One name of the library that port.py respells where it stands alone, but not within a longer name.
WITHIN = [("getD", "get_or")]
# The one type with a dash, and the lemmas that would have the name of the function that they speak of.
GIVEN = {
    "Unit-from": "UnitFrom",
    "row-at": "row_at_lem",
    "put-row": "put_row_lem",
    "kind-of": "kind_of_lem",
    "block-of": "block_of_lem",
    "number-next": "number_next_lem",
    "encoderMade": "MadeOfEncoder",
    "recoderMade": "MadeOfRecoder",
    "recoderEntries": "EntriesOfRecoder",
    "Made-as": "made_of_encoder",
    "LOf": "l_of",
    "FOf": "f_of",
}
# Variables and names given at an import, which are not declared at the head of a line.
BOUND = "k-is L-is is-log encoderMade recoderEntries recoderMade was-taken same-vector nothing-behind new-one Made-as true-for refused-is to-next widths-of r-is b-is a-is"
# The same, of a lemma that port.py has given its name already.
GIVEN_IN = {"crates/demands/proofs/Witness.antt": {"the_block": "the_block_lem"}}


def respelled(name):
    if name in GIVEN:
        return GIVEN[name]
    for old, new in WITHIN:
        name = name.replace(old, new)
    if not re.search(r"[A-Za-z]", name) or "◌" in name:
        return name
    if name[0].isupper() and "-" not in name and not re.fullmatch(r"P[0-9]+", name):
        return name
    name = re.sub(r"(?<=[a-z0-9])([A-Z])(?=[a-z])", lambda m: "_" + m.group(1).lower(), name)
    name = name.replace("-", "_")
    return re.sub(r"(?<![A-Za-z])[A-Z](?=[0-9_]|$)", lambda m: m.group(0).lower(), name)


def files(*ends):
    for folder, dirs, names in os.walk("crates"):
        dirs[:] = sorted(d for d in dirs if d != "out")
        for n in sorted(names):
            if n.endswith(ends):
                yield os.path.join(folder, n)


def is_own(module, crates):
    parts = module.split(".")
    return parts[0] == "Rattle" and len(parts) > 1 and parts[1] in crates


def main():
    crates = set(os.listdir("crates"))
    text = {p: open(p, encoding="utf-8").read() for p in files(".antt", ".rt", ".edit")}
    declared = collections.defaultdict(set)
    fields = set()
    for p, t in text.items():
        if p.endswith(".antt"):
            code = re.sub(r"--.*", "", t)
            for m in DECLARED.finditer(code):
                if MADE.search(p):
                    continue
                declared[m.group(1)].add(p)
                if m.group(0).startswith(" "):
                    fields.add(m.group(1))
    for n in BOUND.split():
        declared[n].update(p for p, t in text.items() if re.search(r"(?<![^\s(){}.;,])" + re.escape(n) + r"(?![^\s(){}.;,])", t) and not MADE.search(p))
    new = {n: respelled(n) for n in declared if respelled(n) != n}
    bad = []
    by_new = collections.defaultdict(set)
    for n, r in new.items():
        by_new[r].add(n)
        if r in declared:
            by_new[r].add(r)
    for r, olds in by_new.items():
        if len(olds) > 1:
            where = [declared[o] for o in olds]
            folders = [{os.path.dirname(p).split("/")[1] for p in w} for w in where]
            print(f"look: {', '.join(sorted(olds))} all become {r}: {[sorted(w) for w in where]}")
            if set.intersection(*where):
                bad.append(r)
    out = {}
    for p, t in text.items():
        made = bool(MADE.search(p))
        imported, aliases, own_imported = set(), {}, set()
        source = t
        for m in USE.finditer(source):
            if m.group(2) is not None:
                got = {n.strip().split(" as ")[-1] for n in m.group(2).split(",")}
                (own_imported if is_own(m.group(1), crates) else imported).update(got)
            if m.group(3):
                aliases[m.group(3)] = is_own(m.group(1), crates) and not m.group(1).endswith((".Tie", ".Goals", ".Given"))
        here = {n for n in declared if p in declared[n]}
        if made:
            # the names that the file itself declares are local to it, but the theorem's own, f_spec
            local = {m.group(1) for m in DECLARED.finditer(re.sub(r"--.*", "", t))}
        else:
            local = set()

        def turn(m):
            n, s = m.group(1), m.string
            at = m.start(1)
            before = s[at - 1] if at else " "
            if n in GIVEN_IN.get(p, {}):
                return GIVEN_IN[p][n]
            if made and n in local and n.endswith("-spec"):
                return n.replace("-", "_")
            if n not in new:
                return n
            if before == ".":
                head = re.search(r"([^\s(){}.;,:@\"«»\[\]]+)\.$", s[:at])
                h = head.group(1) if head else ""
                if h in aliases:
                    return new[n] if aliases[h] else n
                return new[n] if n in fields else n
            if n in imported and n not in here and n not in own_imported:
                return n
            if n in imported and n in here:
                print(f"look: {p}: {n} is both imported from a library and declared")
                return n
            if made and n in local and n not in own_imported:
                return n
            return new[n]

        def line(l):
            m = re.match(r"((?:ghost )?(?:pub )?use )([^\s;{]+)(.*)$", l)
            if m and not is_own(m.group(2), crates):
                return l
            return TOKEN.sub(turn, l)

        def rust(l):
            # clauses and ghost items alone
            if re.match(r"\s*(ghost use|requires|ensures|ghost|//)", l) or re.match(r"\s*(old|new): ", l):
                return re.sub(r"\"[^\"]*\"|" + TOKEN.pattern, lambda m: m.group(0) if m.group(1) is None else turn(m), l) if '"' in l else line(l)
            return l

        if p.endswith(".antt"):
            got = "\n".join(line(l) for l in t.split("\n"))
        elif p.endswith(".rt"):
            got = "\n".join(rust(l) for l in t.split("\n"))
        else:
            got = "\n".join(rust(l) if re.match(r"(old|new): ", l) else l for l in t.split("\n"))
        if got != t:
            out[p] = got
            olds = set(TOKEN.findall(re.sub(r"--.*", "", t)))
            for n, r in new.items():
                if n in olds and r in olds and n not in imported and r not in GIVEN_IN.get(p, {}):
                    print(f"look: {p}: has both {n} and {r}")
    if bad:
        print("names would fall together: " + ", ".join(bad))
        return 1
    for p, t in out.items():
        open(p, "w", encoding="utf-8").write(t)
    print(f"{len(new)} names in {len(out)} files")
    return 0


sys.exit(main())
