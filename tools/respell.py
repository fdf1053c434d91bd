#!/usr/bin/env python3
"""Brings this repository's own names in specs/, proofs/ and clauses to snake case: definitions, lemmas, fields and constructors.

usage: tools/respell.py [--dry]      at the top of the repository, once, right after port.py

A name turns where it is declared in a file of specs/ or proofs/ of this repository, or where a file imports it from there, and where a field of
a record declared here stands behind a dot. Types, records and modules keep their camel case; source names, strings and comments' plain words stay.
A kebab name whose snake form another own name already has gets '_law' behind it.
"""

import os
import re
import subprocess
import sys

WORD = re.compile(r"[^\s(){}.;,@\"«»]+")
COMMENT = re.compile(r"(?m)(?<![^\s(){}.;,@\"«»])--[^\n]*|\"(?:[^\"\\\n]|\\.)*\"")
DECL = re.compile(r"^[ \t]*((?:(?:abbrev|unfoldable|pub|data|record|ruleset)[ \t]+)*)([^\s(){}.;,@\"«»:]+)((?:[ \t]+\{[^}]*\}|[ \t]+\([^)]*\))*)[ \t]*:[ \t]", re.M)
USE = re.compile(r"(?:ghost\s+)?use\s+(Rattle\.[\w.'+-]+?)\.\{([^}]*)\}")
AS = re.compile(r"use\s+(Rattle\.[\w.'+-]+?)\s+as\s+(\w+)")
GENERATED = {"Statement", "Tie", "Goals", "Given", "Lts", "declared", "contracts"}


def snake(name):
    out = re.sub(r"(?<=[a-z0-9])(?=[A-Z])", "_", name)
    out = re.sub(r"(?<=[A-Z])(?=[A-Z][a-z])", "_", out) if "_" in out else out
    return out.replace("-", "_").lower()


def old_form(name):
    """Whether a declared word is spelled as before: a kebab name, or a camel name that begins small."""
    if not re.match(r"^[a-z][A-Za-z0-9'_-]*$", name):
        return False
    return "-" in name or bool(re.search(r"[A-Z]", name))


def walk(ext):
    for folder, dirs, files in os.walk("crates"):
        dirs[:] = sorted(d for d in dirs if d != "out")
        for f in sorted(files):
            if f.endswith(ext):
                yield os.path.join(folder, f)


def by_hand(path):
    """A proof that walks a function's code: its names are mostly generated ones."""
    return os.path.basename(path) == "Proof.antt"


def bare(text):
    return COMMENT.sub(lambda m: " " * len(m.group()), text)


def module_of(path):
    return "Rattle." + path[len("crates/"):-len(".antt")].replace("/", ".")


def declared(text):
    """Every name that a file declares, those of record fields and constructors among them."""
    names = set()
    for m in DECL.finditer(bare(text)):
        names.add(m.group(2))
    return names


def main(dry):
    files = {p: open(p, encoding="utf-8").read() for p in walk(".antt")}
    own = {}
    for p, t in files.items():
        if not by_hand(p):
            own[module_of(p)] = {n for n in declared(t) if old_form(n)}
    every = set().union(*own.values())
    allnames = set()
    for p, t in files.items():
        if not by_hand(p):
            allnames |= declared(t)
    # one table for the whole repository
    table, taken = {}, {}
    lemmas = set().union(*(declared(t) for p, t in files.items() if "/proofs/" in p and not by_hand(p)))
    specs = set().union(*(declared(t) for p, t in files.items() if "/specs/" in p))
    # a lemma that has the plain form of a definition's name already gives way to it
    for n in sorted(every):
        s = snake(n)
        if "-" not in n and s in lemmas and s not in specs:
            table[s] = s + "_law"
            taken[s + "_law"] = s
            allnames.discard(s)
    for p, t in files.items():
        if not by_hand(p):
            own[module_of(p)] |= declared(t) & set(table)
    for n in sorted(every, key=lambda n: ("-" in n, n)):
        s = snake(n)
        if s in allnames or s in taken or s in KEPT:
            print(f"collision: {n} -> {s} (taken by {taken.get(s, s)})")
            s = s + "_law"
        while s in allnames or s in taken:
            s = s + "'"
        table[n] = s
        taken[s] = n
    fields = set()
    for p, t in files.items():
        if by_hand(p):
            continue
        b = bare(t)
        for m in re.finditer(r"(?m)^[ \t]*(?:pub )?record [A-Z][^=]*?\bwhere[ \t]*\n((?:[ \t]+[^\n]*\n|\n)*)", b):
            for d in DECL.finditer(m.group(1)):
                fields.add(d.group(2))
    fields = {f for f in fields if old_form(f)}

    def names_of(text, path):
        """The words of this file that are this repository's own."""
        got = set(own.get(module_of(path), ())) if path.endswith(".antt") and not by_hand(path) else set()
        heads = set()
        for m in USE.finditer(text):
            if m.group(1) in own:
                got |= {w for w in re.split(r"[\s,]+", m.group(2)) if w in own[m.group(1)]}
        for m in AS.finditer(text):
            if m.group(1) in own:
                heads.add((m.group(2), m.group(1)))
        for m in re.finditer(r"use\s+(Rattle(?:\.[\w'+-]+)+)\s*(?:;|\n)", text):
            if m.group(1) in own:
                heads.add((m.group(1).split(".")[-1], m.group(1)))
        return got, heads

    def turn(code, got, heads, hand):
        out, last, before, head = [], 0, "", ""
        for m in WORD.finditer(code):
            w = m.group()
            dot = m.start() > 0 and code[m.start() - 1] == "."
            new = w
            if dot:
                aliases = [mod for a, mod in heads if a == before]
                if aliases and w in own[aliases[0]]:
                    new = table[w]
                elif w in fields and not hand:
                    new = table[w]
                elif w in fields and hand and not re.search(r"-", w):
                    new = table[w]
            elif w in got or w in fields and not hand:
                new = table[w]
            out.append(code[last:m.start()])
            out.append(new)
            last = m.end()
            before = w
        out.append(code[last:])
        return "".join(out)

    def spans(comment, got):
        def one(m):
            return "`" + WORD.sub(lambda w: table.get(w.group(), w.group()) if w.group() in every and (w.group() in got or "-" in w.group() or True) else w.group(), m.group(1)) + "`"
        return re.sub(r"`([^`\n]*)`", one, comment)

    changed = 0
    for p, t in files.items():
        got, heads = names_of(t, p)
        out, last = [], 0
        for m in COMMENT.finditer(t):
            out.append(turn(t[last:m.start()], got, heads, by_hand(p)))
            c = m.group()
            out.append(spans(c, got) if c.startswith("--") else c)
            last = m.end()
        out.append(turn(t[last:], got, heads, by_hand(p)))
        new = "".join(out)
        if new != t:
            changed += 1
            if not dry:
                open(p, "w", encoding="utf-8").write(new)
    for p in walk(".rt"):
        t = open(p, encoding="utf-8").read()
        got, heads = names_of(t, p)
        out, last = [], 0
        for a, b in clauses(t):
            out.append(t[last:a])
            out.append(turn(t[a:b], got, heads, False))
            last = b
        out.append(t[last:])
        new = re.sub(r"(?m)^([ \t]*//[^\n]*)$", lambda m: m.group(), "".join(out))
        if new != t:
            changed += 1
            if not dry:
                open(p, "w", encoding="utf-8").write(new)
    # two old names in one file under one new name
    for p, t in files.items():
        words = {w.group() for w in WORD.finditer(bare(t))}
        got, heads = names_of(t, p)
        for w in got:
            if table[w] in words:
                print(f"in one file: {p}: {w} and {table[w]}")
    print(f"{len(table)} names, {changed} files")
    if not dry:
        with open("tools/respell.tsv", "w") as f:
            for n, s in sorted(table.items()):
                f.write(f"{n}\t{s}\n")
        for c in sorted(os.listdir("crates")):
            subprocess.run(["rt", "fmt"], cwd=os.path.join("crates", c), stdout=subprocess.DEVNULL, stderr=subprocess.DEVNULL)


def clauses(t):
    """The spans of ghost use items and of clauses in a .rt file."""
    spans = []
    for m in re.finditer(r"(?m)^[ \t]*ghost use [^;]*;", t):
        spans.append((m.start(), m.end()))
    for m in re.finditer(r"(?m)(?:^|(?<=\s))(?:requires|ensures|ghost)\b\s*\*?\s*(?:\w+\s*)?(?::\s*)?\{", t):
        depth, i = 1, m.end()
        while i < len(t) and depth:
            depth += {"{": 1, "}": -1}.get(t[i], 0)
            i += 1
        spans.append((m.end(), i - 1))
    return sorted(spans)


# Words of the language and of its library that a snake name may not take.
KEPT = {"record", "ruleset", "data", "open", "use", "let", "in", "elim", "rw", "simp", "search"}

if __name__ == "__main__":
    main("--dry" in sys.argv[1:])
