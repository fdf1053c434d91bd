#!/usr/bin/env python3
"""Turns proofs/F/Proof.antt, a proof that walks the code by hand, to Invariants.antt and Answers.antt.

usage: tools/walks_to_answers.py NAMES_JSON CRATE LANDED [FUNCTION..]

NAMES_JSON is what `rt check --generated DIR --old-names` wrote for the crate CRATE, LANDED a checkout of the commit before the port. Goals that
the check finds by itself get no answer. What it cannot turn stands in the new file as it was, behind '-- by hand'.
"""

import json
import os
import re
import subprocess
import sys

WORD = re.compile(r"[^\s(){}\[\];,@\"«»]+")
TRIVIAL = re.compile(r"^\(?\s*(search rules|omega arith|search \(rules\)|refl|tt|,|\(|\)|\s)*\)?$")


def norm(x):
    x = re.sub(r"_lem$|_law$|_fact$", "", x)
    return x.replace("-", "_").replace("'", "_")


def items(text):
    """The uses, and each item: its comment, signature lines, unfolding line, clauses."""
    uses, out, cur, comment = [], [], None, []
    for line in text.split("\n"):
        if re.match(r"use ", line):
            uses.append(line)
            cur = None
            comment = []
            continue
        if line.startswith("--"):
            comment.append(line)
            cur = None
            continue
        if not line.strip():
            cur = None
            continue
        if line[0] in " \t)]}":
            if cur is not None:
                cur["lines"].append(line)
            continue
        head = re.match(r"((?:abbrev|pub|unfoldable)\s+)*(\S+)", line)
        m = re.match(r"(?:(?:abbrev|pub|unfoldable) )*(\S+)((?: \{[^}]*\})*) :(?: |$)", line)
        if m:
            it = {"name": m.group(1), "comment": comment, "sig": [line], "unfolding": None, "clauses": [], "head": line}
            out.append(it)
            comment = []
            cur = {"lines": it["sig"]}
        elif line.startswith("unfolding "):
            out[-1]["unfolding"] = line
            cur = None
        elif line.startswith("module ") or line.startswith("data ") or line.startswith("record "):
            it = {"name": line, "comment": comment, "sig": [line], "unfolding": None, "clauses": [], "head": line, "raw": True}
            out.append(it)
            comment = []
            cur = {"lines": it["sig"]}
        else:
            it = out[-1] if out else None
            if it is None:
                continue
            cl = [line]
            it["clauses"].append(cl)
            cur = {"lines": cl}
    return uses, out


def split_clause(cl):
    """Parameters and body of a clause."""
    t = "\n".join(cl)
    depth = 0
    for i, ch in enumerate(t):
        if ch in "({[":
            depth += 1
        elif ch in ")}]":
            depth -= 1
        elif ch == "=" and depth == 0 and t[i - 1] in " \n" and (i + 1 == len(t) or t[i + 1] in " \n"):
            return t[:i].split()[1:], t[:i], t[i + 1:].strip()
    return None, t, ""


class Function:
    def __init__(self, key, data, path, landed):
        self.key, self.d, self.path = key, data, path
        self.text = open(path, encoding="utf-8").read()
        self.uses, self.items = items(self.text)
        old = landed
        self.old_needs = re.findall(r"(?m)^(\S+) : tie\s*\.Need-(\S+)", old)
        self.steps, self.place_index = {}, {}
        for i, p in enumerate(data["places"]):
            self.place_index[norm(p[0])] = i
            o, n = p[2]
            if o:
                self.steps.setdefault(norm(o), []).append((i, n))
        self.parents = {p[0]: p[1] for p in data["places"]}
        self.notes = []

    def ancestors(self, place):
        out = []
        while place is not None:
            out.append(place)
            place = self.parents.get(place)
        return out

    def place_by(self, name):
        for p in self.d["places"]:
            if norm(p[0]) == norm(name):
                return p[0]
        return None

    # ---- a chain c.before.before.step.field
    def chain(self, var, fields, place):
        anc = self.ancestors(place) if place else None
        fs = [f for f in fields]
        while fs and fs[0] == "before":
            fs.pop(0)
        if not fs:
            return var
        f = fs[0]
        rest = fs[1:]
        if f in ("pre",):
            f = "requires"
        if f == "requires" and rest and rest[0].isdigit() and self.d.get("pre"):
            names = self.d["pre"].get("fields") or []
            k = int(rest[0])
            if k < len(names):
                rest = [names[k]] + rest[1:]
        cands = self.steps.get(norm(f), [])
        if anc is not None and cands:
            good = [(i, n) for i, n in cands if self.d["places"][i][0] in anc]
            cands = good or cands
        if not cands:
            # an arm's step that the new record has under in-V
            hit = self.arm(f, rest, anc)
            if hit:
                return var + "." + ".".join(hit)
            return ".".join([var, f] + rest)
        i, n = cands[0]
        hit = self.arm(f, rest, anc)
        if hit:
            return var + "." + ".".join(hit)
        # renamed fields
        ren = {}
        for j, _ in cands:
            for a, b in self.d["places"][j][4] or []:
                ren[a] = b
        if rest and rest[0] in ren:
            rest = [ren[rest[0]]] + rest[1:]
        elif rest and rest[0] == "taken":
            rest = ["true"] + rest[1:]
        elif rest and rest[0] == "left":
            rest = ["false"] + rest[1:]
        if rest and rest[0] == "ensures" and len(rest) > 1 and rest[1].isdigit():
            for j, _ in cands:
                c = self.d["clauses"][j] if j < len(self.d["clauses"]) else None
                if c and c.get("fields") and int(rest[1]) < len(c["fields"]):
                    rest = ["ensures", c["fields"][int(rest[1])]] + rest[2:]
                    break
        return ".".join([var, n] + rest)

    def arm(self, f, rest, anc):
        best = None
        for i, a in enumerate(self.d["arms"]):
            if not a or (anc is not None and self.d["places"][i][0] not in anc):
                continue
            for new, step, path in a[2]:
                if not path or norm(step) != norm(f):
                    continue
                if rest[: len(path)] == path and (best is None or len(path) > best[0]):
                    best = (len(path), [a[0], new] + rest[len(path):])
        return best[1] if best else None

    def rewrite(self, text, places):
        """Chains that begin at a variable of places, a map from its name to the old place."""

        def one(m):
            w = m.group()
            lead = ""
            parts = w.split(".")
            if parts[0] in places and len(parts) > 1:
                return self.chain(parts[0], parts[1:], places[parts[0]])
            return w

        return WORD.sub(one, text)

    def aliases(self, body, places):
        """let s = c.before.. in: s is a place too."""
        out = dict(places)
        for m in re.finditer(r"let (\S+) = (\S+) in", body):
            parts = m.group(2).split(".")
            if parts[0] in out and all(p == "before" for p in parts[1:]):
                out[m.group(1)] = None
        return out

    def turn(self):
        d = self.d
        inv, answers, plain, helpers, byhand = [], [], [], {}, []
        needs = {}
        for o, n in d["needs"]:
            needs[norm(o)] = (o, n)
        asked = {}
        k = 0
        names = list(self.old_needs)
        count = 0
        for it in self.items:
            sig = "\n".join(it["sig"])
            if it.get("raw"):
                plain.append(it)
                continue
            if it["name"].endswith(("-spec", "_spec")) and ("statement" in sig):
                continue
            m = re.search(r"tie\.(invariant|InvT)-?(\S*)", sig)
            if "tie.Need-" in sig or re.match(r"^\S+ : tie\s*\.Need-", sig):
                old = names[count][1] if count < len(names) else None
                count += 1
                it["old"] = old
                needs_item = it
                self.need(it, needs, answers, byhand)
                continue
            if re.search(r": tie\.(invariant|InvT|decreases|MeasureT)", sig):
                self.invariant(it, inv, byhand)
                continue
            if "tie." in sig:
                helpers[it["name"]] = it
                continue
            plain.append(it)
        self.write(inv, answers, plain, helpers, byhand)

    def invariant(self, it, inv, byhand):
        sig = "\n".join(it["sig"])
        m = re.search(r": tie\.((?:invariant|decreases)\S*)", sig)
        if not m or len(it["clauses"]) != 1:
            byhand.append(it)
            return
        kind, _, loop = m.group(1).partition("-")
        params, _, body = split_clause(it["clauses"][0])
        for j, ((o, n), vars_) in enumerate(self.d["loops"]):
            if norm(o) == norm(loop):
                changed = self.d["changed"][j]
                table = {}
                want = list(vars_) + [v for v, c in zip(vars_, changed) if c]
                if len(want) != len(params):
                    self.notes.append(f"{it['name']}: {len(params)} parameters for {want}")
                    byhand.append(it)
                    return
                for q, p in enumerate(params):
                    if q < len(vars_):
                        table[p] = ("l.initial." if changed[q] else "l.") + want[q]
                    else:
                        table[p] = "l." + want[q]
                table.pop("_", None)
                body = self.subst(body, table)
                inv.append((f"{kind}-{n}", it["comment"], it["unfolding"], body))
                return
        byhand.append(it)

    def subst(self, body, table):
        def one(m):
            w = m.group()
            parts = w.split(".")
            if parts[0] in table:
                return ".".join([table[parts[0]]] + parts[1:])
            return w

        return WORD.sub(one, body)

    def need(self, it, needs, answers, byhand):
        old = it["old"]
        if old is None:
            byhand.append(it)
            return
        o = norm(old)
        o = re.sub(r"^(loop\d*(?:_in_\w+)?)_holds$", r"\1_init", o)
        o = re.sub(r"_holds$", "_init", o) if o not in needs and re.sub(r"_holds$", "_init", o) in needs else o
        o = re.sub(r"_less$", "_smaller", o) if o not in needs else o
        o = re.sub(r"_again$", "_preserved", o) if o not in needs else o
        if o not in needs:
            it["missing"] = True
            byhand.append(it)
            return
        jold, jnew = needs[o]
        i = [a for a, b in self.d["needs"]].index(jold)
        place = self.d["asked_at"][i][0] if i < len(self.d["asked_at"]) else None
        it["goal"], it["place"], it["jold"] = jnew, place, jold
        answers.append(it)

    def lets(self, body, helpers, seen, place):
        """The helper lemmas that a body calls, as lets in front of it."""
        out = []
        for name in list(helpers):
            if name in seen:
                continue
            if re.search(r"(?<![^\s(){}\[\];,@])" + re.escape(name) + r"(?![^\s(){}\[\];,.@])", body):
                seen.add(name)
                h = helpers[name]
                sig = "\n".join(h["sig"])
                m = re.search(r":\s*\((\w+) : tie\.([^\s)]+)", sig)
                n = re.match(r"(?:(?:abbrev|pub|unfoldable) )*\S+ : tie\.([^\s)]+)([^→(]*)→", sig)
                if n and len(h["clauses"]) == 1:
                    v = split_clause(h["clauses"][0])[0][0]
                    sig = sig[:n.start(1) - 4] + f"({v} : tie.{n.group(1)}{n.group(2).rstrip()}) →" + sig[n.end():]
                    m = re.search(r":\s*\((\w+) : tie\.([^\s)]+)", sig)
                if not m or len(h["clauses"]) != 1:
                    out.append((name, None, None, h))
                    continue
                start = sig.index("(" + m.group(1) + " : tie.")
                depth, e = 0, start
                while True:
                    if sig[e] == "(":
                        depth += 1
                    elif sig[e] == ")":
                        depth -= 1
                        if depth == 0:
                            break
                    e += 1
                ty = sig[e + 1:].strip()
                ty = re.sub(r"^→\s*", "", ty)
                params, _, b = split_clause(h["clauses"][0])
                v = m.group(1)
                hplace = self.place_by(m.group(2)) or place
                p = {v: hplace}
                ty = self.rewrite(ty, self.aliases(ty, p))
                b = self.rewrite(b, self.aliases(b, p))
                if params and params[0] != v:
                    b = re.sub(r"(?<![\w'.-])" + re.escape(params[0]) + r"(?![\w'-])", v, b)
                if v != "c":
                    ty = re.sub(r"(?<![\w'.-])" + re.escape(v) + r"(?=[.\s)])", "c", ty)
                    b = re.sub(r"(?<![\w'.-])" + re.escape(v) + r"(?=[.\s)])", "c", b)
                if len(params) > 1:
                    b = "λ " + " ".join(params[1:]) + ". " + b
                for q in self.lets(b + " " + ty, helpers, seen, hplace):
                    out.append(q)
                out.append((name, ty, b, h))
        return out

    def drop_calls(self, text, names):
        for n in names:
            text = re.sub(r"\(" + re.escape(n) + r" \(?c\)?\)", n, text)
            text = re.sub(r"(?<![^\s(){}\[\];,@])" + re.escape(n) + r" c(?![^\s(){}\[\];,@])", n, text)
        return text

    def write(self, inv, answers, plain, helpers, byhand):
        folder = os.path.dirname(self.path)
        mod = "Rattle." + folder[len("crates/"):].replace("/", ".")
        skip = re.compile(r"use (borrow\.Author\.(Rules|Needs)\.\{rules\}$|.*\.Statement\.|.*\.Tie as |.*\.Tie\b)")
        uses = [u for u in self.uses if not re.search(r"\.Statement\.\{|\.Tie( as|$)", u)]
        head = re.match(r"((?:--[^\n]*\n)*)", self.text).group(1)
        if inv or any(re.search(r"tie\.(invariant|decreases)", "\n".join(i["sig"])) for i in byhand):
            t = head + "\n".join(uses) + f"\nuse {mod}.Given as goal\n"
            for it in plain:
                body = "\n".join(b for _, _, _, b in inv)
                if re.search(r"(?<![^\s(){}\[\];,@])" + re.escape(it["name"]) + r"(?![^\s(){}\[\];,.@])", body):
                    t += "\n" + raw(it)
            for name, comment, unfolding, body in inv:
                t += "\n" + "".join(c + "\n" for c in comment) + f"abbrev pub {name} : goal.{name}\n" + (unfolding + "\n" if unfolding else "") + f"{name} l = {body}\n"
            for it in byhand:
                if re.search(r"tie\.(invariant|decreases)", "\n".join(it["sig"])):
                    t += "\n-- by hand\n" + raw(it)
            open(os.path.join(folder, "Invariants.antt"), "w", encoding="utf-8").write(t)
        done, out = 0, ""
        for it in answers:
            if len(it["clauses"]) != 1:
                out += "\n-- by hand\n" + raw(it)
                continue
            params, _, body = split_clause(it["clauses"][0])
            v = params[0] if params else "c"
            places = {v: it["place"]}
            body = self.rewrite(body, self.aliases(body, places))
            if v != "c":
                body = re.sub(r"(?<![\w'.-])" + re.escape(v) + r"(?=[.\s),])", "c", body)
            if TRIVIAL.match(body):
                continue
            ls = self.lets(body, helpers, set(), it["place"])
            names = [n for n, _, _, _ in ls]
            unf = []
            if it["unfolding"]:
                unf += it["unfolding"].split()[1:]
            lead = ""
            for n, ty, b, h in ls:
                if ty is None:
                    lead += f"-- by hand: {n}\n"
                    continue
                if h["unfolding"]:
                    unf += [u for u in h["unfolding"].split()[1:] if u not in unf]
                ty = self.drop_calls(ty, names)
                b = self.drop_calls(b, names)
                lead += f"    let {n} : {ty} =\n        {b} in\n"
            body = self.drop_calls(body, names)
            fields = self.d["asked"].get(it["jold"])
            if fields and body.startswith("(") and body.endswith(")"):
                parts = top_commas(body[1:-1])
                if len(parts) == len(fields):
                    body = "record {\n" + "".join(f"    {f} = {p.strip()};\n" for f, p in zip(fields, parts)) + "  }"
            g = it["goal"]
            out += "\n" + "".join(c + "\n" for c in it["comment"]) + f"pub {g} : goal.{g}\n"
            if unf:
                out += "unfolding " + " ".join(unf) + "\n"
            out += f"{g} c =" + (f"\n{lead}    {body}\n" if lead else f" {body}\n")
            done += 1
        extra = ""
        for it in plain:
            extra += "\n" + raw(it)
        rest = ""
        for it in byhand:
            if re.search(r"tie\.(invariant|decreases)", "\n".join(it["sig"])):
                continue
            b = split_clause(it["clauses"][0])[2] if it["clauses"] else ""
            if TRIVIAL.match(b):
                continue
            rest += "\n" + "".join("-- by hand: " + l + "\n" for l in raw(it).rstrip("\n").split("\n"))
        if out or rest:
            t = head + "\n".join(uses) + f"\nuse {mod}.Goals as goal\n" + extra + out + rest
            open(os.path.join(folder, "Answers.antt"), "w", encoding="utf-8").write(t)
        os.remove(self.path)
        print(f"{self.key}: {done} answers, {len(inv)} invariants" + (", by hand: " + " ".join(i["name"] for i in byhand if not TRIVIAL.match(split_clause(i["clauses"][0])[2] if i["clauses"] else "")) if byhand else "") + ("; " + "; ".join(self.notes) if self.notes else ""))


def top_commas(t):
    out, depth, last = [], 0, 0
    for i, ch in enumerate(t):
        if ch in "({[":
            depth += 1
        elif ch in ")}]":
            depth -= 1
        elif ch == "," and depth == 0:
            out.append(t[last:i])
            last = i + 1
    return out + ([t[last:]] if t[last:].strip() else [])


def raw(it):
    return "".join(c + "\n" for c in it["comment"]) + "\n".join(it["sig"]) + "\n" + (it["unfolding"] + "\n" if it["unfolding"] else "") + "".join("\n".join(c) + "\n" for c in it["clauses"])


def main(names, crate, landed, *only):
    data = json.load(open(names))
    for key, d in data.items():
        if "needs" not in d:
            continue
        fn = key[len(f"Rattle-{crate}-proofs."):-len(".Lts")]
        if only and fn not in only:
            continue
        path = f"crates/{crate}/proofs/{fn.replace('.', '/')}/Proof.antt"
        old = os.path.join(landed, path)
        if not os.path.exists(path) or not os.path.exists(old):
            if "needs" in d and d["needs"]:
                print(f"{key}: no {path}")
            continue
        Function(key, d, path, open(old, encoding="utf-8").read()).turn()


if __name__ == "__main__":
    main(*sys.argv[1:])
