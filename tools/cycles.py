#!/usr/bin/env python3
"""Turns the proofs of cycles of calls, `proofs/+NAME/Proof.antt` with `Proof/*.antt`, to `Invariants.antt` and `Answers.antt`.

usage, at the top of the repository:  python3 tools/cycles.py CRATE NAMES.json [CYCLE..]

NAMES.json is what `rt check --generated DIR --old-names` writes in the crate's folder. The older files go to CRATE.+NAME/ of the folder that answers.py names. It goes by text: rt check decides.
"""

import json
import os
import re
import shutil
import sys

sys.path.insert(0, os.path.dirname(os.path.abspath(__file__)))
import answers
from answers import Names, W, answer, blocks, invariant, norm, PREFIX


class CycleNames(Names):
    """In a cycle the older `requires` is the pair of the measure's equation and what the member asks."""

    members = ()

    def member(self, new):
        return any(norm(new).startswith(norm(m) + "_") for m in self.members)

    def path(self, fields):
        f = [x for x in fields if x != "before"]
        if f and norm(f[0]) in ("requires", "pre"):
            if len(f) > 1 and f[1] == "0":
                return ["decreases"] + f[2:]
            if len(f) > 1 and f[1] == "1":
                return ["requires"] + answers.clause(self.pre, f[2:])
        return Names.path(self, fields)


def outside(text):
    """The declarations of the sections `module _ (t : ℕ)`, without the sections, and the names that take t."""
    out, inside, names = [], False, []
    for l in text.split("\n"):
        if l.startswith("module _ (t :"):
            inside = True
            continue
        if inside and l.startswith("  "):
            l = l[2:]
            m = re.match(r"(?:(?:abbrev|unfoldable|pub) )*(\S+) :", l)
            if m and not l.startswith(" "):
                names.append(m[1])
        elif inside and l.strip():
            inside = False
        out.append(l)
    return "\n".join(out), names


def measure(name, rhs, params):
    """The older measure of the arguments a, as one of the record l."""

    def at(m):
        return "l." + norm(params[m[1].count(".1")])

    return re.sub(r"(?<![\w.'′-])a((?:\.1)*)\.0(?![\w'′-])", at, rhs)


def member_measures(folder):
    found, bases = {}, []
    for f in sorted(os.listdir(folder)):
        t = open(os.path.join(folder, f), encoding="utf-8").read()
        for m in re.finditer(r"^μ-(\S+) κs a = *((?:.*\n)(?: .*\n)*)", t, re.M):
            found[m[1]] = m[2].rstrip()
        if not re.search(r"\.Lts-\S+ as lts", t):
            bases.append((f, t))
    return found, bases


def turn(folder, crate, names_all):
    rel = os.path.relpath(folder, os.path.join("crates", crate, "proofs")).replace("/", ".")
    where = f"Rattle.{crate}.proofs.{rel}"
    sub = os.path.join(folder, "Proof")
    measures, bases = member_measures(sub)
    files = [f for f in sorted(os.listdir(sub)) if f not in [b for b, _ in bases]]
    params_of = {}
    for d in names_all.values():
        if isinstance(d, dict):
            params_of.update(d.get("params", {}))
    members = {}
    for f in files:
        t = open(os.path.join(sub, f), encoding="utf-8").read()
        members[re.search(r"\.Lts-(\S+) as lts", t)[1]] = (f, t)
    uses_inv, inv, uses, ans, own, base_own, lost = [], [], [], [], [], [], []
    base_uses = []
    for f, t in bases:
        head, us, decls = blocks(outside(t)[0])
        base_uses += keep(us)
        for comments, decl in decls:
            n = re.match(r"(?:(?:abbrev|unfoldable|pub) )*(\S+)", decl[0])[1]
            if n.startswith("μ-") or re.search(r": ℕ → (?:borrow\.\S*)?In \d", decl[0]) or re.search(r"\b(is|falls) \d+ \S+-kinds|and \d+ \S+-kinds", "\n".join(decl)):
                continue
            base_own.append((comments, "\n".join(decl), n))
    for member in members:
        # A member of a module: its older file has `-` where its path has `::`.
        flat = lambda k: norm(k.replace("::", "-"))
        label = next((k for k in measures if flat(k) == norm(member)), member)
        key = [k for k in params_of if norm(k.split("::")[-1]) == norm(label.split("::")[-1])]
        path = [k for k in key if flat("::".join([crate] + rel.split(".")[:-1] + [label])) == flat(k)] or key
        rhs = measures.get(label) or measures.get(member.replace("_", "-"))
        label = "::".join(norm(x) for x in label.split("::")) if "::" in label else member
        if rhs and path:
            rhs = measure(member, rhs, params_of[path[0]])
        elif rhs and re.search(r"(?<![\w.])a\.", rhs):
            rhs = rhs + "  -- by hand: which parameters"
        name = f"decreases-{label}"
        inv.append(([], f"abbrev pub {name} : goal.{name}\n{name} l = {rhs or '?'}"))
    for member, (f, t) in members.items():
        d = names_all.get(f"Rattle-{crate}-proofs.{rel}.Lts-{member}")
        if d is None:
            print("no names for", rel, member)
            return False
        names = CycleNames(d)
        names.members = tuple(members)
        stem = d.get("stem") or ""
        text, timed = outside(t)
        more = r"(?: (?:Inv|μ)-loop\w*)*"
        text = re.sub(r"(lts\.[\w-]+) \(calls t\) \(\S+ t\) [\w-]+\.Post" + more, r"\1", text)
        # The answers of the form `returns t : ..` are named bare within the section.
        head, us, decls = blocks(text)
        us = keep(us)
        for comments, decl in decls:
            m = re.match(r"(?:(?:abbrev|unfoldable|pub) )*(\S+) : *(.*)", decl[0])
            name, typ = (m[1], m[2]) if m else ("", "")
            if typ == "" and len(decl) > 1:
                typ = decl[1].strip()
            if name == "calls":
                continue
            k = re.match(r"(Inv|μ)-(loop.*)$", name)
            if k and re.match(r"lts\.(invariant|decreases)-", typ):
                old = typ.split(".")[1].split()[0]
                decl = [re.sub(r"(?<![\w'′.-])" + re.escape(name) + r"(?![\w'′-])", old, l) for l in decl]
                i = invariant(decl, old, None, names, False)
                if i and stem:
                    i = re.sub(r"(?<![\w-])(invariant|decreases)-(?=loop)", r"\1-" + stem, i)
                if i is None:
                    lost.append(decl)
                else:
                    inv.append((comments, i))
                    uses_inv += us
                continue
            n = re.match(r"\(?lts\.Need-([^\s)]+)", typ)
            if n:
                need, new = n[1], None
                for k in (norm(need), norm(PREFIX.sub("", need)), norm(name)):
                    if k in names.needs:
                        new = names.needs[k]
                        break
                if new is None or new in names.settled:
                    if new is None:
                        lost.append(decl)
                    continue
                a = answer(decl, name, new, names, True, False)
                if a and stem:
                    a = re.sub(r"(?m)^(pub )?" + re.escape(new) + r"(?= )", r"\1" + stem + new, a)
                    a = a.replace(f": goal.{new}\n", f": goal.{stem}{new}\n", 1)
                if a is None:
                    lost.append(decl)
                elif a:
                    ans.append(([f"-- {member}"], a))
                continue
            body = "\n".join(decl)
            if "lts." in body:
                body = re.sub(r"\blts\.([\w-]+)", lambda m: "goal." + names.place.get(norm(m[1]), m[1]), body)
                body = answers.inline(body, names, "c", True)
            own.append((comments, body, name))
        uses += us
    inv_text = "\n".join(t for _, t in inv)
    in_inv = closure(base_own + own, inv_text)
    rest = [o for o in base_own + own if o not in in_inv]
    out = [f"-- The measures and invariants of the cycle of calls {{{', '.join(members)}}}."] + unique(base_uses + uses_inv) + [f"use {where}.Given as goal", ""]
    for c, b, n in in_inv:
        out += c + [public(b), ""]
    for c, b in inv:
        out += c + [b, ""]
    os.makedirs(answers.OLD_PROOFS, exist_ok=True)
    to = f"{answers.OLD_PROOFS}/{crate}.{rel}"
    shutil.rmtree(to, ignore_errors=True)
    os.makedirs(to)
    shutil.move(os.path.join(folder, "Proof.antt"), to)
    shutil.move(sub, to)
    with open(os.path.join(folder, "Invariants.antt"), "w", encoding="utf-8") as f:
        f.write("\n".join(out).rstrip("\n") + "\n")
    all_text = "\n".join(t for _, t in ans) + "\n".join(o[1] for o in rest)
    extra = []
    cited = [n for _, _, n in in_inv if re.search(r"(?<![\w'′.-])" + re.escape(n) + r"(?![\w'′-])", all_text)]
    if cited:
        extra.append(f"use {where}.Invariants.{{{', '.join(cited)}}}")
    if "(ap not " in all_text:
        extra += ["use mathlib.Core.Path.{ap}", "use mathlib.Core.Bool.{not}"]
    out = [f"-- The answers of the cycle of calls {{{', '.join(members)}}}."] + unique(base_uses + uses + extra) + [f"use {where}.Goals as goal", ""]
    for c, b, n in rest:
        out += c + [b, ""]
    for c, b in ans:
        out += c + [b, ""]
    for decl in lost:
        out += ["-- LOST: the older form had, for which no goal was found:"] + ["-- " + l for l in decl] + [""]
    with open(os.path.join(folder, "Answers.antt"), "w", encoding="utf-8") as f:
        f.write("\n".join(out).rstrip("\n") + "\n")
    return True


def closure(decls, text):
    """The declarations that the text names, and those that they name."""
    found, more = [], True
    while more:
        more = False
        for o in decls:
            if o not in found and re.search(r"(?<![\w'′.-])" + re.escape(o[2]) + r"(?![\w'′-])", text):
                found.append(o)
                text += "\n" + o[1]
                more = True
    return [o for o in decls if o in found]


def public(b):
    return b if re.match(r"(abbrev |unfoldable )?pub ", b) else re.sub(r"^((?:abbrev |unfoldable )?)", r"\1pub ", b)


def keep(uses):
    return [u for u in uses if ".specs." in u or not re.search(r"\.(Statement|Tie|Reads|Kinds)\b|\.\+[\w-]+(\.|$)|borrow\.Fn\.", u)]


def unique(uses):
    """Each name once: the lines of one module are joined."""
    mods, plain, have = {}, [], set()
    for u in uses:
        m = re.match(r"use (\S+)\.\{(.*)\}$", u)
        if not m:
            if u not in plain:
                plain.append(u)
            continue
        for n in re.split(r", *", m[2]):
            local = n.split(" as ")[-1]
            if local not in have:
                have.add(local)
                mods.setdefault(m[1], []).append(n)
    return plain + [f"use {k}.{{{', '.join(v)}}}" for k, v in mods.items()]


def main(argv):
    crate, file, only = argv[0], argv[1], [x.lstrip("+") for x in argv[2:]]
    names_all = json.load(open(file, encoding="utf-8"))
    for folder, dirs, files in os.walk(os.path.join("crates", crate, "src")):
        for f in files:
            answers.SOURCE += open(os.path.join(folder, f), encoding="utf-8").read()
    n = 0
    for folder, dirs, files in sorted(os.walk(os.path.join("crates", crate, "proofs"))):
        last = os.path.basename(folder)
        if last.startswith("+") and "Proof.antt" in files and "Proof" in dirs and (not only or last[1:] in only):
            n += turn(folder, crate, names_all)
    print("turned cycles:", n)


if __name__ == "__main__":
    main(sys.argv[1:])
