#!/usr/bin/env python3
"""Turns the Proof.antt files of a crate, whose proofs are tied by `tie.spec`, to Invariants.antt and Answers.antt.

usage: python3 tools/answers.py CRATE NAMES.json [FUNCTION..]

NAMES.json is what `rt check --generated DIR --old-names` writes in the crate's folder. An answer `search rules` goes, since the check tries that
itself. What is proved elsewhere in the file stays beside the answers. It goes by text: rt check decides.
"""

import json
import os
import re
import sys
import tempfile

# Where the older files go.
OLD_PROOFS = os.path.join(tempfile.gettempdir(), "old-proofs")

W = r"[^\s(){}.;,@\"«»\[\]\\]+"
CHAIN = re.compile(r"(?<![\w.'-])([A-Za-z_][\w'′₀-₉-]*)((?:\." + W + r")+)")
norm = lambda s: s.replace("-", "_")
PREFIX = re.compile(r"^(overflow|nonzero|offset|slice)[-_](?!of)")


TOLD = re.compile(r"(?<![\w.'-])[\w'-]+\.known_told[\w-]*\.given\.0\.1(?![\w.])")
REST = re.compile(r"(?<![\w.'-])[\w'-]+\.in[-_][\w-]+\.rest(?:\.[01])+(?![\w.])")


def blocks(text):
    """The header's comment lines, the use lines, and the declarations, each with the comment lines above it."""
    lines = text.rstrip("\n").split("\n")
    head, uses, decls, i = [], [], [], 0
    while i < len(lines) and (lines[i].startswith("--") or not lines[i].strip()):
        if lines[i].strip():
            head.append(lines[i])
        i += 1
    cur, comments = None, []
    while i < len(lines):
        l = lines[i]
        if re.match(r"(pub )?use ", l):
            uses.append(l)
        elif l.startswith("--"):
            comments.append(l)
            cur = None
        elif not l.strip():
            if cur is not None and i + 1 < len(lines) and not lines[i + 1].startswith(" "):
                cur = None
        elif l.startswith(" ") or l.startswith(")"):
            (cur if cur is not None else decls[-1][1]).append(l)
        else:
            m = re.match(r"(?:(?:abbrev|unfoldable|pub) )*(\S+) ", l)
            name = m[1] if m else l.split()[0]
            if cur is not None and cur_name == name or l.startswith("unfolding"):
                cur.append(l)
            else:
                cur, cur_name = [l], name
                decls.append((comments, cur))
                comments = []
        i += 1
    return head, uses, decls


def clause(pre, f):
    """The path within a requires of several clauses, which were a pair of the first and the rest, or a tuple."""
    if not pre or len(pre) < 2 or not f or not f[0].isdigit():
        return f
    n, i, rest = len(pre), 0, f
    if n > 2 and f == ["1"]:
        return f
    if n > 2 and f[0] == "1" and len(f) > 1 and f[1] in ("0", "1") or n == 2 or f[0] == "0":
        while rest and rest[0] == "1" and i < n - 1:
            i, rest = i + 1, rest[1:]
        if i < n - 1:
            if not rest or rest[0] != "0":
                return f
            rest = rest[1:]
        return [pre[i]] + rest
    return [pre[int(f[0])]] + f[1:] if int(f[0]) < n else f


def as_record(whole, fields):
    """A tuple or nested pairs as a record of the fields, or None."""
    if not fields or len(fields) < 2 or not (whole.startswith("(") and whole.endswith(")")) or not closes(whole):
        return None
    parts = [p.strip() for p in split(whole[1:-1])]
    while len(parts) < len(fields) and len(parts) > 1 and parts[-1].startswith("(") and closes(parts[-1]) and len(split(parts[-1][1:-1])) > 1:
        parts = parts[:-1] + [p.strip() for p in split(parts[-1][1:-1])]
    if len(parts) > len(fields):
        parts = parts[: len(fields) - 1] + ["(" + ", ".join(parts[len(fields) - 1 :]) + ")"]
    if len(parts) > 1 and len(parts) < len(fields) and infers(parts[-1]):
        tail = projections("rest", len(fields) - len(parts) + 1)
        return f"let rest = {parts[-1]} in record {{ " + "; ".join(f"{f} = {p}" for f, p in zip(fields, parts[:-1] + tail)) + " }"
    if len(parts) != len(fields):
        return None
    return "record { " + "; ".join(f"{f} = {p}" for f, p in zip(fields, parts)) + " }"


def projections(name, n):
    """The parts of nested pairs."""
    return [name + ".1" * i + (".0" if i < n - 1 else "") for i in range(n)]


def infers(text):
    """Whether a term is the use of a lemma or a name, whose type is known from it."""
    return bool(re.match(r"[A-Za-z]", text)) and not re.match(r"(rw|record|let|search|omega|elim|grind|absurd|refl)\b", text)


def last_in(text):
    """Where the last term begins, behind the lets above it."""
    depth, at = 0, 0
    for m in re.finditer(r"[(\[{]|[)\]}]|\bin(?=\s)", text):
        if m[0] == "in":
            if depth == 0:
                at = m.end()
        else:
            depth += 1 if m[0] in "([{" else -1
    return at + len(text[at:]) - len(text[at:].lstrip())


def closes(text):
    """Whether the first parenthesis closes at the end."""
    depth = 0
    for i, ch in enumerate(text):
        depth += (ch in "([{") - (ch in ")]}")
        if depth == 0:
            return i == len(text) - 1
    return False


class Names:
    def __init__(self, d):
        self.needs = {}
        for old, new in d["needs"]:
            self.needs.setdefault(norm(old), new)
        self.settled = set(d.get("settled", []))
        self.labels, self.arms, self.clauses = {}, {}, {}
        for place in d["places"]:
            old, new = place[2]
            if old:
                self.labels.setdefault(norm(old), new)
        # What an arm knows, by the step that gave it in the older form.
        for arm in d["arms"]:
            if arm:
                for field, label, rest in arm[2]:
                    if rest:
                        self.arms[(norm(label), tuple(rest))] = arm[0] + "." + field
        for arm in d["arms"]:
            if arm:
                for field, label, rest in arm[2]:
                    self.arm_labels = getattr(self, "arm_labels", {})
                    self.arm_labels.setdefault(norm(label), arm[0])
        self.place = {norm(p[0]): n for p, n in zip(d["places"], d["places_by_name"])}
        # The function that a step calls, and the names of its parameters.
        self.callee = {norm(p[2][0]): d["params"].get(p[3], []) for p in d["places"] if len(p) > 3 and p[3]}
        self.typed = {}
        for row in d["typed"]:
            for var, label in row:
                self.typed.setdefault(norm(label), var)
        self.loops = {}
        for (old, new), variables in d["loops"]:
            self.loops[norm(old)] = (new, variables)
        self.changed = d["changed"]
        self.pre = d["pre"]["fields"] if d["pre"] else None
        self.asked = d["asked"]
        # The same by the new name of the goal; an older name may have a number behind it.
        self.asked_by = {}
        for old, new in d["needs"]:
            for k in (old, re.sub(r"-\d+$", "", old), re.sub(r"\d*-requires", "-requires", re.sub(r"-\d+$", "", old))):
                if k in d["asked"]:
                    self.asked_by.setdefault(new, d["asked"][k])
        for place, row in zip(d["places"], d["clauses"]):
            if row:
                self.clauses[norm(place[2][0])] = row

    def whole(self, root, p):
        """A path; of clauses that have names now, each by its name, where all of them or all but the first are meant."""
        at = ".".join([root] + p)
        fields = None
        for i, x in enumerate(p):
            if x == "requires" and i == 0:
                fields = self.pre
            elif x == "ensures":
                row = next((r for k, r in self.clauses.items() if norm(self.labels.get(k, k)) == norm(p[0])), None)
                fields = row["fields"] if row and i == 1 else None
            if fields and len(fields) > 1 and x in ("requires", "ensures"):
                rest = p[i + 1:]
                if all(y == "1" for y in rest) and len(rest) < len(fields) - 1:
                    each = [".".join([root] + p[: i + 1] + [y]) for y in fields[len(rest):]]
                    return ", ".join("(" + y for y in each[:-1]) + ", " + each[-1] + ")" * (len(each) - 1)
                return at
        return at

    def member(self, new):
        """Whether the goal is what a call within the cycle requires."""
        return False

    def path(self, fields):
        """The new path of the fields below c."""
        f = list(fields)
        while f and f[0] == "before":
            f = f[1:]
        if not f:
            return []
        out = []
        key = norm(re.sub(r"_lem\d*$", "", f[0]))
        if key in ("args", "ranges", "fits"):
            return [f[0]] + [norm(x) if i == 0 else x for i, x in enumerate(f[1:])]
        if key == "well_formed":
            return [key] + f[1:]
        if key in ("requires", "pre"):
            return ["requires"] + clause(self.pre, f[1:])
        for n in range(min(len(f), 40), 0, -1):
            hit = self.arms.get((key, tuple(f[1:n])))
            if hit and n > 1:
                return hit.split(".") + f[n:]
        if key in self.typed and key not in self.loops and not (len(f) > 1 and norm(f[1]) in ("ensures", "result", "new", "auto")):
            return ["type_inv", self.typed[key]] + (f[2:] if len(f) > 1 and f[1] == "given" else f[1:])
        if key not in self.labels and key.lower() in self.labels:
            key = key.lower()
        label = self.labels.get(key) or self.labels.get(norm(f[0]))
        out = [label if label else f[0]]
        rest = f[1:]
        if rest and rest[0] == "type-inv":
            rest[0] = "type_inv"
        # What a call leaves in its parameter: by its place in the older form, now by its name.
        called = self.callee.get(norm(f[0])) or self.callee.get(key)
        if called and len(rest) > 1 and rest[0] in ("new", "auto", "kept") and rest[1] in ("0", "1"):
            n, at = 0, 1
            while at < len(rest) and rest[at] == "1" and n < len(called) - 1:
                n, at = n + 1, at + 1
            if at < len(rest) and rest[at] == "0":
                at += 1
            rest = ["auto" if rest[0] == "kept" else rest[0], called[n]] + rest[at:]
        row = self.clauses.get(key) or self.clauses.get(norm(f[0]))
        if row and rest and rest[0] == "ensures":
            rest = ["ensures"] + clause(row["fields"], rest[1:])
        if rest and key in self.loops and rest[0] in [v.replace("_", "-") for v in self.loops[key][1]]:
            rest[0] = norm(rest[0])
        if rest and out[0].startswith("if") and rest[0] in ("taken", "left"):
            rest[0] = {"taken": "true", "left": "false"}[rest[0]]
        return out + rest


SOURCE = ""


def negated_field(label):
    """Whether the test is of a field, as `!p.given`: there the newer form says `not p.given ≡ true` too."""
    m = re.match(r"if-not-([a-z_0-9]+)", label)
    return bool(m and re.search(r"!" + m[1] + r"\.[a-z_0-9]+\b(?!\()", SOURCE))


def inline(body, names, root="c", places=False):
    """Rewrites the paths of a body; a let that only names a path goes, and the path stands where the name stood."""
    alias = {root: []}
    lets = re.compile(r"let ([\w'′₀-₉-]+) = (" + W + r"(?:\." + W + r")*) in(?=\s|\()")
    out, lines = [], body.split("\n")
    text = "\n".join(lines)
    while True:
        for m in lets.finditer(text):
            chain = m[2].split(".")
            if chain[0] in alias:
                alias[m[1]] = alias[chain[0]] + chain[1:]
                end = m.end()
                if m.start() == 0 or text[m.start() - 1] in " \n(":
                    rest = text[end:]
                    before = text[: m.start()]
                    # Drop the let and the blank that it leaves.
                    if rest.startswith("\n") or rest.startswith(" "):
                        stripped = rest.lstrip()
                        pad = re.search(r"\n( *)$", before)
                        text = before + stripped if (before.endswith(" ") or before.endswith("(") or pad) else before + " " + stripped
                    break
        else:
            break

    def chain(m):
        rootname, fields = m[1], m[2][1:].split(".")
        if rootname not in alias:
            return m[0]
        p = names.path(alias[rootname] + fields)
        if not p and places:
            return ".".join([root] + alias[rootname] + fields)
        if not p:
            return root
        # What was told of an enum's payload has no name now; the search knows it.
        if p[0].startswith("known_told"):
            return "(search rules)"
        if len(p) == 2 and p[0].startswith("if-not-") and p[1] in ("true", "false") and not negated_field(p[0]):
            return "(ap not " + ".".join([root] + p) + ")"
        return names.whole(root, p)

    text = CHAIN.sub(chain, text)
    for a, p in alias.items():
        if a == root:
            continue
        put = ".".join([root] + p) if places and not names.path(p) else names.whole(root, names.path(p))

        def bare(m, put=put):
            # The name of a record's field stays.
            if re.match(r" = ", m.string[m.end():]) and re.search(r"(?:[{;]|^|\n)\s*$", m.string[: m.start()]):
                return m[0]
            return put

        text = re.sub(r"(?<![\w.'′-])" + re.escape(a) + r"(?![\w.'′₀-₉-])", bare, text)
    return text


def answer(decl, old, new, names, measured, places):
    """The answer new of the declaration of old."""
    sig = decl[0]
    unfold = [l for l in decl[1:] if l.startswith("unfolding")]
    clauses = [l for l in decl[1:] if not l.startswith("unfolding")]
    body = "\n".join(clauses)
    # A signature may go over lines.
    while clauses and clauses[0].startswith(" "):
        clauses.pop(0)
    body = "\n".join(clauses)
    m = re.match(re.escape(old) + r"((?: [^\s=]+)*) =\s*", body)
    if not m:
        return None
    params = m[1].split()
    rest = body[m.end():]
    root = params[0] if params else "c"
    if rest.strip() in ("search rules", "search needs"):
        return ""
    if root == "_":
        root = "c"
    rest = inline(rest, names, root, places)
    fields = names.asked.get(new) or names.asked_by.get(new)
    whole = rest.strip()
    if fields and len(fields) > 1:
        at = last_in(whole)
        before, last = whole[:at], whole[at:]
        if last.startswith("(") and closes(last):
            if measured and names.member(new):
                parts = [p.strip() for p in split(last[1:-1])]
                second = as_record(parts[1], fields) if len(parts) == 2 else None
                rest = f"{before}({parts[0]}, {second})" if second else rest
            else:
                last = as_record(last, fields)
                rest = before + last if last else rest
        elif infers(last) and not (measured and names.member(new)):
            rest = before + f"let all = {last} in record {{ " + "; ".join(f"{f} = {x}" for f, x in zip(fields, projections("all", len(fields)))) + " }"
    more = "".join(" " + x for x in params[1:] if x != "κs")
    head = f"{new} {'t ' if measured else ''}{root}{more} ="
    sep = "\n" if rest.startswith(" ") or "\n" in rest else " "
    text = f"pub {new} : goal.{new}\n" + "".join(u + "\n" for u in unfold) + head + (("\n    " + rest.strip()) if "\n" in rest.strip() else " " + rest.strip())
    return text


def opening(text):
    """Where the parenthesis that ends a text opens."""
    depth = 0
    for i in range(len(text) - 1, -1, -1):
        depth += (text[i] == ")") - (text[i] == "(")
        if depth == 0:
            return i
    return 0


def placed(decl):
    """The parts of a lemma over a place alone: its name, its type, its parameters, its body and what it unfolds."""
    lines = decl.split("\n")
    whole, i = lines[0], 1
    while i < len(lines) and lines[i].startswith(" "):
        whole, i = whole + " " + lines[i].strip(), i + 1
    m = re.match(r"(?:(?:abbrev|unfoldable|pub) )*(\S+) : *\(c : goal\.[^\s()]+\)\s*(?:→\s*)?(.*)$", whole)
    if not m:
        return None
    name, typ = m[1], m[2]
    unfold = []
    while i < len(lines) and lines[i].startswith("unfolding "):
        unfold += lines[i].split()[1:]
        i += 1
    body = "\n".join(lines[i:])
    m = re.match(re.escape(name) + r" c((?: [\w'′₀-₉-]+)*) =\s*", body)
    if not m or re.search(r"(?m)^" + re.escape(name) + " ", body[m.end():]):
        return None
    return name, typ.strip(), m[1].split(), body[m.end():].strip(), unfold


def within(text, lemmas):
    """An answer with the lemmas over places that it cites, each as a let."""
    def cites(t):
        return [l for l in lemmas if re.search(r"(?<![\w.'′-])" + re.escape(l[0]) + r" c(?:\.before)*(?![\w.'′-])", t)]

    def drop(t, ls):
        for l in ls:
            t = re.sub(r"\(" + re.escape(l[0]) + r" c(?:\.before)*\)", l[0], t)
            t = re.sub(r"(?<![\w.'′-])" + re.escape(l[0]) + r" c(?:\.before)*(?![\w.'′-])", l[0], t)
        return t

    need, todo = [], cites(text)
    while todo:
        l = todo.pop(0)
        if l in need:
            need.remove(l)
        need.append(l)
        todo += cites(l[3])
    if not need:
        return text
    need.reverse()
    lines = text.split("\n")
    unfold = [u for l in need for u in l[4]]
    if lines[1].startswith("unfolding "):
        unfold = lines[1].split()[1:] + [u for u in unfold if u not in lines[1].split()]
        lines.pop(1)
    if unfold:
        lines.insert(1, "unfolding " + " ".join(dict.fromkeys(unfold)))
    i = 2 if unfold else 1
    m = re.match(r"([^=]*=)\s*(.*)", "\n".join(lines[i:]), re.S)
    lets = "".join(f"    let {l[0]} : {drop(l[1], need)} = {('λ ' + ' '.join(l[2]) + '. ') if l[2] else ''}{drop(l[3], need)} in\n" for l in need)
    return "\n".join(lines[:i]) + "\n" + m[1] + "\n" + lets + "    " + drop(m[2], need)


def split(text):
    parts, depth, cur = [], 0, ""
    for ch in text:
        if ch in "([{":
            depth += 1
        if ch in ")]}":
            depth -= 1
        if ch == "," and depth == 0:
            parts.append(cur)
            cur = ""
        else:
            cur += ch
    if cur.strip():
        parts.append(cur)
    return parts


def invariant(decl, old, kind, names, measured):
    m = re.match(r"(invariant|decreases)-(.*)$", old)
    key = norm(m[2])
    if key not in names.loops:
        return None
    new, variables = names.loops[key]
    index = list(names.loops).index(key)
    changed = names.changed[index] if index < len(names.changed) else [True] * len(variables)
    clauses = [l for l in decl[1:]]
    unfold = [l for l in clauses if l.startswith("unfolding")]
    clauses = [l for l in clauses if not l.startswith("unfolding")]
    while clauses and clauses[0].startswith(" "):
        clauses.pop(0)
    body = "\n".join(clauses)
    m2 = re.match(re.escape(old) + r"((?: [^\s=]+)*) =\s*", body)
    if not m2:
        return None
    params, rest = m2[1].split(), body[m2.end():]
    now = [v for v, c in zip(variables, changed) if c]
    if len(params) != len(variables) + len(now):
        return None
    to = {}
    for p, v, c in zip(params, variables, changed):
        to[p] = f"l.initial.{v}" if c else f"l.{v}"
    for p, v in zip(params[len(variables):], now):
        to[p] = f"l.{v}"
    bound = set(re.findall(r"λ ([^.]*)\.", rest)) | set(re.findall(r"\(([\w ]+) : ", rest))
    names_bound = {w for b in bound for w in re.findall(r"[\w'′₀-₉-]+", b)}
    field = lambda m: re.match(r" = ", m.string[m.end():]) and re.search(r"[{;]\s*$", m.string[: m.start()])
    rest = re.sub(r"(?<![\w.'′-])([^\s(){}.;,@\"«»\[\]\\]+)", lambda m: to[m[1]] if m[1] in to and m[1] not in names_bound and m[1] != "_" and not field(m) else m[1], rest)
    name = f"{m[1]}-{new}"
    t = "t " if measured else ""
    pad = "\n    " + rest.strip() if "\n" in rest.strip() else " " + rest.strip()
    return f"abbrev pub {name} : goal.{name}\n" + "".join(u + "\n" for u in unfold) + f"{name} {t}l =" + pad


def inline_own(own, ans):
    """A lemma over a place stands in the answers that use it, since a place may have no name of its own any more."""
    out, lemmas = [], []
    for comments, t in own:
        m = re.match(r"(?:(?:abbrev|unfoldable|pub) )*(\S+) : \((\S+) : goal\.\S+\) →\s*", t)
        lines = t.split("\n")
        if not m:
            out.append((comments, t))
            continue
        name = m[1]
        rest = t[m.end():]
        d = re.search(r"^" + re.escape(name) + r"((?: [^\s=]+)*) =\s*", rest, re.M)
        if not d or "\nunfolding" in rest or len(re.findall(r"^" + re.escape(name) + r" ", rest, re.M)) > 1:
            out.append((comments, t))
            continue
        typ, params, body = rest[: d.start()].strip(), d[1].split(), rest[d.end():].strip()
        for prev in lemmas:
            body = put_lemma(body, prev, d[1].split()[0])
        if len(params) > 1:
            body = "λ " + " ".join(params[1:]) + ". " + body
        lemmas.append((name, m[2], params[0], typ, body))
    ans2 = []
    for comments, t in ans:
        for lemma in reversed(lemmas):
            lines = t.split("\n")
            for i, l in enumerate(lines):
                m = re.match(r"\S+ (?:t )?(\S+)(?: \S+)* =", l)
                if i and m and not l.startswith("unfolding"):
                    body = "\n".join(lines[i:])[m.end():]
                    new = put_lemma(body.strip(), lemma, m[1])
                    if new != body.strip():
                        t = "\n".join(lines[:i] + [m[0] + "\n    " + new])
                    break
        ans2.append((comments, t))
    return out, ans2


def put_lemma(body, lemma, root):
    name, var, param, typ, text = lemma
    call = r"(?<![\w.'-])" + re.escape(name) + r" " + re.escape(root) + r"(?:\.before)*(?![\w.'-])"
    if not re.search(call, body):
        return body
    short = re.sub(r"\(" + call + r"\)", name, body)
    short = re.sub(call, name, short)
    sub = lambda t, v: re.sub(r"(?<![\w.'-])" + re.escape(v) + r"(?=\.)", root, t)
    flat = lambda t: re.sub(r"\s*\n\s*", " ", t) if "record" not in t else t
    return f"let {name} : {flat(sub(typ, var))} = {flat(sub(text, param))} in\n    {short}"


def plain_uses(uses, drop):
    return [u for u in uses if not (re.search(r"\.(Statement|Tie|Reads|Kinds)\b|\.\+\w+(\.|$)", u) and ".specs." not in u) and not re.search(r"borrow\.Fn\.", u)]


def turn(path, crate, names_all, measured=False):
    folder = os.path.dirname(path)
    rel = os.path.relpath(folder, os.path.join("crates", crate, "proofs")).replace("/", ".")
    text = open(path, encoding="utf-8").read()
    head, uses, decls = blocks(text)
    if measured:
        f = rel.split(".")[-1][1:]
        where = ".".join(rel.split(".")[:-1] + ["+" + f])
        d = names_all.get(f"Rattle-{crate}-proofs.{where}.Lts-{f}") or names_all.get(f"Rattle-{crate}-proofs.{where}.Lts")
        if d is None:
            print("no names for", rel, [k for k in names_all if f in k][:3])
            return False
    else:
        d = names_all.get(f"Rattle-{crate}-proofs.{rel}.Lts")
        if d is None:
            print("no names for", rel)
            return False
    names = Names(d)
    inv, ans, own, lost = [], [], [], []
    places = any(re.search(r"\b(tie|lts)\.(?!Need|spec|close|invariant|decreases)[A-Z]", l) for _, decl in decls for l in decl)
    for comments, decl in decls:
        sig = decl[0]
        m = re.match(r"(?:(?:abbrev|unfoldable|pub) )*(\S+) : *(.*)", sig)
        name = m[1] if m else ""
        typ = m[2] if m else ""
        if typ == "" and len(decl) > 1:
            typ = decl[1].strip()
        if re.match(r"(invariant|decreases)-", name) and re.match(r"(tie|lts)\.", typ):
            t = invariant(decl, name, None, names, measured)
            if t is None:
                lost.append(decl)
            else:
                inv.append((comments, t))
        elif re.match(r"\(?(tie|lts)\.Need-", typ):
            need = re.match(r"\(?(?:tie|lts)\.Need-(\S+)", typ)[1].rstrip(")")
            key = norm(need)
            new = None
            for k in (key, norm(PREFIX.sub("", need)), norm(name)):
                if k in names.needs:
                    new = names.needs[k]
                    break
            if new is None or new in names.settled:
                if new is None and not decl[-1].endswith(("search rules", "search needs")):
                    lost.append(decl)
                continue
            t = answer(decl, name, new, names, measured, places)
            if t is None:
                lost.append(decl)
            elif t:
                ans.append((comments, t))
        elif "_spec :" in sig or name.endswith("-spec"):
            continue
        else:
            text_of = "\n".join(decl)
            if re.search(r"\b(tie|lts)\.[A-Z]", text_of):
                text_of = re.sub(r"\b(?:tie|lts)\.([\w-]+)(?: (?:invariant|decreases)-loop\w*)*", lambda m: "goal." + names.place.get(norm(m[1]), m[1]), text_of)
                text_of = inline(text_of, names, "c", True)
            own.append((comments, text_of))
    # That a signed number of an arm fits has no name any more, but a tactic finds it.
    ans = [(c, TOLD.sub("(search rules)", t)) for c, t in ans]
    own, ans = inline_own(own, ans)
    keep = plain_uses(uses, crate)
    # That a number is none of an earlier arm's has no name any more, but a tactic finds it.
    if any(REST.search(t) for _, t in ans):
        ans = [(c, REST.sub("(λ e. omega arith)", t)) for c, t in ans]
        if not re.search(r"[{ ]arith[,}]", " ".join(keep)):
            keep = keep + ["use native.Mathlib.Omega.{arith}"]
    where = f"Rattle.{crate}.proofs.{rel}"
    intro = [re.sub(r" Assumes nothing\.$", "", h) for h in head]
    used_in_inv = [o for o in own if any(re.search(r"(?<![\w-])" + re.escape(re.match(r"(?:(?:abbrev|unfoldable|pub) )*(\S+)", o[1])[1]) + r"(?![\w-])", t) for _, t in inv)]
    if inv:
        out = intro + keep + [f"use {where}.Given as goal", ""]
        for c, t in used_in_inv:
            t = re.sub(r"^((?:abbrev )?)(?!pub)", r"\1pub ", t) if not re.match(r"(abbrev )?pub", t) else t
            out += c + [t, ""]
        for c, t in inv:
            out += c + [t, ""]
        with open(os.path.join(folder, "Invariants.antt"), "w", encoding="utf-8") as f:
            f.write("\n".join(out).rstrip("\n") + "\n")
    rest_own = [o for o in own if o not in used_in_inv]
    lemmas = [l for l in (placed(t) for _, t in rest_own) if l]
    ans = [(c, within(t, lemmas)) for c, t in ans]
    rest_own = [o for o in rest_own if not placed(o[1])]
    if any("(ap not " in t for _, t in ans + rest_own):
        have = " ".join(keep)
        if not re.search(r"[{ ]ap[,}]", have):
            keep = keep + ["use mathlib.Core.Path.{ap}"]
        if not re.search(r"[{ ]not[,}]", have):
            keep = keep + ["use mathlib.Core.Bool.{not}"]
    if ans or lost:
        extra = []
        if used_in_inv:
            ns = [re.match(r"(?:(?:abbrev|unfoldable|pub) )*(\S+)", o[1])[1] for o in used_in_inv]
            extra = [f"use {where}.Invariants.{{{', '.join(ns)}}}"]
        out = intro + keep + extra + [f"use {where}.Goals as goal", ""]
        for c, t in rest_own:
            out += c + [t, ""]
        for c, t in ans:
            out += c + [t, ""]
        for d in lost:
            out += ["-- LOST: the older form had, for which no goal was found:"] + ["-- " + l for l in d] + [""]
        with open(os.path.join(folder, "Answers.antt"), "w", encoding="utf-8") as f:
            f.write("\n".join(out).rstrip("\n") + "\n")
    os.makedirs(OLD_PROOFS, exist_ok=True)
    os.rename(path, os.path.join(OLD_PROOFS, crate + "." + rel + ".antt"))
    return True


def main(argv):
    crate, file, only = argv[0], argv[1], argv[2:]
    names_all = json.load(open(file, encoding="utf-8"))
    global SOURCE
    for folder, dirs, files in os.walk(os.path.join("crates", crate, "src")):
        for f in files:
            SOURCE += open(os.path.join(folder, f), encoding="utf-8").read()
    n = 0
    for folder, dirs, files in os.walk(os.path.join("crates", crate, "proofs")):
        if "Proof.antt" in files:
            p = os.path.join(folder, "Proof.antt")
            t = open(p, encoding="utf-8").read()
            last = os.path.basename(folder)
            if only and last not in only:
                continue
            if "tie.close" in t and "Tie as tie" in t:
                n += turn(p, crate, names_all)
            elif last.startswith("+") and "Proof" in dirs:
                print("a cycle of calls, for tools/cycles.py:", p)
            elif last.startswith("+") and "Tie.{close}" in t:
                n += bool(single(p, crate, names_all))
            else:
                print("by hand:", p)
    print("turned", n)


def single(path, crate, names_all):
    """A function that calls itself: its goals stand in a module over the measure."""
    text = open(path, encoding="utf-8").read()
    out, inside = [], False
    for l in text.split("\n"):
        if l.startswith("module _ (t :"):
            inside = True
            continue
        if inside and l.startswith("  "):
            l = l[2:]
        elif inside and l.strip() and not l.startswith(" "):
            inside = False
        out.append(l)
    t = "\n".join(out)
    t = re.sub(r"(lts\.(?:Need-)?\S+) \(calls t\) \(at t\) \S+", r"\1", t)
    t = re.sub(r"\(lts\.(\S+) \(calls t\) \(at t\)\)", r"lts.\1", t)
    with open(path, "w", encoding="utf-8") as f:
        f.write(t)
    return turn(path, crate, names_all, True)


if __name__ == "__main__":
    main(sys.argv[1:])
