#!/usr/bin/env python3
"""Brings the definitions and lemmas of this repository to today's spelling: words in snake case.

usage: python3 tools/respell.py          at the top of the repository, once, after port.py
       python3 tools/respell.py --list   prints old and new names, and writes nothing

A name that specs/ or proofs/ declare is turned if it begins with a small letter and has a hump or a dash: `addOnce` and `clamp-low` become
`add_once` and `clamp_low`. Types, facts and modules keep their capitals. A name that a file takes from a library of the kit is left there,
and so is the name of an answer in a Proof.antt, which goes with the goal. Two names that would become one are told, and get an ending.
"""

import os
import re
import sys

TOKEN = re.compile(r"--[^\n]*|//[^\n]*|\"(?:[^\"\\\n]|\\.)*\"|[^\s(){}.;,@\"«»\[\]\\]+|[\s(){}.;,@\"«»\[\]\\]")
# A declaration at the margin, and one in a `mutual` or in a module.
HEADS = [re.compile(r"^" + indent + r"(?:(?:abbrev|unfoldable|pub|ruleset) )*([^\s:(){}]+) :") for indent in ("", r"\s*")]
BLOCK = re.compile(r"^(?:(?:unfoldable|pub) )*(?:data|record)(?: pub)? ([^\s:(){}]+)")
INNER = re.compile(r"^\s+((?:[^\s:(){}]+ )+): ")
USE = re.compile(r"^\s*(?:pub )?(?:ghost )?use ([^;{]*?)\.?\{([^}]*)\}", re.M)
TICKED = re.compile(r"`([^`]*)`")


def is_old(name):
    return bool(re.match(r"[a-z]", name)) and "◌" not in name and bool(re.search(r"[A-Z]|.-.", name))


def snake(name):
    name = re.sub(r"(?<=[a-z0-9ℤℕ'])(?=[A-Z])", "_", name)
    return name.replace("-", "_").lower() if not re.search("[ℤℕ]", name) else re.sub(r"[A-Z]", lambda m: m[0].lower(), name.replace("-", "_"))


def files(top):
    for folder, dirs, names in os.walk(os.path.join(top, "crates")):
        dirs[:] = sorted(d for d in dirs if d != "out")
        for n in sorted(names):
            if n.endswith((".antt", ".rt", ".edit")):
                yield os.path.join(folder, n)


def declared(text, is_proof, head):
    found, block = set(), False
    for line in text.split("\n"):
        if not line.strip():
            block = False
        m = BLOCK.match(line)
        if m:
            found.add(m[1])
            block = True
            continue
        if block and line.startswith(" "):
            m = INNER.match(line)
            if m:
                found.update(m[1].split())
            continue
        m = head.match(line)
        if m and not (is_proof and re.search(r": \(?(tie|goal|lts)\.", line)):
            found.add(m[1])
    return found


def taken(text, own):
    """The names that a file takes from elsewhere than the repository."""
    out = set()
    for path, items in USE.findall(text):
        if not re.match(r"Rattle\.(" + own + r")(\.|$)", path.strip()):
            for it in items.split(","):
                out.add(it.strip().split(" as ")[-1].strip())
    return out


def turn(argv, head):
    top = os.getcwd()
    own = "|".join(sorted(os.listdir(os.path.join(top, "crates"))))
    texts = {}
    for p in files(top):
        with open(p, encoding="utf-8") as f:
            texts[p] = f.read()
    names, by_file = set(), {}
    for p, t in texts.items():
        if p.endswith(".antt"):
            by_file[p] = declared(t, "/Proof" in p, head)
            names |= by_file[p]
    turned = {n: snake(n) for n in names if is_old(n)}
    # Names that fall together: with one that stands, with one another.
    seen = {}
    for n in sorted(names):
        seen.setdefault(turned.get(n, n), []).append(n)
    for new, olds in sorted(seen.items()):
        if len(olds) > 1:
            print("together:", new, olds, file=sys.stderr)
            # A lemma or definition of the dashed kind gets the ending of a lemma; one with a hump keeps the plain word.
            stay = [o for o in olds if o == new] or [o for o in olds if "-" not in o] or olds[:1]
            k = 0
            for o in olds:
                if o not in stay[:1]:
                    turned[o] = new + "_lem" + ("" if k == 0 else str(k + 1))
                    k += 1
    if "--list" in argv:
        for n in sorted(turned):
            print(n, turned[n])
        return 0
    for p, t in texts.items():
        kept = taken(t, own) if not p.endswith(".edit") else set()
        # A name of a library that is written by its path stays as well.
        def word(m):
            w = m[0]
            if w.startswith("--") or w.startswith("//"):
                return TICKED.sub(lambda k: "`" + re.sub(r"[^\s(){}.;,@]+", lambda q: turned.get(q[0], q[0]), k[1]) + "`", w)
            if w in turned and w not in kept:
                return turned[w]
            return w

        if p.endswith(".antt"):
            new = TOKEN.sub(word, t)
        elif p.endswith(".rt"):
            new = TOKEN.sub(word, t)
        else:
            new = "\n".join((re.sub(TOKEN, word, l) if re.match(r"(old|new):", l) else l) for l in t.split("\n"))
        if new != t:
            with open(p, "w", encoding="utf-8") as f:
                f.write(new)
    return 0


if __name__ == "__main__":
    for it in HEADS:
        turn(sys.argv[1:], it)
