#!/usr/bin/env python3
"""Counts the places of the design pass (docs/DESIGN-PASS.md) in src/: python3 tools/places.py [--list] [POINT ..]

By text alone, so what it lists is a candidate, and each candidate is changed or has its reason beside it:
  1a  own enums with a case that stands for nothing or for a refusal
  1b  structs with a bool that says whether the rest counts
  1c  numbers that stand for a kind, a form, a way or a refusal (fields, parameters and results)
  2   functions that are the same but for names of constants, numbers, types and their own name; the same for types
  3   loops by `while` and `loop`
  4   enums of an order, and functions that compare, copy or convert by hand
  5   parameters that travel together, and clauses that stand in three functions or more
  6   a buffer with its length beside it, as parameters
  7   a function that asks one number after another which step to run
  8   answers in proofs/
"""
import collections
import pathlib
import re
import sys

ROOT = pathlib.Path(__file__).resolve().parent.parent / "crates"
NOTHING = re.compile(r"^(Nothing|Stop|None|Not|Bad\w*|Wrong\w*|Outside|Refused|Unlike|TooLong|Beyond|OutOfRange|SmallRoom|Unsure|Unknown)$")
FLAGS = r"some|more|found|given|deep|seen|call|empty"
CODES = r"(?:(?:form|op|way|join|kind|verdict|sort|tail|refusal): (?:u8|usize)|k: u8)\b"


def sources():
    for path in sorted(ROOT.glob("*/src/**/*.rt")):
        yield path.relative_to(ROOT).as_posix(), path.read_text()


def plain(text):
    return re.sub(r"//[^\n]*", "", text)


def items(text, word):
    """Each item of a kind with its name and its body between braces."""
    for m in re.finditer(r"^[ \t]*(?:pub(?:\(\w+\))? )?(?:const )?(?:unsafe )?" + word + r" (\w+)", text, re.M):
        start = text.find("{", m.end())
        if word == "fn":
            b = re.compile(r"^[ \t]*\{|[^\n{]*\)[^\n;{]*\{[ \t]*$", re.M)
            head = b.search(text, m.start())
            one = re.search(r"\n[ \t]*\{\n", text[m.end():])
            same = re.search(r"\{\n", text[m.end():])
            nxt = re.search(r"^[ \t]*(?:pub(?:\(\w+\))? )?(?:const )?fn ", text[m.end():], re.M)
            stop = nxt.start() if nxt else len(text)
            if one and one.start() < stop:
                start = m.end() + one.end() - 2
            elif same:
                start = m.end() + same.start()
        if start < 0:
            continue
        depth, i = 0, start
        while i < len(text):
            if text[i] == "{":
                depth += 1
            elif text[i] == "}":
                depth -= 1
                if depth == 0:
                    break
            i += 1
        yield m.group(1), text[m.start():start], text[start + 1:i]


def point_1a():
    for path, text in sources():
        for name, _, body in items(plain(text), "enum"):
            cases = re.findall(r"^\s*(\w+)", re.sub(r"\([^)]*\)|\{[^}]*\}", "", body), re.M)
            if any(NOTHING.match(c) for c in cases):
                yield f"{path}: {name} {{ {', '.join(cases)} }}"


def point_1b():
    for path, text in sources():
        for name, _, body in items(plain(text), "struct"):
            found = re.findall(r"\b(" + FLAGS + r"): bool", body)
            if found:
                yield f"{path}: {name} ({', '.join(found)})"


def point_1c():
    for path, text in sources():
        text = plain(text)
        for name, _, body in items(text, "struct"):
            for f in re.findall(r"\b" + CODES, body):
                yield f"{path}: {name}.{f}"
        for name, head, _ in items(text, "fn"):
            for f in re.findall(r"\b" + CODES, head):
                yield f"{path}: {name}({f})"
            if re.search(r"-> u8\b", head) and re.search(r"refusal|verdict|kind|form|op|way|sort", name):
                yield f"{path}: {name} -> u8"


def shape(head, body, name):
    t = head + "{" + body
    t = re.sub(r"\b(requires|ensures)\b[^\n]*", "", t)
    t = re.sub(r"\b" + re.escape(name) + r"\b", "F", t)
    t = re.sub(r"\b(u8|u16|u32|u64|usize|i64|bool)\b", "T", t)
    t = re.sub(r"\b(0x[0-9A-Fa-f]+|\d+)(T|u8|u16|u32|u64|usize)?\b", "N", t)
    t = re.sub(r"b'[^']*'", "N", t)
    t = re.sub(r"\b[A-Z][A-Z0-9_]+\b", "C", t)
    t = re.sub(r"\s+", " ", t)
    return t


def point_2():
    groups = collections.defaultdict(list)
    for path, text in sources():
        text = plain(text)
        for word in ("fn", "enum", "struct"):
            for name, head, body in items(text, word):
                if word == "fn" and (name == "main" or body.count("\n") < 3):
                    continue
                groups[word, shape(head, body, name)].append(f"{path}: {name}")
    for key in sorted(groups, key=str):
        if len(groups[key]) > 1:
            yield " ~ ".join(groups[key])


def point_3():
    for path, text in sources():
        for n, line in enumerate(text.split("\n"), 1):
            if re.match(r"\s*(while\b|loop \{)", line):
                yield f"{path}:{n}: {line.strip()}"


def point_4():
    for path, text in sources():
        text = plain(text)
        for name, _, body in items(text, "enum"):
            if re.search(r"\bLess\b", body):
                yield f"{path}: enum {name}"
        for name, head, _ in items(text, "fn"):
            if re.match(r"(same|is_same|equal|order|compare|copy|of_|number_of|refusal_of|kind_of)\w*$", name) or re.search(r"_(equal|order|copy)$", name):
                yield f"{path}: fn {name}"


SETS = (("table", "text"), ("plan", "pool"), ("plan", "pool", "table", "text"), ("list", "at", "cap"), ("lent", "state", "list"))


def point_5():
    clauses = collections.Counter()
    together = collections.Counter()
    for path, text in sources():
        text = plain(text)
        for name, head, _ in items(text, "fn"):
            args = set(re.findall(r"\b(\w+): ", head.split("requires")[0].split("ensures")[0]))
            for s in SETS:
                if set(s) <= args:
                    together[s] += 1
            for c in re.findall(r"requires(?: \w+)? \{(.*)\}\s*$", head, re.M):
                for fact in c.split(" × "):
                    fact = re.sub(r"^\((.*)\)$", r"\1", fact.strip())
                    clauses[path.split("/")[0], fact] += 1
    for s in SETS:
        yield f"parameters ({', '.join(s)}): {together[s]} functions"
    for (crate, fact), n in sorted(clauses.items()):
        if n >= 3:
            yield f"{crate}: {n} times {fact}"


def point_6():
    for path, text in sources():
        text = plain(text)
        for name, head, _ in items(text, "fn"):
            head = head.split("requires")[0].split("ensures")[0]
            if re.search(r"\b\w+: &(?:'\w+ )?(?:mut )?\[\w+\],\s*(len|n|size|count|used|m): usize", head):
                yield f"{path}: {name}"


def point_7():
    for path, text in sources():
        text = plain(text)
        for name, _, body in items(text, "fn"):
            asked = collections.Counter(re.findall(r"\bif (\w+(?:\.\w+)?) == [A-Z][A-Z0-9_]+ \{", body))
            for word, n in asked.items():
                if n >= 3:
                    yield f"{path}: {name} asks {word} {n} times"


def point_8():
    for crate in sorted(ROOT.iterdir()):
        n = lines = 0
        for path in crate.glob("proofs/**/Answers.antt"):
            text = path.read_text()
            n += len(re.findall(r"^(?:pub )?[\w.'+-]+ : goal\.", text, re.M))
            lines += text.count("\n")
        if n:
            yield f"{crate.name}: {n} answers, {lines} lines"


POINTS = {"1a": point_1a, "1b": point_1b, "1c": point_1c, "2": point_2, "3": point_3, "4": point_4,
          "5": point_5, "6": point_6, "7": point_7, "8": point_8}


def main():
    listing = "--list" in sys.argv
    asked = [a for a in sys.argv[1:] if a in POINTS] or list(POINTS)
    for point in asked:
        found = list(POINTS[point]())
        total = len(found)
        if point == "8":
            total = sum(int(re.search(r": (\d+) answers", f).group(1)) for f in found)
        print(f"{point}: {total}")
        if listing:
            for f in found:
                print("    " + f)


main()
