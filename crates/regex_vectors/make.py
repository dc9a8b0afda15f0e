#!/usr/bin/env python3
"""Writes the files stdin and stdout of this crate: expressions with texts, and which of match and search hold.

    python3 crates/regex_vectors/make.py

The rows of tools/regexps.py come first, then expressions and texts by chance (tools/regexp_samples.py), and last what is large: long texts, nested counts, and
expressions of 1,024 bytes. The answers are those of tools/regexps.py, which shares nothing with the definition and the code.
"""
import os, random, sys

HERE = os.path.dirname(os.path.abspath(__file__))
sys.dont_write_bytecode = True
sys.path.insert(0, os.path.join(HERE, "..", "..", "tools"))
import regexp_samples, regexps

LARGE = [
    # texts of many characters, and counts within counts
    ("a" * 2000 + "b", "a*b"), ("a" * 2000, "a*b"), ("é" * 900, ".{64}(é{2,9})*"), ("ab" * 500 + "c", "(a|b|ab)*c"), ("x" * 1500 + "needle" + "y" * 1500, "needle"),
    ("x" * 1500 + "needl" + "y" * 1500, "needle"), ("a" * 1300, "(a{20}){20}(a{30}){30}"), ("a" * 1000, "((a{5}){8}){25}"), ("a" * 999, "((a{5}){8}){25}"),
    ("a" * 64, "(a?){64}a{64}"), ("a" * 127, "(a?){64}a{64}"), ("a" * 129, "(a?){64}a{64}"), ("a" * 30, "(a*)*(a|aa)+"), ("a" * 29 + "b", "(a*)*(a|aa)+"),
    ("aaaaaaaa", "((((a{2}){2}){2}){64}){0,1}"), ("a" * 9, "(((a{64}){64}){64}){64}"), ("", "(((a?){64}){64}){64}"), ("aaaa", "(((a?){64}){64}){64}"),
    ("a" * 17 + "b", "(a|b|ab){3,18}"), ("\n" * 5, "(.|\\n)*"), ("\r\n", "[^a]{2}"),
    # expressions at the limit
    ("a" * 1024, "a" * 1024), ("a" * 1023, "a" * 1024), ("b", "a" * 1022 + "|b"), ("b", "a" * 1023 + "|b"), ("", "()" * 512), ("a", "(" * 500 + "a" + ")" * 500), ("b", "(" * 511 + "a" + ")" * 511),
    ("a" * 11, "(" * 340 + "a" + "*)" * 341), ("z", "|" * 1022 + "z"), ("q", "[" + "".join(chr(0x100 + i) for i in range(508)) + "q]"), ("\u01ff", "[" + "".join(chr(0x100 + i) for i in range(508)) + "q]"),
    ("a" * 70, "a?" * 70), ("ab", "a{00000000000000000000000000000000000000001}b"), ("😀" * 256, "😀" * 256), ("😀" * 256, "😀" * 255 + "."),
]


def rows():
    for _, _, text, expression, _ in regexps.ROWS:
        if len(text) < 2000:
            yield text, expression
    for expression in regexps.IN_PART + regexps.OUTSIDE:
        yield "a", expression
    pick = random.Random(20261117)
    for _ in range(700):
        expression = regexp_samples.expression(pick)
        yield regexp_samples.text(pick, regexps.read(expression.encode()), 24), expression
    yield from LARGE


def answer(text, expression):
    tree = regexps.read(expression.encode())
    if tree is None:
        return "neither"
    whole, part = (regexps.described(tree, text, p) for p in (False, True))
    assert part or not whole
    return "match and search" if whole else "search" if part else "neither"


def main():
    done = list(dict.fromkeys((t, e) for t, e in rows() if len(t.encode()) <= 4096 and len(e.encode()) <= 4096))
    with open(os.path.join(HERE, "stdin"), "w") as out:
        out.writelines(f"{e.encode().hex() or '-'} {t.encode().hex() or '-'}\n" for t, e in done)
    with open(os.path.join(HERE, "stdout"), "w") as out:
        out.writelines(answer(t, e) + "\n" for t, e in done)


main()
