#!/usr/bin/env python3
"""Writes stdin and stdout of the program paths, beside this file: queries over document 01's sample table, and what is to be written for each.

SAMPLE has document 01's sample rows and the three lines of its example, with the answers written there. The other answers are those of
tools/reference.py. Run it with no arguments; it always writes the same files.
"""
import os, sys

HERE = os.path.dirname(os.path.abspath(__file__))
sys.dont_write_bytecode = True
sys.path.insert(0, os.path.join(HERE, "..", "..", "tools"))
import reference, tables

PLACES = 4096
TABLE, TEXT = tables.build({"a": [10, 20.0, 30], "b": "é"})

SAMPLE = [
    ("$.a[1]", "ok 1 4"),
    ("$.a[", "refused 4"),
    ("$.a[7]", "ok 0"),
    ("$", "ok 1 0"),
    ("$['a'][-1]", "ok 1 5"),
    ("$.a[-4]", "ok 0"),
    ("$.a[::2]", "ok 2 3 5"),
    ("$.a[::-1]", "ok 3 5 4 3"),
    ("$.a[9::-2]", "ok 1 4"),
    ("$.a[-9:-9:-1]", "ok 1 3"),
    ("$.a[?@ >= 20]", "ok 2 4 5"),
    ("$..*", "ok 5 1 2 3 4 5"),
    ("$.a[?@.x == $.y]", "ok 0"),
    ("$[?length(@) == 0]", "ok 0"),
    ("$[?length('é') == 2]", "ok 0"),
    ("$[?!count(@.*)]", "refused 5"),
    ("$[?@[?@ == $[0]]]", "ok 1 1"),
    ("$['a','a']", "ok 2 1 1"),
    ("$[9007199254740991]", "ok 0"),
    ("$[9007199254740992]", "refused 4"),
    ("$[?" + "(" * 31 + "@" + ")" * 31 + "]", "ok 2 1 2"),
    ("$[?" + "(" * 32 + "@" + ")" * 32 + "]", "refused 3"),
    ("$[?@ < 1e22]", "ok 0"),
    ("$[?@ < 1e309]", "refused 8"),
]

QUERIES = [q.encode() for q in (
    "", "$.a[1]\r", "\r", " $", "$ ", "$\t.a", "$.b", "$.é", "$['b']", "$['\\u0062']", "$[*]", "$.a[*]", "$..a", "$.a[0,0,1]", "$.a[?@ == 20]", "$[?@ == 'é']",
    "$[?@.x]", "$[?!@.x]", "$.a[?@ > 5 && @ < 25 || @ == 30]", "$[?value(@.x) == null]", "$[?count(@)]", "$[?count(1) == 1]", "$[?foo(@)]", "$[?match(@, 'a')]", "$[?search(@, 'a')]", "$[?@ == 1e-23]",
    "$[-0]", "$[01]", "$.", "$..", "$[]", "$[?true]", "$[?@ == -0]", "a", "@", "$.a[1] // 20.0", "$" + "[" * 32, "$" + "[" * 33, "$.a" + "[*]" * 1364, "$.a[" + "*," * 1365 + "0]", "$.a[" + "*," * 1365 + "0,0]",
    "$." + "a" * 4094, "$." + "a" * 4095, "$" * 4096, "$" * 4097, "$" * 70000, "$.a[2]",
    "$[?length(@) == 3]", "$[?length(@) == 1]", "$[?length($) == 2]", "$[?length(@.x) == 0]", "$.a[?length(@) == 0]", "$[?length('é') == 1]", "$[?length(value(@)) == 1]", "$[?!length(@.x)]",
    "$[?match(@, '.')]", "$[?match(@, 'é')]", "$[?search(@, '[à-ü]')]", "$[?!match(@, '.')]", "$[?match('bolt', 'b.*')]", "$[?match('bolt', 'b')]", "$[?search('bolt', 'ol')]", "$[?match('a', '(')]",
    "$[?match('a.c', 'a\\\\.c') && !search('abc', '\\\\.')]", "$[?match(@, 'x') == true]", "$[?search(@)]")]
RAW = [b"\xff", b"$.\xc3", b"$\x00", b"$.a[1]\x0b", b"\xff" * 4097, b"$['\xc3\xa9']"]
LAST = b"$.a[0]"


def answer(query):
    refusal, count, places = reference.select(query, TABLE, TEXT, PLACES, 0)
    return "refused %d" % refusal if refusal else " ".join(map(str, ["ok", count, *places.values()]))


def main():
    for query, wanted in SAMPLE:
        assert answer(query.encode()) == wanted, query
    lines = [q.encode() for q, _ in SAMPLE] + QUERIES + RAW + [LAST]
    with open(os.path.join(HERE, "stdin"), "wb") as f:
        f.write(b"\n".join(lines))
    with open(os.path.join(HERE, "stdout"), "w") as f:
        f.writelines(answer(line) + "\n" for line in lines)


main()
