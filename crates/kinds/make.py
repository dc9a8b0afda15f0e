#!/usr/bin/env python3
"""Writes stdin and stdout of the program kinds, beside this file: queries, and what their plans consist of.

The plans and their items are those of tools/reference.py. The first line is document 02's
example; its six lines of output are compared with what is counted for it. Run it with no arguments; it always writes the same files.
"""
import collections, os, sys

HERE = os.path.dirname(os.path.abspath(__file__))
sys.dont_write_bytecode = True
sys.path.insert(0, os.path.join(HERE, "..", "..", "tools"))
import reference

EXAMPLE = "$.a[1]"
WRITTEN = ["01 1", "03 2", "05 1", "06 1", "0A 1", "plans 1"]
QUERIES = [
    EXAMPLE, "$", "$.a[", "", "$..*", "$['a','a']", "$[1:2:3]", "$[::]", "$[?@.x == 1.5]", "$[?@ != 'é']", "$[?@.a && !@.b || @.c < null]",
    "$[?count(@.*) == 1]", "$[?length(value(@.a)) >= 2]", "$[?!count(@.*)]", "$[?@[?$.a]]", "$[?match(@,'a')]", "$[?!search(@.a,'b|c') && match('x',@)]", "$[?foo(@)]", "$[?@ == true]",
    "$..[?@.price <= 10].name", "$[?@ == 1e309]", "$ ", "$[9007199254740992]", "$[?@ > -7]",
]


def lines(queries):
    counts, plans = collections.Counter(), 0
    for query in queries:
        answer = reference.compile(query.encode(), 13 * 4096, 4096)
        if answer[0] == 0:
            counts.update(reference.kinds(answer[1]))
            plans += 1
    return ["%02X %d" % (k, counts[k]) for k in sorted(counts)] + ["plans %d" % plans]


assert lines([EXAMPLE]) == WRITTEN
with open(os.path.join(HERE, "stdin"), "w", encoding="utf-8", newline="\n") as f:
    f.write("\n".join(QUERIES))
with open(os.path.join(HERE, "stdout"), "w", newline="\n") as f:
    f.write("".join(line + "\n" for line in lines(QUERIES)))
