#!/usr/bin/env python3
"""Writes stdin and stdout of the program rfc_examples from the RFC's examples as data.

    python3 tools/rfc_examples.py EXAMPLES.json

EXAMPLES.json has a list `cases`. A case has an `id`, a `query`, mostly a `document`, an `order`, the RFC's answer `rfc` and this engine's answer
`expected_here`. An answer is {"nodes": [Normalized Path, ..]}, {"refused": number} or {"accept": true or false}. Where the order is `any-member` the
RFC leaves the order of a map's members open: its list is then compared without order, repeats counted. This engine's list is always compared in order,
since it walks members in table order. A case without a document only asks whether its query compiles: it is run on a table of one null.
Where the data has refusal 7, which no query is given, this engine's answer is that of reference.py.

The lines of stdin are described in crates/rfc_examples/src/main.rt. stdout is what the program writes if every answer is this engine's answer.
"""
import json, os, struct, sys

sys.dont_write_bytecode = True
import reference, tables

ESCAPES = {"\b": "\\b", "\t": "\\t", "\n": "\\n", "\f": "\\f", "\r": "\\r", "'": "\\'", "\\": "\\\\"}


def normalized(key):
    """A member's name as it stands in a Normalized Path: RFC 9535, 2.7."""
    return "".join(ESCAPES.get(c) or (c if c >= " " else "\\u%04x" % ord(c)) for c in key)


def node_numbers(value):
    """The node of each Normalized Path: nodes are numbered level by level, in the order of their parents."""
    numbers, queue = {}, [("$", value)]
    while queue:
        path, v = queue.pop(0)
        numbers[path] = len(numbers)
        if isinstance(v, dict):
            queue += [("%s['%s']" % (path, normalized(key)), item) for key, item in v.items()]
        elif isinstance(v, list):
            queue += [("%s[%d]" % (path, i), item) for i, item in enumerate(v)]
    return numbers


def answer(wanted, order, numbers):
    """The two words of an answer: its kind, and its nodes or its number in hexadecimal."""
    if "nodes" in wanted:
        data = b"".join(struct.pack("<H", numbers[path]) for path in wanted["nodes"])
        return ("members" if order == "any-member" else "list"), data.hex() or "-"
    if "refused" in wanted:
        return "refused", "%02x" % wanted["refused"]
    return ("accepted" if wanted["accept"] else "refused"), "-"


def by_reference(case, table, text):
    refusal, count, places = reference.select(case["query"].encode(), table, text, len(table), 0)
    if refusal:
        return "refused", "%02x" % refusal
    if "document" not in case:
        return "accepted", "-"
    return "list", b"".join(struct.pack("<H", places[i]) for i in range(count)).hex() or "-"


def agree(here, rfc):
    """Whether an answer that is this engine's is also the RFC's."""
    if rfc[0] == "members":
        pairs = [sorted(data[i:i + 4] for i in range(0, len(data), 4)) for _, data in (here, rfc)]
        return here[0] == "list" and pairs[0] == pairs[1]
    if rfc[0] == "refused" and rfc[1] == "-":
        return here[0] == "refused"
    return here == rfc


def main():
    with open(sys.argv[1], encoding="utf-8") as f:
        cases = json.load(f)["cases"]
    stdin, stdout, same = [], [], 0
    for case in cases:
        document = case.get("document")
        table, text = tables.build(document)
        numbers = node_numbers(document)
        here = by_reference(case, table, text) if case["expected_here"] == {"refused": 7} else answer(case["expected_here"], "fixed", numbers)
        rfc = answer(case["rfc"], case.get("order"), numbers)
        words = [case["id"], case["query"].encode().hex(), table.hex(), text.hex() or "-", *here, *rfc]
        stdin.append(" ".join(words) + "\n")
        same += agree(here, rfc)
        stdout.append("ok %s%s\n" % (case["id"], "" if agree(here, rfc) else ", not as the RFC"))
    stdout.append("%d as the RFC, %d not as the RFC, 0 wrong\n" % (same, len(cases) - same))
    crate = os.path.join(os.path.dirname(os.path.abspath(__file__)), "..", "crates", "rfc_examples")
    for name, lines in (("stdin", stdin), ("stdout", stdout)):
        with open(os.path.join(crate, name), "w") as f:
            f.writelines(lines)


main()
