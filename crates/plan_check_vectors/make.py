#!/usr/bin/env python3
"""Writes the files stdin and stdout of this crate: plans with pools, and the verdict on each.

    python3 crates/plan_check_vectors/make.py

A row of ROWS is a plan, a pool and the verdict that document 01 and the open points 26 to 34 give. Each verdict is also found
by `check` of tools/plans.py, which takes a plan apart with a stack, asks whether the tree is a query form, and translates the tree again.
Behind the rows stand forms made at random, and the same with a byte changed, left out or put in; `check` alone judges those.
A long run of bytes is written once, with a star, how many bytes more to copy and from how far back.
"""
import os, random, struct, sys

HERE = os.path.dirname(os.path.abspath(__file__))
sys.dont_write_bytecode = True
sys.path.insert(0, os.path.join(HERE, "..", "..", "tools"))
from plans import MAX_INT, check, framed, translate

# ---- rows


def here(*segments):
    return (2, list(segments))


def root(*segments):
    return (1, list(segments))


def child(*selectors):
    return (3, list(selectors))


def name(s):
    return ("name", s.encode() if isinstance(s, str) else s)


def filtered(t):
    return root(child(("filter", t)))


AT = ("exists", here())
A, B, C = (("exists", here(child(name(x)))) for x in "abc")
ONE = ("integer", 1)
COUNT = (0x19, here(child(("wildcard",))))
ROWS = []


def form(q, verdict=True):
    ROWS.append((*translate(q), verdict))


def code(text, verdict=False, pool=b""):
    """A query with one filter, whose code is given."""
    inside = bytes.fromhex(text)
    ROWS.append((bytes.fromhex("01 03 01 00") + framed(0x09, inside) + b"\x0a", pool, verdict))


def raw(text, verdict=False, pool=b""):
    ROWS.append((bytes.fromhex(text), pool, verdict))


def nested(n, step, inner):
    for _ in range(n):
        inner = step(inner)
    return inner


# document 01: `$.a[1]`, and the ends of plan and pool
raw("01 03 01 00 05 00 00 01 00 03 01 00 06 01 00 00 00 00 00 00 00 0A", True, b"a")
raw("01 03 01 00 05 00 00 01 00 03 01 00 06 01 00 00 00 00 00 00 00 0A", False, b"ab")
raw("01 03 01 00 05 00 00 01 00 03 01 00 06 01 00 00 00 00 00 00 00 0A", False, b"")
raw("01 0A", True)
raw("")
raw("01")
# 26: any finite float, any i64, sizes
for bits in (0x7E37E43C8800759C, 1, 0x8000000000000000, 0x7FEFFFFFFFFFFFFF):
    form(filtered(("compare", 0, ("query", here()), ("float", bits))))
for bits in (0x7FF0000000000000, 0xFFF0000000000000, 0x7FF8000000000000):
    form(filtered(("compare", 0, ("query", here()), ("float", bits))), False)
for n in (-(2**63), 2**63 - 1):
    form(filtered(("compare", 0, ("query", here()), ("integer", n))))
for n in (MAX_INT, -MAX_INT, 0):
    form(root(child(("index", n))))
    form(root(child(("slice", n, None, n))))
for n in (MAX_INT + 1, -MAX_INT - 1, -(2**63)):
    form(root(child(("index", n))), False)
    form(root(child(("slice", None, n, None))), False)
SLICE = child(("slice", 1, None, None))
WILD = child(("wildcard",))
form(root(SLICE, *[WILD] * 16376))
form(root(SLICE, SLICE, *[WILD] * 16369), False)
form(root(child(name(b"a" * 65535))))
form(root(child(name(b"a" * 65535), name(b"a"))), False)
form(root(child(name(b"a" * 65536))), False)
form(root(child(*[("wildcard",)] * 65000)))
# 27, 28, 29: no logical argument; what 15 and 18 stand behind
code("02 0A 18 19 18 15")
code("02 0A 18 15 15", True)
code("02 0A 15")
code("02 0A 18 18")
code("02 0A 18 15 18")
code("02 0A 13 01 14 00 18")
code("02 0A 13 01 14 00", True)
code("02 0A 13 01 14 00 15", True)
code("02 0A 19 18 15", True)
code("02 0A 19 18 15 15", True)
code("02 0A 19 18")
code("02 0A 19 18 16 03 00 02 0A 18")
code("02 0A 19 15")
code("13 01 18")
code("13 01 18 15")
code("13 01 1A 18 15", True)
code("13 01 19 18 15")
code("02 0A 19 1A 18 15", True)
code("02 0A 19 19 18 15")
code("02 0A 1B 1B 18 15")
code("02 0A 1A 1A 1A 13 02 14 05", True)
code("02 0A 19 13 03 14 00")
code("02 0A 19 13 02 14 06")
code("02 0A")
code("")
code("18")
code("02 0A 18 02 0A 18")
code("02 0A 02 0A 02 0A 14 00")
code("02 0A 14 00")
# document 02, W4: match and search stand behind two operands of a value parameter, and are tests without an 18
code("12 00 00 01 00 12 01 00 01 00 1C", True, b"ab")
code("12 00 00 01 00 12 01 00 01 00 1D", True, b"ab")
code("12 00 00 01 00 12 01 00 01 00 1C 15", True, b"ab")
code("12 00 00 01 00 12 01 00 01 00 1C 18", False, b"ab")
code("12 00 00 01 00 12 01 00 01 00 1C 18 15", False, b"ab")
code("12 00 00 01 00 12 01 00 01 00 1E", False, b"ab")
code("12 01 00 01 00 12 00 00 01 00 1C", False, b"ab")
code("02 0A 02 0A 1C", True)
code("02 0A 02 0A 1D 15 15", True)
code("02 0A 19 13 02 1C", True)
code("02 0A 1A 02 0A 1B 1D", True)
code("02 0A 1C")
code("1C")
code("02 0A 02 0A 02 0A 1C")
code("02 03 01 00 08 0A 13 01 1C")
code("13 01 02 03 01 00 08 0A 1D")
code("02 0A 18 13 01 1C")
code("13 01 02 0A 18 1C")
code("02 0A 02 0A 1C 02 0A 1D")
code("02 0A 02 0A 1C 19")
code("02 0A 02 0A 1C 1A 18 15")
code("02 0A 02 0A 1C 13 01 14 00")
code("02 0A 02 0A 1C 16 05 00 02 0A 02 0A 1D", True)
code("02 0A 18 17 06 00 02 0A 02 0A 1D 15", True)
code("02 0A 18 17 06 00 02 0A 02 0A 1D 18")
# no expression is looked at
code("12 00 00 01 00 12 01 00 01 00 1C", True, b"a(")
code("12 00 00 00 00 12 00 00 07 D0 1D", False, b"a" * 2000)
code("12 00 00 00 00 12 00 00 D0 07 1D", True, b"a" * 2000)
# 30: grouping
form(filtered(("and", ("and", A, B), C)))
form(filtered(("and", A, ("and", B, C))))
form(filtered(("or", A, ("and", B, C))))
form(filtered(("not", ("or", ("and", A, B), C))))
# 31: singular queries
form(filtered(("compare", 2, ("query", here(child(name("a")), child(("index", -1)))), ONE)))
code("02 03 01 00 08 0A 13 01 14 00")
code("13 01 02 03 01 00 08 0A 14 00")
code("02 04 01 00 06 00 00 00 00 00 00 00 00 0A 13 01 14 00")
code("02 03 02 00 06 00 00 00 00 00 00 00 00 06 00 00 00 00 00 00 00 00 0A 13 01 14 00")
code("02 03 01 00 08 0A 1A 13 01 14 00")
code("02 03 01 00 08 0A 19 13 01 14 00", True)
code("02 03 01 00 08 0A 1B 1A 13 01 14 00", True)
# 32: nesting
for n, verdict in ((127, True), (128, True), (129, False)):
    form(nested(n, lambda q: (q[0], [child(("filter", ("exists", here(*q[1]))))]), root()), verdict)
    form(filtered(nested(n - 1, lambda t: ("not", t), AT)), verdict)
    form(filtered(nested(n - 1, lambda t: ("and", A, t), B)), verdict)
    form(filtered(nested(n - 1, lambda t: ("or", AT, t), AT)), verdict)
    form(filtered(("compare", 0, ("function", nested(n - 2, lambda f: (0x1A, ("function", f)), COUNT)), ONE)), verdict)
    form(filtered(("notvalue", nested(n - 3, lambda f: (0x1A, ("function", f)), COUNT))), verdict)
    form(filtered(nested(n - 2, lambda t: ("not", t), ("notvalue", COUNT))), n < 128)
for n, verdict in ((128, True), (129, False)):
    form(filtered(nested(n - 2, lambda t: ("not", t), ("regex", 0x1C, ONE, ONE))), verdict)
    form(filtered(("regex", 0x1D, ONE, ("function", nested(n - 3, lambda f: (0x1A, ("function", f)), COUNT)))), verdict)
form(filtered(nested(500, lambda t: ("and", t, A), B)))
# `$[?@||@&&!@` 32 times over, closed, reaches 128
THIRTY_TWO = root()
for _ in range(32):
    THIRTY_TWO = (THIRTY_TWO[0], [child(("filter", ("or", AT, ("and", AT, ("not", ("exists", here(*THIRTY_TWO[1])))))))])
form(THIRTY_TWO)
form(filtered(("exists", (2, THIRTY_TWO[1]))), False)
# 33: texts
form(root(child(name("a"), name("a"))))
form(root(child(name(""), name("b"), name(""))))
raw("01 03 02 00 05 00 00 01 00 05 00 00 01 00 0A", False, b"a")
raw("01 03 02 00 05 00 00 01 00 05 01 00 01 00 0A", True, b"aa")
raw("01 03 02 00 05 01 00 01 00 05 00 00 01 00 0A", False, b"aa")
raw("01 03 01 00 05 00 00 02 00 0A", True, "é".encode())
raw("01 03 02 00 05 00 00 01 00 05 01 00 01 00 0A", False, "é".encode())
raw("01 03 01 00 05 01 00 00 00 0A", False, b"")
raw("01 03 01 00 05 00 00 00 00 0A", True, b"")
raw("01 03 01 00 05 00 00 01 00 0A", False, b"\xff")
form(filtered(("compare", 0, ("text", "é".encode()), ("text", b"b"))))
# 34: beginnings, counts, flags, ends
raw("02 0A")
raw("01 03 00 00 0A")
raw("01 04 00 00 0A")
raw("01 03 02 00 08 0A")
raw("01 03 01 00 08 08 0A")
raw("01 03 01 00 08 0A 0A")
raw("01 03 01 00 08 0A 00")
raw("01 04 01 00 08 0A", True)
for flags, verdict in ((0, False), (1, False), (2, False), (3, False), (4, False), (5, False), (6, False), (7, True), (8, False), (15, False)):
    raw(f"01 03 01 00 07 {flags:02x} 01 00 00 00 00 00 00 00 02 00 00 00 00 00 00 00 03 00 00 00 00 00 00 00 0A", verdict)
for flags in range(8):
    raw(f"01 03 01 00 07 {flags:02x}" + " 00" * 24 + " 0A", True)
# lengths of codes
code("02 0A 18", True)
raw("01 03 01 00 09 02 00 02 0A 18 0A")
raw("01 03 01 00 09 04 00 02 0A 18 0A")
code("02 0A 18 16 03 00 02 0A 18", True)
code("02 0A 18 16 02 00 02 0A 18")
code("02 0A 18 16 04 00 02 0A 18 15", True)
code("02 0A 18 16 04 00 02 0A 18")
code("02 0A 18 17 00 00")

# ---- forms at random, and the same with one byte wrong

rng = random.Random(9535)


def some_query(depth, start=2, single=False):
    segments = []
    for _ in range(rng.randrange(3)):
        if single:
            segments.append(child(some_selector(depth, True)))
        else:
            segments.append((rng.choice((3, 4)), [some_selector(depth, False) for _ in range(rng.randrange(1, 3))]))
    return (start, segments)


def some_text():
    return rng.choice(("", "a", "é", "bc", "€")).encode()


def some_selector(depth, single):
    kind = rng.randrange(2 if single else 5 if depth else 4)
    if kind == 0:
        return ("name", some_text())
    if kind == 1:
        return ("index", rng.choice((0, 1, -1, MAX_INT)))
    if kind == 2:
        return ("slice", *(rng.choice((None, 0, -2, 3)) for _ in range(3)))
    return ("wildcard",) if kind == 3 else ("filter", some_test(depth - 1))


def some_test(depth):
    kind = rng.randrange(6 if depth else 4)
    if rng.randrange(6) == 0:
        return ("regex", rng.choice((0x1C, 0x1D)), some_argument(depth), some_argument(depth))
    if kind == 0:
        return ("exists", some_query(depth, rng.choice((1, 2))))
    if kind == 1:
        return ("compare", rng.randrange(6), some_argument(depth), some_argument(depth))
    if kind == 2:
        return ("notvalue", some_function(depth))
    if kind == 3:
        return ("not", some_test(max(depth - 1, 0))) if depth else AT
    return (("and", "or")[kind - 4], some_test(depth - 1), some_test(depth - 1))


def some_argument(depth):
    kind = rng.randrange(6 if depth else 5)
    if kind == 0:
        return ("query", some_query(0, rng.choice((1, 2)), True))
    if kind == 1:
        return ("integer", rng.randrange(-5, 5))
    if kind == 2:
        return ("text", some_text())
    if kind == 3:
        return ("constant", rng.randrange(3))
    return ("float", 0x3FF0000000000000) if kind == 4 else ("function", some_function(depth - 1))


def some_function(depth):
    kind = rng.choice((0x19, 0x1A, 0x1B))
    return (kind, some_argument(depth) if kind == 0x1A else some_query(depth))


def changed(data):
    data, at = bytearray(data), rng.randrange(len(data))
    way = rng.randrange(4)
    if way == 0:
        data[at] = rng.choice(tuple(range(0x1F)) + (255,))
    elif way == 1:
        del data[at]
    elif way == 2:
        data.insert(at, rng.randrange(0x1F))
    else:
        data[at] ^= 1 << rng.randrange(8)
    return bytes(data)


for i in range(68):
    plan, pool = translate(some_query(3, 1))
    if len(plan) < 160:
        ROWS.append((plan, pool, True))
        ROWS.append((changed(plan), pool, None))
        ROWS.append((changed(plan), changed(pool) if pool else pool, None))


def short(data):
    """The bytes in hexadecimal, with a run of one repeated piece written once."""
    for k in (1, 4):
        for i in range(0, 64):
            n = i
            while n + k < len(data) and data[n] == data[n + k]:
                n += 1
            if n - i > 200:
                return data[: i + k].hex() + f"*{n - i:04x}{k:02x}" + data[n + k :].hex()
    return data.hex()


with open(os.path.join(HERE, "stdin"), "w") as lines, open(os.path.join(HERE, "stdout"), "w") as verdicts:
    for plan, pool, verdict in ROWS:
        found = check(plan, pool)
        assert verdict in (None, found), (plan.hex(), pool.hex(), verdict, found)
        lines.write(f"{short(plan)} {short(pool)}\n")
        verdicts.write("ok\n" if found else "refused 11\n")
# the program reads so much of its input
assert os.path.getsize(os.path.join(HERE, "stdin")) <= 65536
