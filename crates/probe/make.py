#!/usr/bin/env python3
"""Writes stdin and stdout of the program probe, beside this file: lines of calls, and the answers that documents 01 and 02 ask for.

The rules are written once more in tools/, plainly and apart from the definition and the code, so that the three are held against each other. queries.py
has the queries. Run it with no arguments; it always writes the same files.
"""
import os, random, struct, sys

HERE = os.path.dirname(os.path.abspath(__file__))
sys.dont_write_bytecode = True
sys.path[:0] = [HERE, os.path.join(HERE, "..", "..", "tools")]
import plans, queries, reference
from tables import DEPTH, HIGH, KEY, KEY_SIZE, KIND, LOW, PARENT, RECORD, ZERO
from tables import FALSE, FLOAT, INTEGER, LIST, MAP, NULL, STRING, build, check, check_records, check_texts, field, named, parents, path, put, record, u32

NODES, TEXT, LINE, QUERY, PLAN, PLACES = 8192, 65536, 524800, 8192, 65536, 65535
TABLE = RECORD * NODES
KINDS = 256
COUNTS = 8 * KINDS


# ---- the program's lines

class Bad(Exception):
    pass


class TooLong(Exception):
    pass


def word(s, room):
    if s == b"-":
        return b""
    if not s or len(s) % 2:
        raise Bad
    if len(s) // 2 > room:
        raise TooLong
    if any(c not in b"0123456789abcdefABCDEF" for c in s):
        raise Bad
    return bytes.fromhex(s.decode())


def number(s):
    if not s:
        raise Bad
    n = 0
    for c in s:
        if c not in b"0123456789" or n >= 10 ** 18:
            raise Bad
        n = 10 * n + c - 48
    return n


def answer(line):
    if len(line) > LINE:
        return "too long"
    name, *rest = line.split(b" ")
    rooms = ROOMS.get(name, [])
    if len(rest) != len(rooms) or not rooms:
        return "bad line"
    try:
        values = [number(w) if room is None else word(w, room) for w, room in zip(rest, rooms)]
        return globals()["answer_" + name.decode()](*values)
    except TooLong:
        return "too long"
    except Bad:
        return "bad line"


# the room of each word of a call, None for a number
ROOMS = {
    b"table": [TABLE, TEXT],
    b"records": [TABLE, TEXT],
    b"texts": [TABLE, TEXT],
    b"text": [TABLE, TEXT, None],
    b"key": [TABLE, TEXT, None],
    b"path": [TABLE, TEXT, None, None],
    b"compile": [QUERY, None, None],
    b"plan": [PLAN, PLAN],
    b"run": [PLAN, PLAN, TABLE, TEXT, None, None],
    b"select": [QUERY, TABLE, TEXT, None, None],
    b"take": [COUNTS, None, PLAN, PLAN],
}


def shown(data):
    return data.hex() or "-"


def checked(wrong):
    return "ok" if wrong is None else "refused 9" if wrong == 9 else "refused %d %d" % wrong


def answer_table(table, text):
    return checked(check(table, text))


def answer_records(table, text):
    return checked(check_records(table, text))


def answer_texts(table, text):
    return checked(check_texts(table, text))


def answer_part(table, text, node, key):
    refusal, part = named(table, text, node, key)
    return "refused %d" % refusal if refusal else "ok " + shown(part)


def answer_text(table, text, node):
    return answer_part(table, text, node, False)


def answer_key(table, text, node):
    return answer_part(table, text, node, True)


def answer_path(table, text, node, room):
    if room > PLAN:
        raise TooLong
    refusal, n, written = path(table, text, node, room)
    return "refused %d %d" % (refusal, n) if refusal else "ok " + shown(written)


def answer_compile(query, plan_room, pool_room):
    if plan_room > PLAN or pool_room > PLAN:
        raise TooLong
    refusal, plan, pool = reference.compile(query, plan_room, pool_room)
    return "refused %d %d %d" % (refusal, plan, pool) if refusal else "ok %s %s" % (shown(plan), shown(pool))


def answer_plan(plan, pool):
    return "ok" if plans.check(plan, pool) else "refused 11"


def answer_run(plan, pool, table, text, length, start):
    if length > PLACES:
        raise TooLong
    return listed(*reference.run(plan, pool, table, text, length, start))


def answer_select(query, table, text, length, start):
    if length > PLACES:
        raise TooLong
    return listed(*reference.select(query, table, text, length, start))


def answer_take(counts, taken, plan, pool):
    if len(counts) != COUNTS:
        raise Bad
    refusal, after, taken = reference.take(struct.unpack("<%dQ" % KINDS, counts), taken, plan, pool)
    return "refused %d" % refusal if refusal else "ok %s %d" % (shown(counted(after)), taken)


def counted(counts):
    return struct.pack("<%dQ" % KINDS, *counts)


def listed(refusal, n, places):
    head = "refused %d %d" % (refusal, n) if refusal else "ok %d" % n
    return " ".join([head] + [str(places.get(i, ".")) for i in range(max(places, default=-1) + 1)])


# ---- tables and what is put into them

def key_bytes(table, node):
    return table[RECORD * node + KEY:RECORD * node + PARENT]


SAMPLE = {b"a": [10, 20.0, 30], b"b": "é".encode()}
EVERY = [None, False, True, -1, 1.5, b"text", [], {}, [b"", [7]], {b"k": None, b"": b"x", "ключ".encode(): {b"k": []}}]
SCALARS = [None, True, 2 ** 63 - 1, -2 ** 63, 5e-324, -0.0, 1.7976931348623157e308, b"\xf4\x8f\xbf\xbf\xed\x9f\xbf\xee\x80\x80"]
MEMBERS = {b"z": 0, b"a": {b"y": [None], b"b": b"t"}, b"c": []}
lines = []


def say(name, *words):
    lines.append(b" ".join([name] + [w if isinstance(w, bytes) else b"%d" % w for w in words]))


def hexed(s):
    return s.hex().encode() or b"-"


def table_line(table, text):
    say(b"table", hexed(table), hexed(text))


def check_lines(table, text):
    """Both checks by themselves, and the pair."""
    for name in (b"records", b"texts", b"table"):
        say(name, hexed(table), hexed(text))


def broken(table, text):
    """Each rule broken once at some node: (name, table, text) for the first, a middle and the last node where it applies."""
    n = len(table) // RECORD
    up = parents(table)
    kinds = [table[RECORD * i + KIND] for i in range(n)]

    def at(nodes, change):
        nodes = list(nodes)
        for i in sorted({nodes[0], nodes[len(nodes) // 2], nodes[-1]} if nodes else set()):
            yield change(i)

    every = range(n)
    depth = lambda i: table[RECORD * i + DEPTH]
    for new in (8, 255):
        yield from at(every, lambda i: put(table, i, KIND, bytes([new])))
    for new in (64, 255):
        yield from at(every, lambda i: put(table, i, DEPTH, bytes([new])))
    yield from at(every, lambda i: put(table, i, DEPTH, bytes([depth(i) + 1])))
    yield from at(range(1, n), lambda i: put(table, i, DEPTH, bytes([depth(i) - 1])))
    for byte in (ZERO, ZERO + 1, PARENT + 1, PARENT + 2, PARENT + 3):
        yield from at(every, lambda i: put(table, i, byte, b"\x01"))
    yield from at(every, lambda i: put(table, i, PARENT, u32(up.get(i, 0) + 1)))
    yield from at(range(1, n), lambda i: put(table, i, PARENT, u32(i)))
    yield from at([i for i in every if up.get(i, 0)], lambda i: put(table, i, PARENT, u32(0)))
    yield from at([i for i in every if up.get(i, 0)], lambda i: put(table, i, PARENT, u32(up[i] - 1)))
    plain = [i for i in every if i == 0 or kinds[up[i]] != MAP]
    yield from at(plain, lambda i: put(table, i, KEY, u32(1)))
    yield from at(plain, lambda i: put(table, i, KEY_SIZE, u32(1)))
    member = [i for i in every if i and kinds[up[i]] == MAP]
    yield from at(member, lambda i: put(table, i, KEY, u32(len(text) + 1) + u32(0)))
    yield from at(member, lambda i: put(table, i, KEY, u32(len(text)) + u32(0)))
    yield from at(member, lambda i: put(table, i, KEY, u32(len(text)) + u32(1)))
    yield from at(member, lambda i: put(table, i, KEY, u32(0xffffffff) + u32(0xffffffff)))
    second = [i for i in member if i - 1 in member and up[i - 1] == up[i]]
    yield from at(second, lambda i: put(table, i, KEY, key_bytes(table, i - 1)))
    third = [i for i in second if i - 2 in member and up[i - 2] == up[i]]
    yield from at(third, lambda i: put(table, i, KEY, key_bytes(table, i - 2)))
    for byte in (LOW, LOW + 3, HIGH, HIGH + 3):
        yield from at([i for i in every if kinds[i] < 3], lambda i: put(table, i, byte, b"\x80"))
        yield from at([i for i in every if kinds[i] == INTEGER], lambda i: put(table, i, byte, b"\x80"))
    for bits in (0x7ff << 52, 0xfff << 52, 0x7ff << 52 | 1, (1 << 64) - 1, 0x7fe << 52, 1, 1 << 63):
        yield from at([i for i in every if kinds[i] == FLOAT], lambda i: put(table, i, LOW, struct.pack("<Q", bits)))
    texts = [i for i in every if kinds[i] == STRING]
    yield from at(texts, lambda i: put(table, i, HIGH, u32(len(text) - field(table, i, LOW) + 1)))
    yield from at(texts, lambda i: put(table, i, LOW, u32(len(text) + 1) + u32(0)))
    yield from at(texts, lambda i: put(table, i, LOW, u32(len(text)) + u32(0)))
    yield from at(texts, lambda i: put(table, i, LOW, u32(0) + u32(len(text))))
    yield from at(texts, lambda i: put(table, i, LOW, u32(0xffffffff) + u32(1)))
    box = [i for i in every if kinds[i] in (LIST, MAP)]
    full = [i for i in box if field(table, i, HIGH)]
    yield from at([i for i in box if i not in full], lambda i: put(table, i, LOW, u32(1)))
    yield from at(full, lambda i: put(table, i, LOW, u32(field(table, i, LOW) + 1)))
    yield from at(full, lambda i: put(table, i, LOW, u32(field(table, i, LOW) - 1)))
    yield from at(full, lambda i: put(table, i, LOW, u32(0)))
    yield from at(full, lambda i: put(table, i, HIGH, u32(field(table, i, HIGH) + 1)))
    yield from at(full, lambda i: put(table, i, HIGH, u32(field(table, i, HIGH) - 1)))
    yield from at(full, lambda i: put(table, i, HIGH, u32(0)))
    yield from at(full, lambda i: put(table, i, HIGH, u32(0xffffffff)))
    yield from at(full, lambda i: put(table, i, LOW, u32(0xffffffff) + u32(0xffffffff)))
    yield from at(full, lambda i: put(table, i, LOW, u32(i) + u32(1)))
    yield from at([i for i in box if kinds[i] == LIST], lambda i: put(table, i, KIND, b"\x07"))
    yield from at([i for i in box if kinds[i] == MAP], lambda i: put(table, i, KIND, b"\x06"))
    yield from at(every, lambda i: put(table, i, KIND, b"\x00"))
    yield from at(every, lambda i: put(table, i, KIND, b"\x05"))
    yield table[:-RECORD]
    yield table + record(NULL)
    yield table + table[-RECORD:]
    for size in (0, 1, RECORD - 1, RECORD + 1, len(table) - 1, len(table) - RECORD + 1):
        yield table[:size]


def chain(levels):
    v = None
    for _ in range(levels):
        v = [v]
    return v


def random_value(r, depth):
    pick = r.randrange(10 if depth else 7)
    if pick > 6:
        return [random_value(r, depth - 1) for _ in range(r.randrange(4))]
    if pick > 4 and depth:
        return {bytes(r.choice(b"abc") for _ in range(r.randrange(3))): random_value(r, depth - 1) for _ in range(r.randrange(5))}
    return r.choice([None, False, True, r.randrange(-9, 9), r.random(), b"", b"ab", "é".encode()])


def write_lines():
    for value in (SAMPLE, EVERY, SCALARS, MEMBERS, None, 0, 0.5, b"", b"x", [], {}, [[]], {b"": None}, [[], [], [1]]):
        table, text = build(value)
        table_line(table, text)
        for node in sorted({*range(min(len(table) // RECORD + 2, 20)), len(table) // RECORD - 1, 65535, 10 ** 18}):
            say(b"text", hexed(table), hexed(text), node)
            say(b"key", hexed(table), hexed(text), node)
    for value in (EVERY, MEMBERS):
        table, text = build(value)
        for wrong in dict.fromkeys(broken(table, text)):
            check_lines(wrong, text)
    # a part that is not UTF-8, texts that overlap, other bytes of any kind
    table, text = build({b"kk": b"tt"})
    for new in (b"\xffktt", b"kk\xc3t", b"k\xc3tt", b"\xc3\xa9\xc3\xa9", b"\xed\xa0tt", b"kk\xc0\x80", b"k", b"kktt\xff", b""):
        table_line(table, new)
        say(b"text", hexed(table), hexed(new), 1)
        say(b"key", hexed(table), hexed(new), 1)
    table_line(put(table, 1, LOW, u32(1) + u32(2)), b"kktt\xff")
    # depths to the limit and past it, with the two ways to be past it
    for levels in (62, 63, 64, 70):
        table_line(*build(chain(levels)))
    deep, text = build(chain(63))
    table_line(put(deep, 63, KIND, b"\x06"), text)
    for depth in (64, 63):
        table_line(deep[:-RECORD] + record(LIST, 63, low=64, high=1, above=62) + record(NULL, depth, above=63), text)
    # members to the limit and past it, keys that differ late, and equal keys far apart
    for count in (1023, 1024, 1025):
        table_line(*build({b"%04x" % k: None for k in range(count)}))
    table, text = build({b"%03x" % k: None for k in range(300)})
    table_line(put(table, 300, KEY, key_bytes(table, 1)), text)
    table_line(put(table, 299, KEY, key_bytes(table, 1)), text)
    table_line(put(table, 151, KEY, key_bytes(table, 150)), text)
    table, text = build([{b"a": 1}, {b"a": 1, b"b": {b"a": 1}}, {b"": 1}])
    table_line(table, text)
    table_line(put(table, 6, KEY, key_bytes(table, 5)), text)
    # lists longer than a map may be, and the node that no earlier node has as child
    table_line(*build([None] * 1100))
    null = record(NULL)
    table_line(null + null, b"")
    table_line(record(LIST, low=1, high=1) + record(NULL, 1) + null, b"")
    table_line(null + record(LIST, 1, low=1, high=1), b"")
    table_line(null + record(LIST, 1, low=2, high=1) + null, b"")
    table_line(record(LIST, low=1, high=2) + record(LIST, 1, low=3, high=1) + record(LIST, 1, low=4, high=1) + record(NULL, 2), b"")
    # several rules broken at once
    r = random.Random(20260114)
    for _ in range(160):
        table, text = build([random_value(r, 3) for _ in range(3)])
        for _ in range(r.randrange(4)):
            node = r.randrange(len(table) // RECORD)
            at = r.choice([KIND, DEPTH, DEPTH, ZERO, KEY, KEY_SIZE, PARENT, LOW, LOW, HIGH, HIGH])
            table = put(table, node, at, bytes([r.choice([0, 1, 2, 3, 5, 6, 7, 8, 64, 255])]))
        check_lines(table, text)
        node = r.randrange(len(table) // RECORD + 1)
        say(b"key" if r.randrange(2) else b"text", hexed(table), hexed(text), node)
    # the words of a line
    table, text = build(SAMPLE)
    t, x = hexed(table), hexed(text)
    lines.extend([b"", b" ", b"table", b"table ", b"table " + t, b"table " + t + b" ", b"table  " + x, b"table " + t + b" " + x + b" ",
                  b" table " + t + b" " + x, b"tables " + t + b" " + x, b"Table " + t + b" " + x, b"tabl " + t + b" " + x,
                  b"table " + t.upper() + b" " + x.upper(), b"table " + t[1:] + b" " + x, b"table " + t[:-2] + b"0g " + x,
                  b"table " + t + b" " + x + b"\r", b"table " + t + b"\t" + x, b"table - -", b"table - 00", b"table -- -",
                  b"text " + t + b" " + x, b"text " + t + b" " + x + b" ", b"text " + t + b" " + x + b" -", b"text " + t + b" " + x + b" 2 ",
                  b"text " + t + b" " + x + b" +2", b"text " + t + b" " + x + b" 0002", b"text " + t + b" " + x + b" 999999999999999999",
                  b"text " + t + b" " + x + b" 1000000000000000000", b"text " + t + b" " + x + b" 10000000000000000000",
                  b"text " + t + b" " + x + b" 00000000000000000000000000000002", b"text " + t + b" " + x + b" 18446744073709551618",
                  b"key " + t + b" " + x + b" 1", b"key " + t + b" " + x + b" 1 1", b"key - - 0", b"text 00 - 0", b"key " + t[:48] + b" - 0"])
    # the largest table and text that fit, and lines that are too long in each way
    full = record(LIST, low=1, high=NODES - 1) + record(FALSE, 1) * (NODES - 1)
    fill = bytes(r.choice(b"abcdefgh") for _ in range(TEXT))
    table_line(full, fill)
    one = record(STRING, low=1, high=40)
    say(b"text", hexed(one), hexed(fill + b"a"), 0)
    lines.append(b"table " + b"0" * LINE)
    say(b"text", hexed(one), hexed(fill[:41]), 0)
    say(b"text", hexed(one), hexed(fill[:40]), 0)


# ---- paths

def path_lines():
    keys = [bytes(range(32)), b"\"'\\/\x7f", "é€😀".encode(), b"", b"a b"]
    values = [SAMPLE, EVERY, MEMBERS, None, [[]], {k: [k] for k in keys}, {b"k": {k: {b"x": None} for k in keys}}, [None] * 101, chain(63)]
    for value in values:
        table, text = build(value)
        n = len(table) // RECORD
        for node in sorted({n - 1, n} if n > 40 else {*range(n + 1), 65535, 10 ** 18}):
            length = path(table, text, node, PLAN)[1]
            for room in sorted({0, length - 1, length, length + 1}) if length else [9]:
                say(b"path", hexed(table), hexed(text), node, room)
    for room in (PLAN, PLAN + 1):
        say(b"path", *map(hexed, build(SAMPLE)), 5, room)
    table, text = build(MEMBERS)
    for wrong in dict.fromkeys(broken(table, text)):
        say(b"path", hexed(wrong), hexed(text), 4, 100)
    t, x = build(SAMPLE)
    t, x = hexed(t), hexed(x)
    lines.extend([b"path", b"path " + t + b" " + x, b"path " + t + b" " + x + b" 1", b"path " + t + b" " + x + b" 1 ", b"path " + t + b" " + x + b" 1 9 9",
                  b"path " + t + b" " + x + b" - 9", b"path " + t + b" " + x + b" 1 -", b"paths " + t + b" " + x + b" 1 9", b"path - - 0 0"])


# ---- compile, plan, run and select

def compile_lines():
    r = random.Random(20260203)
    every = [(w, q.encode()) for w, qs in queries.COMPILED for q in qs] + [(w, q) for w, qs in queries.RAW for q in qs]
    for i, (wanted, query) in enumerate(every):
        refusal, plan, pool = reference.compile(query, PLAN, PLAN)
        assert refusal == wanted, (query, refusal, wanted)
        if refusal:
            say(b"compile", hexed(query), *r.choice([(PLAN, PLAN), (0, 0), (100, 7)]))
            continue
        n, m = len(plan), len(pool)
        say(b"compile", hexed(query), *r.choice([(PLAN, PLAN), (n, m), (n + 3, m + 1)]))
        if i % 4 == 0:
            say(b"compile", hexed(query), *r.choice([(n - 1, m), (0, 0), (n - 1, PLAN), (n - 1, m - 1 if m else 0)]))
        if i % 4 == 2 and m:
            say(b"compile", hexed(query), *r.choice([(n, m - 1), (PLAN, 0), (PLAN, m - 1)]))
        if n < 5000:
            say(b"plan", hexed(plan), hexed(pool))
            say(b"plan", *map(hexed, changed(r, plan, pool)))
    say(b"compile", hexed(b"$"), PLAN + 1, 0)
    say(b"compile", hexed(b"$"), 0, PLAN + 1)
    say(b"compile", hexed(b"a" * (QUERY + 1)), 0, 0)


def changed(r, plan, pool):
    """A plan and a pool with one byte changed, left out or put in."""
    if pool and r.randrange(4) == 0:
        at = r.randrange(len(pool))
        return plan, r.choice([pool[:at] + bytes([r.randrange(256)]) + pool[at + 1:], pool[:at] + pool[at + 1:], pool + b"a"])
    at = r.randrange(len(plan))
    new = bytes([r.choice([0, 1, 2, 3, 4, 5, 6, 8, 9, 10, 16, 19, 20, 21, 22, 24, 25, 28, 29, 255])])
    return r.choice([plan[:at] + new + plan[at + 1:], plan[:at] + plan[at + 1:], plan[:at] + new + plan[at:]]), pool


def plan_lines():
    wild, slice_, test = bytes.fromhex("03010008"), bytes.fromhex("03010007") + bytes(25), bytes.fromhex("030100090300020a18")
    for middle in (slice_ + wild * 16376, slice_ + test + wild * 16374):
        say(b"plan", hexed(b"\x01" + middle + b"\x0a"), b"-")
    for size in (65535, 65536):
        say(b"plan", hexed(b"\x01\x03\x01\x00\x05\x00\x00" + struct.pack("<H", size % 65536) + b"\x0a"), hexed(b"a" * size))
    say(b"plan", b"-", b"-")
    say(b"plan", b"010a", b"-")
    say(b"plan", b"010a", b"61")
    say(b"plan", b"020a", b"-")
    r = random.Random(20261116)
    for query in map(str.encode, queries.STORED):
        plan, pool = plans.translate(reference.form(query, stored=True))
        say(b"plan", hexed(plan), hexed(pool))
        say(b"plan", *map(hexed, changed(r, plan, pool)))


def select_lines():
    r = random.Random(20260204)
    for document, texts in queries.SELECTED:
        table, text = build(document)
        t, x = hexed(table), hexed(text)
        for query in map(str.encode, texts):
            plan, pool = plans.translate(reference.form(query, stored=True))
            n = reference.run(plan, pool, table, text, PLACES, 0)[1]
            length, start = r.choice([(n, 0), (n + 2, 0), (n + 3, 2), (n + 1, 1), (4096, 0), (n + 7, 0)])
            say(b"select", hexed(query), t, x, length, start)
            length, start = r.choice([(n, 0), (n + 3, 2), (max(n, 1) - 1, 0), (n + 1, 2), (n, n), (n, n + 1), (n // 2 + 4, 4)])
            say(b"run", hexed(plan), hexed(pool), t, x, length, start)


def order_lines():
    """Which refusal comes first, and the limits of a list."""
    table, text = build(queries.SAMPLE)
    t, x, bad, wrong = hexed(table), hexed(text), hexed(table[1:]), hexed(put(table, 3, KIND, b"\x08"))
    plan, pool = map(hexed, plans.translate(reference.form(b"$..*")))
    for length, start in ((0, 0), (0, 1), (5, 0), (5, 1), (5, 5), (5, 6), (4, 0), (3, 1), (4, 4), (9, 4), (9, 5), (300, 295), (300, 296), (65535, 0), (65535, 65535), (65535, 65536), (65536, 0),
                          (5, 10 ** 18), (5, 10 ** 19), (10 ** 18, 0), (0, 0)):
        for query in (b"$..*", b"$.x", b"$"):
            say(b"select", hexed(query), t, x, length, start)
        say(b"run", plan, pool, t, x, length, start)
    for query in (b"$", b"$[", b"$[?foo()]", b"$[?count(@)]", b"$[?match('a','b')]", b"$[?@==1e309]", b"[" * 33, b"\xff", b"a" * 4097):
        for these in (t, bad, wrong, b"-"):
            for length, start in ((0, 0), (3, 1), (3, 4)):
                say(b"select", hexed(query), these, x, length, start)
    for code in (plan, b"020a", b"-", plan[:-2]):
        for these in (t, bad, wrong, b"-"):
            for length, start in ((0, 0), (7, 1), (3, 1), (3, 4)):
                say(b"run", code, pool, these, x, length, start)
    wide = hexed(record(LIST, low=1, high=NODES - 1) + record(FALSE, 1) * (NODES - 1))
    say(b"select", hexed(b"$[-1,0,8191,1]"), wide, b"-", 4, 1)
    say(b"select", hexed(b"$"), t, x, 65535, 65534)
    many = b"$" + b"[*,*]" * 6
    small, empty = map(hexed, build([[[[[[1]]]]]]))
    for length, start in ((64, 0), (63, 0), (70, 6), (70, 7), (1, 0), (0, 0)):
        say(b"select", hexed(many), small, empty, length, start)


def range_lines():
    """The texts and keys of records that are wrong: ranges as they are written, as far as the table reaches."""
    text = "abé".encode()
    a, b, past = record(0, 1, 0, 1), record(0, 1, 1, 1), record(0, 1, 3, 2)
    whole = 0xffffffff
    for low, high in ((1, 2), (1, 1), (2, 1), (2, 2), (0, 1), (0, 3), (0, whole), (1, whole), (2, whole), (3, 1), (9, 2), (whole, whole), (whole, 2), (1, 0)):
        for members in ((a, a), (a, b), (b, a), (a, past), (past, a), (past, past)):
            for kind in (MAP, LIST, 8):
                check_lines(record(kind, 0, 0, 0, low, high) + b"".join(members), text)
    # maps before and behind their members, and ranges that overlap
    r = random.Random(20261117)
    for _ in range(300):
        n = r.randrange(1, 7)
        check_lines(b"".join(record(r.choice([0, 3, STRING, MAP, MAP, 8]), r.randrange(2), r.randrange(4), r.randrange(3), r.choice([0, 1, 2, 3, whole]), r.choice([0, 1, 2, 3, 9, whole]), r.randrange(2)) for _ in range(n)), r.choice([text, b"aaaa", b"abab"]))
    # a bad key at node 1 and a bad depth at node 2
    check_lines(record(MAP, 0, 0, 0, 1, 2) + record(0, 1, 0, 9) + record(0, 5, 0, 1), text)
    for name in (b"records", b"texts"):
        lines.extend([name, name + b" - -", name + b" 00", name + b" 00 - 0", name + b" zz -", name + b" - z"])


def take_lines():
    """A series of plans, accepted and refused ones mixed, the limits of a count and of the number of plans, and the words of the call."""
    counts, taken, most = [0] * KINDS, 0, reference.MAX_INT

    def line(counts, taken, plan, pool):
        say(b"take", hexed(counted(counts)), taken, hexed(plan), hexed(pool))

    for query in (b"$.a[1]", b"$", b"$[1:2:3,::]", b"$[?@.a && !@.b || @.c < null]", b"$[?length(value(@.a)) >= 2.5]", b"$[?!count(@..*)]", b"$[?@['x'] == 'y']"):
        plan, pool = plans.translate(reference.form(query, stored=True))
        line(counts, taken, plan, pool)
        line(counts, taken, plan[:-1], pool)
        refusal, counts, taken = reference.take(counts, taken, plan, pool)
    plan, pool = plans.translate(reference.form(b"$.a[1]"))
    for kind, before in ((0x03, most - 2), (0x03, most - 1), (0x03, most), (0x0A, most - 1), (0x0A, most), (0xFF, most), (0xFF, most + 1), (0x00, 2 ** 64 - 1)):
        line([before if k == kind else k for k in range(KINDS)], 7, plan, pool)
    for before in (most - 1, most, most + 1, 10 ** 18 - 1):
        line([1] * KINDS, before, plan, pool)
    line([most] * KINDS, most, plan, b"")
    zeros, p, x = hexed(counted([0] * KINDS)), hexed(plan), hexed(pool)
    for words in ((zeros[2:], b"0", p, x), (zeros + b"00", b"0", p, x), (zeros[1:], b"0", p, x), (zeros, b"", p, x), (zeros, b"-", p, x), (zeros, b"0", p, b"6"), (b"-", b"0", p, x), (zeros, b"0", p), (zeros, b"0", p, x, b"0")):
        lines.append(b" ".join((b"take",) + words))


def word_lines():
    """The words of these calls."""
    table, text = build(queries.SAMPLE)
    t, x, q = hexed(table), hexed(text), hexed(b"$.a[1]")
    plan, pool = map(hexed, plans.translate(reference.form(b"$.a[1]")))
    good = [(b"compile", q, b"22", b"1"), (b"plan", plan, pool), (b"run", plan, pool, t, x, b"3", b"1"), (b"select", q, t, x, b"3", b"1")]
    for words in good:
        lines.append(b" ".join(words))
        lines.append(b" ".join(words) + b" ")
        lines.append(b" ".join(words) + b"\r")
        lines.append(b" ".join(words[:-1]))
        lines.append(b" ".join(words + (b"1",)))
        lines.append(words[0].upper() + b" " + b" ".join(words[1:]))
        lines.append(words[0] + b"s " + b" ".join(words[1:]))
        lines.append(words[0])
        for i in range(1, len(words)):
            for new in (b"", b"zz", b"-1", b"1"[:i % 2] + b"0x", b"--", b"5g"):
                lines.append(b" ".join(words[:i] + (new,) + words[i + 1:]))
    over = b"00" * (PLAN + 1)
    lines.extend([b"plan - " + over, b"run " + over + b" zz zz zz zz zz", b"select " + b"24" * (QUERY + 1) + b" zz zz 0 0", b"select zz " + b"24" * (QUERY + 1) + b" - 0 0"])


write_lines()
compile_lines()
plan_lines()
select_lines()
order_lines()
word_lines()
range_lines()
take_lines()
path_lines()
with open(os.path.join(HERE, "stdin"), "wb") as f:
    f.write(b"\n".join(lines))
with open(os.path.join(HERE, "stdout"), "w") as f:
    f.writelines(answer(line) + "\n" for line in lines)
