"""Plans in plain Python, apart from the definition and the code: the translation of a query form, and the form of a plan.

A form is a tree of tuples. A query is (1 for `$` or 2 for `@`, segments); a segment (3 for child or 4 for descendant, selectors); a selector
("name", bytes), ("index", n), ("slice", start, stop, step), ("wildcard",) or ("filter", test); a test ("exists", query),
("compare", 0 to 5, argument, argument), ("regex", its kind, argument, argument), ("not", test), ("notvalue", function), ("and", test, test) or
("or", test, test); an argument ("query", query), ("function", function), ("integer", n), ("float", bits), ("text", bytes) or ("constant", 0 to 2); a
function (its kind, argument or query).
"""
import struct, sys

MAX_PLAN, MAX_NESTING, MAX_INT = 65535, 128, 2**53 - 1
MATCH, SEARCH = 0x1C, 0x1D
sys.setrecursionlimit(10000)

# ---- the translation of a form


def query(q, pool):
    start, segments = q
    return bytes([start]) + b"".join(segment(s, pool) for s in segments) + b"\x0a"


def segment(s, pool):
    kind, selectors = s
    return bytes([kind]) + struct.pack("<H", len(selectors) % 65536) + b"".join(selector(x, pool) for x in selectors)


def pooled(kind, text, pool):
    at = len(pool)
    pool += text
    return bytes([kind]) + struct.pack("<HH", at % 65536, len(text) % 65536)


def framed(kind, code):
    return bytes([kind]) + struct.pack("<H", len(code) % 65536) + code


def selector(x, pool):
    if x[0] == "name":
        return pooled(0x05, x[1], pool)
    if x[0] == "index":
        return b"\x06" + struct.pack("<q", x[1])
    if x[0] == "slice":
        flags = sum(1 << i for i in range(3) if x[1 + i] is not None)
        return bytes([0x07, flags]) + b"".join(struct.pack("<q", b or 0) for b in x[1:])
    return b"\x08" if x[0] == "wildcard" else framed(0x09, test(x[1], pool))


def test(t, pool):
    if t[0] == "exists":
        return query(t[1], pool) + b"\x18"
    if t[0] == "compare":
        left = argument(t[2], pool)
        return left + argument(t[3], pool) + bytes([0x14, t[1]])
    if t[0] == "regex":
        text = argument(t[2], pool)
        return text + argument(t[3], pool) + bytes([t[1]])
    if t[0] == "not":
        return test(t[1], pool) + b"\x15"
    if t[0] == "notvalue":
        return function(t[1], pool) + b"\x18\x15"
    left = test(t[1], pool)
    return left + framed(0x16 if t[0] == "and" else 0x17, test(t[2], pool))


def argument(a, pool):
    if a[0] == "query":
        return query(a[1], pool)
    if a[0] == "function":
        return function(a[1], pool)
    if a[0] == "integer":
        return b"\x10" + struct.pack("<q", a[1])
    if a[0] == "float":
        return b"\x11" + struct.pack("<Q", a[1])
    return pooled(0x12, a[1], pool) if a[0] == "text" else bytes([0x13, a[1]])


def function(f, pool):
    return (argument if f[0] == 0x1A else query)(f[1], pool) + bytes([f[0]])


def translate(q):
    pool = bytearray()
    return query(q, pool), bytes(pool)


# ---- which trees are forms: the deepest nesting, or an exception


class Wrong(Exception):
    pass


def need(holds):
    if not holds:
        raise Wrong


def utf8(text):
    try:
        text.decode("utf-8")
    except UnicodeDecodeError:
        raise Wrong


def in_range(n):
    need(n is None or abs(n) <= MAX_INT)


def singular(q):
    return all(k == 3 and len(xs) == 1 and xs[0][0] in ("name", "index") for k, xs in q[1])


def deep_query(q):
    need(all(xs for _, xs in q[1]))
    return max([0] + [deep_selector(x) for _, xs in q[1] for x in xs])


def deep_selector(x):
    if x[0] == "name":
        utf8(x[1])
    elif x[0] in ("index", "slice"):
        for n in x[1:]:
            in_range(n)
    elif x[0] == "filter":
        return 1 + deep_test(x[1])
    return 0


def deep_test(t):
    if t[0] == "exists":
        return deep_query(t[1])
    if t[0] == "compare":
        return max(deep_argument(t[2]), deep_argument(t[3]))
    if t[0] == "regex":
        return 1 + max(deep_argument(t[2]), deep_argument(t[3]))
    if t[0] == "not":
        return 1 + deep_test(t[1])
    if t[0] == "notvalue":
        return 1 + deep_function(t[1])
    return max(deep_test(t[1]), 1 + deep_test(t[2]))


def deep_argument(a):
    if a[0] == "query":
        need(singular(a[1]))
        return deep_query(a[1])
    if a[0] == "function":
        return deep_function(a[1])
    if a[0] == "float":
        need((a[1] >> 52) & 2047 != 2047)
    if a[0] == "text":
        utf8(a[1])
    return 0


def deep_function(f):
    return 1 + (deep_argument if f[0] == 0x1A else deep_query)(f[1])


# ---- a plan taken apart with a stack; what is wrong in it shows when the tree is translated again


class Reader:
    def __init__(self, plan, pool):
        self.plan, self.pool, self.at = plan, pool, 0

    def take(self, n):
        need(self.at + n <= len(self.plan))
        self.at += n
        return self.plan[self.at - n : self.at]

    def number(self, form):
        return struct.unpack("<" + form, self.take(struct.calcsize(form)))[0]

    def text(self):
        start, n = self.number("H"), self.number("H")
        return bytes(self.pool[start : start + n])

    def query(self):
        start, segments = self.number("B"), []
        need(start in (1, 2))
        while (kind := self.number("B")) != 0x0A:
            need(kind in (3, 4))
            segments.append((kind, [self.selector() for _ in range(self.number("H"))]))
        return (start, segments)

    def selector(self):
        kind = self.number("B")
        if kind == 0x05:
            return ("name", self.text())
        if kind == 0x06:
            return ("index", self.number("q"))
        if kind == 0x07:
            flags, bounds = self.number("B"), [self.number("q") for _ in range(3)]
            return ("slice", *(b if flags >> i & 1 else None for i, b in enumerate(bounds)))
        if kind == 0x08:
            return ("wildcard",)
        need(kind == 0x09)
        return ("filter", self.test(self.number("H")))

    def test(self, n):
        end, stack = self.at + n, []
        need(end <= len(self.plan))
        while self.at < end:
            kind = self.plan[self.at]
            if kind in (1, 2):
                stack.append(("query", self.query()))
                continue
            self.at += 1
            if 0x10 <= kind <= 0x11:
                stack.append((("integer", "float")[kind - 0x10], self.number("qQ"[kind - 0x10])))
            elif kind == 0x12:
                stack.append(("text", self.text()))
            elif kind == 0x13:
                stack.append(("constant", self.number("B")))
                need(stack[-1][1] <= 2)
            else:
                self.apply(kind, stack)
        need(len(stack) == 1 and stack[0][0] == "test")
        return stack[0][1]

    def apply(self, kind, stack):
        operands = ("query", "function", "integer", "float", "text", "constant")
        need(stack)
        top = stack.pop()
        if kind in (0x19, 0x1B):
            need(top[0] == "query")
            stack.append(("function", (kind, top[1])))
        elif kind == 0x1A:
            need(top[0] in operands)
            stack.append(("function", (kind, top)))
        elif kind == 0x14:
            op = self.number("B")
            need(op <= 5 and stack and top[0] in operands and stack[-1][0] in operands)
            stack.append(("test", ("compare", op, stack.pop(), top)))
        elif kind in (MATCH, SEARCH):
            need(stack and top[0] in operands and stack[-1][0] in operands)
            stack.append(("test", ("regex", kind, stack.pop(), top)))
        elif kind == 0x18:
            need(top[0] in ("query", "function"))
            stack.append(("test", ("exists", top[1])) if top[0] == "query" else ("tested", top[1]))
        elif kind == 0x15:
            need(top[0] in ("test", "tested"))
            stack.append(("test", ("not" if top[0] == "test" else "notvalue", top[1])))
        else:
            need(kind in (0x16, 0x17) and top[0] == "test")
            stack.append(("test", ("and" if kind == 0x16 else "or", top[1], self.test(self.number("H")))))


def form_of(plan, pool):
    """The form that a plan and a pool translate, or None."""
    if len(plan) > MAX_PLAN or len(pool) > MAX_PLAN:
        return None
    try:
        reader = Reader(plan, pool)
        q = reader.query()
        need(q[0] == 1 and reader.at == len(plan) and deep_query(q) <= MAX_NESTING)
        return q if translate(q) == (plan, pool) else None
    except (Wrong, struct.error):
        return None


def check(plan, pool):
    return form_of(plan, pool) is not None
