"""The rules in plain Python, apart from the definition and the code: compile, run and select over bytes.

The grammar is read by its rules in RFC 9535; the walk follows document 01's "Query walk and typing"; evaluation goes over the table as a tree,
and regexps.py says what expressions describe. It is written to be plain and not to be fast.
"""
import math, re, struct
import plans, regexps, tables

MAX_QUERY, MAX_BRACKETS, MAX_INT = 4096, 32, 2**53 - 1
BLANKS = " \t\n\r"
OPERATORS = ("==", "!=", "<=", ">=", "<", ">")
CODES = {"==": 0, "!=": 1, "<": 2, "<=": 3, ">": 4, ">=": 5}
CONSTANTS = {"false": 0, "true": 1, "null": 2}
ESCAPES = {"b": "\b", "f": "\f", "n": "\n", "r": "\r", "t": "\t", "/": "/", "\\": "\\"}
NUMBER = re.compile(r"-?(?:0|[1-9][0-9]*)(?:\.[0-9]+)?(?:[eE][-+]?[0-9]+)?")
INT = re.compile(r"0|-?[1-9][0-9]*")
WORD = re.compile(r"[a-z][a-z_0-9]*")
NAME = re.compile("[A-Za-z_\x80-\U0010ffff][A-Za-z_0-9\x80-\U0010ffff]*")
HEX4 = re.compile(r"[0-9A-Fa-f]{4}")
# each function's parameters, and whether it gives a value
FUNCTIONS = {"count": (["nodes"], True), "length": (["value"], True), "value": (["nodes"], True),
             "match": (["value", "value"], False), "search": (["value", "value"], False)}
KINDS = {"count": 0x19, "length": 0x1A, "value": 0x1B, "match": plans.MATCH, "search": plans.SEARCH}


class Refused(Exception):
    """A query is refused, by the number in args[0]."""


def need(holds, number=4):
    if not holds:
        raise Refused(number)


def brackets_pass(query):
    """Whether the bracket count passes 32."""
    depth, quote, at = 0, None, 0
    while at < len(query):
        b = query[at]
        if quote is not None:
            if b == 0x5C:
                at += 1
            elif b == quote:
                quote = None
        elif b in b"'\"":
            quote = b
        elif b in b"[(":
            depth += 1
            if depth > MAX_BRACKETS:
                return True
        elif b in b"])":
            depth = max(0, depth - 1)
        at += 1
    return False


# ---- the grammar's tree
#
# query: (sigil, segments); segment: (descendant or not, selectors, brackets without blanks inside or not)
# selector: ("name", text), ("index", digits), ("slice", digits or None, .., ..), ("wildcard",), ("filter", or)
# or: ("or", [and, ..]); and: ("and", [basic, ..])
# basic: ("paren", negated, or), ("compare", operator, left, right), ("test", negated, query or call)
# literal: ("number", digits), ("text", text), ("constant", word); call: ("call", name, arguments); ("query", query)


class Grammar:
    def __init__(self, text):
        self.s, self.at = text, 0

    def peek(self, n=1):
        return self.s[self.at:self.at + n]

    def take(self, word):
        if self.s.startswith(word, self.at):
            self.at += len(word)
            return True
        return False

    def expect(self, word):
        need(self.take(word))

    def match(self, rule):
        found = rule.match(self.s, self.at)
        if not found:
            return None
        self.at = found.end()
        return found.group()

    def blanks(self):
        begin = self.at
        while self.at < len(self.s) and self.s[self.at] in BLANKS:
            self.at += 1
        return self.at > begin

    def whole(self):
        self.expect("$")
        q = ("$", self.segments())
        need(self.at == len(self.s))
        return q

    def segments(self):
        out = []
        while True:
            before = self.at
            self.blanks()
            if self.peek() not in ("[", "."):
                self.at = before
                return out
            out.append(self.segment())

    def segment(self):
        if self.peek() == "[":
            return (False, *self.bracketed())
        descendant = self.take("..")
        if descendant and self.peek() == "[":
            return (True, *self.bracketed())
        if not descendant:
            self.expect(".")
        if self.take("*"):
            return (descendant, [("wildcard",)], True)
        name = self.match(NAME)
        need(name is not None)
        return (descendant, [("name", name)], True)

    def bracketed(self):
        self.expect("[")
        loose, selectors = self.blanks(), []
        while True:
            selectors.append(self.selector())
            loose = self.blanks() or loose
            if self.take("]"):
                return selectors, not loose
            self.expect(",")
            loose = self.blanks() or loose

    def selector(self):
        c = self.peek()
        if c in ("'", '"'):
            return ("name", self.text())
        if self.take("*"):
            return ("wildcard",)
        if self.take("?"):
            self.blanks()
            return ("filter", self.either())
        start = self.match(INT)
        before = self.at
        self.blanks()
        if not self.take(":"):
            self.at = before
            need(start is not None)
            return ("index", start)
        self.blanks()
        stop = self.match(INT)
        before = self.at
        if stop is not None:
            self.blanks()
        step = None
        if self.take(":"):
            before = self.at
            self.blanks()
            step = self.match(INT)
            if step is None:
                self.at = before
        else:
            self.at = before
        return ("slice", start, stop, step)

    def text(self):
        quote, out = self.s[self.at], []
        self.at += 1
        while True:
            c = self.peek()
            need(c != "")
            self.at += 1
            if c == quote:
                return "".join(out)
            if c == "\\":
                out.append(self.escape(quote))
            else:
                need(c >= " ")
                out.append(c)

    def escape(self, quote):
        c = self.peek()
        need(c != "")
        self.at += 1
        if c == quote:
            return c
        if c != "u":
            need(c in ESCAPES)
            return ESCAPES[c]
        high = self.unit()
        if not 0xD800 <= high < 0xE000:
            return chr(high)
        need(high < 0xDC00)
        self.expect("\\u")
        low = self.unit()
        need(0xDC00 <= low < 0xE000)
        return chr(0x10000 + (high - 0xD800) * 0x400 + low - 0xDC00)

    def unit(self):
        digits = self.match(HEX4)
        need(digits is not None)
        return int(digits, 16)

    def chain(self, part, sign):
        out = [part()]
        while True:
            before = self.at
            self.blanks()
            if not self.take(sign):
                self.at = before
                return out
            self.blanks()
            out.append(part())

    def either(self):
        return ("or", self.chain(self.both, "||"))

    def both(self):
        return ("and", self.chain(self.basic, "&&"))

    def basic(self):
        negated = self.take("!")
        if negated:
            self.blanks()
        if self.take("("):
            self.blanks()
            inner = self.either()
            self.blanks()
            self.expect(")")
            return ("paren", negated, inner)
        item, tight = self.item()
        before = self.at
        self.blanks()
        operator = next((o for o in OPERATORS if self.take(o)), None)
        if operator is None:
            self.at = before
            need(item[0] in ("query", "call"))
            return ("test", negated, item)
        need(not negated and tight)
        self.blanks()
        right, tight = self.item()
        need(tight)
        return ("compare", operator, item, right)

    def item(self):
        """A literal, a query or a call; and whether it can be compared."""
        c = self.peek()
        if c != "" and c in "@$":
            self.at += 1
            segments = self.segments()
            tight = all(not descendant and no_blanks and len(xs) == 1 and xs[0][0] in ("name", "index")
                        for descendant, xs, no_blanks in segments)
            return ("query", (c, segments)), tight
        if c in ("'", '"'):
            return ("text", self.text()), True
        number = self.match(NUMBER)
        if number is not None:
            return ("number", number), True
        word = self.match(WORD)
        need(word is not None)
        if self.take("("):
            return ("call", word, self.arguments()), True
        need(word in CONSTANTS)
        return ("constant", word), True

    def arguments(self):
        self.blanks()
        if self.take(")"):
            return []
        out = [self.argument()]
        self.blanks()
        while self.take(","):
            self.blanks()
            out.append(self.argument())
            self.blanks()
        self.expect(")")
        return out

    def argument(self):
        before = self.at
        if self.peek() not in ("!", "("):
            item, _ = self.item()
            after = self.at
            self.blanks()
            if self.peek() in (",", ")"):
                self.at = after
                return item
            self.at = before
        return self.either()


# ---- the walk: from the tree to a typed expression, with the first refusal of 4, 5 and 6 in the Rust's order


class Walk:
    def __init__(self, stored):
        self.stored, self.floats = stored, []

    def query(self, q):
        sigil, segments = q
        return (1 if sigil == "$" else 2, [(4 if descendant else 3, [self.selector(x) for x in xs]) for descendant, xs, _ in segments])

    def selector(self, x):
        if x[0] == "name":
            return ("name", x[1].encode())
        if x[0] in ("index", "slice"):
            return (x[0], *(None if digits is None else self.integer(digits) for digits in x[1:]))
        return x if x[0] == "wildcard" else ("filter", self.either(x[1], True))

    def integer(self, digits):
        n = int(digits)
        need(abs(n) <= MAX_INT)
        return n

    def compared(self, e, asserted):
        need(not (asserted and e[0] == "call" and FUNCTIONS[e[1]][1]), 5)
        return e

    def either(self, tree, asserted):
        out = None
        for part in tree[1]:
            e = self.compared(self.both(part, asserted), asserted)
            out = e if out is None else ("or", out, e)
        return out

    def both(self, tree, asserted):
        out = None
        for part in tree[1]:
            e = self.compared(self.basic(part), asserted)
            out = e if out is None else ("and", out, e)
        return out

    def basic(self, tree):
        if tree[0] == "paren":
            e = self.either(tree[2], True)
            return self.negated(e) if tree[1] else e
        if tree[0] == "test":
            e = self.item(tree[2])
            return self.negated(e) if tree[1] else e
        left, right = self.item(tree[2]), self.item(tree[3])
        for e in (left, right):
            need(not (e[0] == "call" and not FUNCTIONS[e[1]][1]), 5)
        return ("compare", tree[1], left, right)

    def negated(self, e):
        """`!` straight before a value function is refused where the walk leaves it, but for the form of a stored plan."""
        need(self.stored or not (e[0] == "call" and FUNCTIONS[e[1]][1]), 5)
        return ("not", e)

    def item(self, tree):
        if tree[0] == "query":
            return ("query", self.query(tree[1]))
        if tree[0] == "call":
            return self.call(tree[1], [self.either(a, False) if a[0] == "or" else self.item(a) for a in tree[2]])
        if tree[0] == "number":
            return self.number(tree[1])
        return ("text", tree[1].encode()) if tree[0] == "text" else ("constant", CONSTANTS[tree[1]])

    def number(self, digits):
        if digits == "-0":
            return ("integer", 0)
        if re.fullmatch("-?[0-9]+", digits) and -2**63 <= int(digits) < 2**63:
            return ("integer", int(digits))
        self.floats.append(digits)
        return ("float", digits)

    def call(self, name, args):
        need(name in FUNCTIONS, 6)
        parameters, _ = FUNCTIONS[name]
        need(len(args) == len(parameters), 5)
        for parameter, e in zip(parameters, args):
            need(self.is_value(e) if parameter == "value" else e[0] == "query", 5)
        return ("call", name, args)

    def is_value(self, e):
        if e[0] == "query":
            return plans.singular(e[1])
        return e[0] in ("integer", "float", "text", "constant") or e[0] == "call" and FUNCTIONS[e[1]][1]


def inside(digits):
    """Whether a float literal is in the range of literals, as it is written, and its nearest float is finite."""
    mantissa, _, exponent = digits.lower().lstrip("-").partition("e")
    whole, _, fraction = mantissa.partition(".")
    if int(whole + fraction) >= 10**19 or not -342 <= int(exponent or "0") - len(fraction) <= 308:
        return False
    return math.isfinite(float(digits))


# ---- the form of a typed expression


def query_form(q):
    return (q[0], [(kind, [("filter", test_form(x[1])) if x[0] == "filter" else x for x in xs]) for kind, xs in q[1]])


def test_form(e):
    if e[0] == "query":
        return ("exists", query_form(e[1]))
    if e[0] == "compare":
        return ("compare", CODES[e[1]], argument_form(e[2]), argument_form(e[3]))
    if e[0] == "call":
        return ("regex", KINDS[e[1]], argument_form(e[2][0]), argument_form(e[2][1]))
    if e[0] == "not":
        return ("notvalue", function_form(e[1])) if e[1][0] == "call" and FUNCTIONS[e[1][1]][1] else ("not", test_form(e[1]))
    return (e[0], test_form(e[1]), test_form(e[2]))


def argument_form(e):
    if e[0] == "query":
        return ("query", query_form(e[1]))
    if e[0] == "call":
        return ("function", function_form(e))
    return ("float", struct.unpack("<Q", struct.pack("<d", float(e[1])))[0]) if e[0] == "float" else e


def function_form(e):
    arg = argument_form(e[2][0])
    return (KINDS[e[1]], arg if e[1] == "length" else arg[1])


# ---- compile


def form(query, stored=False):
    """The form of a query's bytes, or a refusal from 1 to 6 or 8; with stored, also the form that `!` before a value function had, which plans still hold."""
    need(len(query) <= MAX_QUERY, 1)
    need(tables.is_utf8(query), 2)
    need(not brackets_pass(query), 3)
    tree, walk = Grammar(query.decode()).whole(), Walk(stored)
    typed = walk.query(tree)
    need(all(map(inside, walk.floats)), 8)
    return query_form(typed)


def compile(query, plan_room, pool_room):
    """(0, plan, pool), or (refusal, length, length)."""
    try:
        plan, pool = plans.translate(form(query))
    except Refused as refused:
        return refused.args[0], 0, 0
    if len(plan) > plan_room or len(pool) > pool_room:
        return 12, len(plan), len(pool)
    return 0, plan, pool


# ---- evaluation over a tree of nodes


class Node:
    def __init__(self, number, kind, value, key):
        self.number, self.kind, self.value, self.key, self.children = number, kind, value, key, []


def tree(table, text):
    """The root of an accepted table."""
    nodes = []
    for i in range(len(table) // 24):
        kind, _, _, start, size, _, low, high = struct.unpack_from("<BBHIIIII", table, 24 * i)
        value = None
        if kind == tables.INTEGER:
            value = struct.unpack_from("<q", table, 24 * i + 16)[0]
        elif kind == tables.FLOAT:
            value = struct.unpack_from("<d", table, 24 * i + 16)[0]
        elif kind == tables.STRING:
            value = text[low:low + high]
        nodes.append(Node(i, kind, value, text[start:start + size]))
    for child, parent in sorted(tables.parents(table).items()):
        nodes[parent].children.append(nodes[child])
    return nodes[0]


def evaluate(q, root, current):
    begin, segments = q
    found = [root if begin == 1 else current]
    inner = root if begin == 1 else current
    for kind, selectors in segments:
        found = [x for n in found for x in (apply if kind == 3 else descend)(selectors, inner, n)]
    return found


def apply(selectors, root, n):
    return [x for s in selectors for x in pick(s, root, n)]


def descend(selectors, root, n):
    return apply(selectors, root, n) + [x for c in n.children for x in descend(selectors, root, c)]


def pick(s, root, n):
    items = n.children if n.kind == tables.LIST else []
    if s[0] == "name":
        return [c for c in n.children if n.kind == tables.MAP and c.key == s[1]]
    if s[0] == "index":
        i = s[1] + len(items) if s[1] < 0 else s[1]
        return [items[i]] if 0 <= i < len(items) else []
    if s[0] == "slice":
        return [items[i] for i in places(len(items), *s[1:])]
    return [c for c in n.children if s[0] == "wildcard" or holds(s[1], root, c)]


def places(n, start, stop, step):
    step = 1 if step is None else step
    if step == 0:
        return []
    start = (0 if step > 0 else n - 1) if start is None else start + n if start < 0 else start
    stop = (n if step > 0 else -1) if stop is None else stop + n if stop < 0 else stop
    start, stop = min(max(start, 0), n), min(max(stop, -1), n)
    return [i for i in range(start, stop, step) if i < n]


# ---- tests and values; a value is ("null",), ("bool", b), ("number", n), ("text", bytes), ("list", values) or ("map", dict); None is an empty query


def holds(t, root, current):
    if t[0] == "exists":
        return bool(evaluate(t[1], root, current))
    if t[0] == "compare":
        return compare(t[1], operand(t[2], root, current), operand(t[3], root, current))
    if t[0] == "regex":
        return matched(t[1], operand(t[2], root, current), operand(t[3], root, current))
    if t[0] == "not":
        return not holds(t[1], root, current)
    if t[0] == "notvalue":
        v = call(t[1], root, current)
        return not (v[1] if len(v) > 1 else False)
    first = holds(t[1], root, current)
    return holds(t[2], root, current) if first == (t[0] == "and") else first


def operand(a, root, current):
    if a[0] == "query":
        found = evaluate(a[1], root, current)
        return value(found[0]) if found else None
    if a[0] == "function":
        return call(a[1], root, current)
    if a[0] == "constant":
        return (("bool", False), ("bool", True), ("null",))[a[1]]
    return ("number", struct.unpack("<d", struct.pack("<Q", a[1]))[0]) if a[0] == "float" else ("text" if a[0] == "text" else "number", a[1])


def call(f, root, current):
    if f[0] == 0x1A:
        v = operand(f[1], root, current) or ("null",)
        if v[0] == "text":
            return ("number", len(v[1].decode()))
        return ("number", len(v[1]) if v[0] in ("list", "map") else 0)
    found = evaluate(f[1], root, current)
    if f[0] == 0x19:
        return ("number", min(len(found), MAX_INT))
    return value(found[0]) if len(found) == 1 else ("null",)


def matched(kind, text, expression):
    if text is None or expression is None or text[0] != "text" or expression[0] != "text":
        return False
    return regexps.test(text[1], expression[1], kind == plans.SEARCH)


def value(n):
    if n.kind == tables.NULL:
        return ("null",)
    if n.kind in (tables.FALSE, tables.TRUE):
        return ("bool", n.kind == tables.TRUE)
    if n.kind in (tables.INTEGER, tables.FLOAT):
        return ("number", n.value)
    if n.kind == tables.STRING:
        return ("text", n.value)
    if n.kind == tables.LIST:
        return ("list", [value(c) for c in n.children])
    return ("map", {c.key: value(c) for c in n.children})


def equal(a, b):
    return a[0] == b[0] and a[1:] == b[1:]


def compare(operator, a, b):
    if a is None or b is None:
        return False
    if operator < 2:
        return equal(a, b) == (operator == 0)
    if operator > 3:
        operator, a, b = operator - 2, b, a
    if a[0] == b[0] and a[0] in ("number", "text"):
        return a[1] < b[1] or operator == 3 and a[1] == b[1]
    return operator == 3 and a[0] != "bool" and equal(a, b)


# ---- run and select


def listed(q, table, text, length, start):
    """The refusal or 0, the count or the node, and the places that are written, by their numbers."""
    wrong = tables.check(table, text)
    if wrong is not None:
        return (9, 0, {}) if wrong == 9 else (*wrong, {})
    if start > length:
        return 14, 0, {}
    root = tree(table, text)
    nodes = [n.number for n in evaluate(q, root, root)]
    filled = dict(enumerate(nodes[:length - start], start))
    return (0, len(nodes), filled) if len(nodes) <= length - start else (13, 0, filled)


def run(plan, pool, table, text, length, start):
    q = plans.form_of(plan, pool)
    return (11, 0, {}) if q is None else listed(q, table, text, length, start)


def select(query, table, text, length, start):
    try:
        q = form(query)
    except Refused as refused:
        return refused.args[0], 0, {}
    return listed(q, table, text, length, start)


# ---- what plans consist of

# how many bytes follow the byte of a kind, where any do
BODIES = {0x03: 2, 0x04: 2, 0x05: 4, 0x06: 8, 0x07: 25, 0x09: 2, 0x10: 8, 0x11: 8, 0x12: 4, 0x13: 1, 0x14: 1, 0x16: 2, 0x17: 2}


def kinds(plan):
    """The kinds of an accepted plan's items, in their order."""
    at = 0
    while at < len(plan):
        yield plan[at]
        at += 1 + BODIES.get(plan[at], 0)
    assert at == len(plan)


def take(counts, taken, plan, pool):
    """The refusal or 0, and the 256 counts and the number of plans afterwards."""
    if not plans.check(plan, pool):
        return 11, counts, taken
    more = list(counts)
    for kind in kinds(plan):
        more[kind] += 1
    if taken + 1 > MAX_INT or max(more) > MAX_INT:
        return 21, counts, taken
    return 0, more, taken + 1
