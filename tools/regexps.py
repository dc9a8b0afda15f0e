"""Expressions of match and search in plain Python, apart from the definition and the code: the part of RFC 9485 that document 02, W4, names.

    python3 tools/regexps.py      holds the rows below against the functions

An expression is read by the rules of RFC 9485's grammar without the category escapes, one function for each. What it describes is said by places in a text: `ends`
gives the places where a part that the expression describes ends, for parts that begin at any place of a set. A set is a whole number, place i its bit i. Python's
own regular expressions are not used.

A tree is ("class", complement, [(low, high), ..]), ("row", [tree, ..]), ("or", [tree, ..]) or ("times", least, most or None, tree).
"""
import sys

MAX_EXPRESSION, MAX_REPEAT, LAST = 1024, 64, 0x10FFFF
sys.setrecursionlimit(20000)


class Outside(Exception):
    """The characters are no expression of the part."""


# ---- the characters of the rules


def normal(c):
    return c not in "().*+?[\\]{|}"


def class_char(c):
    return c not in "-[\\]"


ESCAPED = {c: c for c in "()*+-.?[\\]^{|}"}
ESCAPED.update(n="\n", r="\r", t="\t")
DIGITS = "0123456789"


def one(c):
    return ("class", False, [(ord(c), ord(c))])


DOT = ("class", True, [(10, 10), (13, 13)])


# ---- the grammar


class Reader:
    def __init__(self, text):
        self.s, self.at = text, 0

    def peek(self):
        return self.s[self.at] if self.at < len(self.s) else None

    def take(self, c):
        if self.peek() != c:
            return False
        self.at += 1
        return True

    def next(self, allowed):
        c = self.peek()
        if c is None or not allowed(c):
            raise Outside
        self.at += 1
        return c

    def whole(self):
        tree = self.alternatives()
        if self.at < len(self.s):
            raise Outside
        return tree

    def alternatives(self):
        branches = [self.branch()]
        while self.take("|"):
            branches.append(self.branch())
        return branches[0] if len(branches) == 1 else ("or", branches)

    def branch(self):
        pieces = []
        while self.peek() not in (None, "|", ")"):
            pieces.append(self.piece())
        return pieces[0] if len(pieces) == 1 else ("row", pieces)

    def piece(self):
        atom = self.atom()
        c = self.peek()
        if c is None or c not in "*+?{":
            return atom
        self.at += 1
        least, most = {"*": (0, None), "+": (1, None), "?": (0, 1)}.get(c) or self.counts()
        return ("times", least, most, atom)

    def counts(self):
        least = most = self.count()
        if self.take(","):
            most = None if self.peek() == "}" else self.count()
        self.next("}".__eq__)
        return least, most

    def count(self):
        begin = self.at
        while self.peek() is not None and self.peek() in DIGITS:
            self.at += 1
        if self.at == begin or int(self.s[begin:self.at]) > MAX_REPEAT:
            raise Outside
        return int(self.s[begin:self.at])

    def atom(self):
        if self.take("("):
            tree = self.alternatives()
            self.next(")".__eq__)
            return tree
        if self.take("."):
            return DOT
        if self.take("\\"):
            return one(self.escape())
        return self.char_class() if self.take("[") else one(self.next(normal))

    def escape(self):
        return ESCAPED[self.next(ESCAPED.__contains__)]

    def char_class(self):
        complement = self.take("^")
        items = [("-", "-") if self.take("-") else self.item()]
        while not self.take("]"):
            if self.s.startswith("-]", self.at):
                self.at += 1
                items.append(("-", "-"))
            else:
                items.append(self.item())
        return ("class", complement, [(ord(a), ord(b)) for a, b in items])

    def item(self):
        low = high = self.item_char()
        if self.peek() == "-" and not self.s.startswith("-]", self.at):
            self.at += 1
            high = self.item_char()
        return low, high

    def item_char(self):
        return self.escape() if self.take("\\") else self.next(class_char)


def read(expression):
    """The tree of an expression's bytes, which are UTF-8, or None where they are outside the part."""
    if len(expression) > MAX_EXPRESSION:
        return None
    try:
        return Reader(expression.decode()).whole()
    except Outside:
        return None


# ---- what a tree describes


class Places:
    """The places of a text, and where the parts that trees describe end."""

    def __init__(self, text):
        self.text, self.codes, self.held = text, [ord(c) for c in text], {}

    def mask(self, x):
        """The places at which a character of the class stands."""
        if id(x) not in self.held:
            _, complement, ranges = x
            places = 0
            for i, c in enumerate(self.codes):
                if any(low <= c <= high for low, high in ranges) != complement:
                    places |= 1 << i
            # the tree is kept, so that its number is not given to another
            self.held[id(x)] = (places, x)
        return self.held[id(x)][0]

    def ends(self, x, starts):
        if starts == 0:
            return 0
        if x[0] == "class":
            return (starts & self.mask(x)) << 1
        if x[0] == "row":
            for y in x[1]:
                starts = self.ends(y, starts)
            return starts
        if x[0] == "or":
            found = 0
            for y in x[1]:
                found |= self.ends(y, starts)
            return found
        return self.repeats(x[1], x[2], x[3], starts)

    def repeats(self, least, most, x, starts):
        # A set that gives itself, or nothing that is not there already, goes on so: the ends of a set are those of its places together.
        for _ in range(least):
            after = self.ends(x, starts)
            if after == starts:
                break
            starts = after
        found, left = starts, None if most is None else most - least
        if left is not None and left < 0:
            return 0
        while left is None or left > 0:
            starts = self.ends(x, starts)
            if starts | found == found:
                break
            found |= starts
            left = left if left is None else left - 1
        return found


def described(tree, text, part):
    """Whether the tree describes the text, or with `part` some part of it."""
    places, n = Places(text), len(text)
    if part:
        return places.ends(tree, (1 << n + 1) - 1) != 0
    return places.ends(tree, 1) >> n & 1 == 1


def test(text, expression, part):
    """match, or with `part` search, of two texts' bytes."""
    tree = read(expression)
    return tree is not None and described(tree, text.decode(), part)


def match(text, expression):
    return test(text, expression, False)


def search(text, expression):
    return test(text, expression, True)


# ---- rows, by the number of the reading that they show: a call, a text, an expression, the answer; or expressions that are in the part or outside it

M, S = match, search
ROWS = [
    # what is outside is false as a whole; no anchors; the escapes
    (20, M, "a", "(", False), (22, M, "b", r"\p{L}|b", False), (22, S, "b", r"\P{L}|b", False), (22, M, "a", r"[\p{L}a]", False),
    (23, M, "^a$", "^a$", True), (23, M, "a", "^a$", False), (23, M, "^", r"\^", True), (23, M, "$", r"\$", False), (23, S, "xa$y", "a$", True),
    (24, M, "()*+-.?[\\]^{|}", r"\(\)\*\+\-\.\?\[\\\]\^\{\|\}", True), (24, M, "\n\r\t", r"\n\r\t", True), (24, M, "n", r"\n", False),
    # characters
    (25, S, "\n", ".", False), (25, S, "\r", ".", False), (25, M, "\x85", ".", True), (25, M, "\u2028", ".", True), (25, M, "\x0b\x0c\0", "...", True),
    (26, M, "-,/\"\0\x1f$^", "-,/\"\0\x1f$^", True), (26, M, "]", "]", False), (26, M, "}", "}", False),
    (33, M, "é", ".", True), (33, M, "e\u0301", ".", False), (33, M, "😀", "[😀-😂]", True), (33, M, "A", "a", False), (33, M, "e\u0301", "é", False),
    # counts
    (27, M, "aaa", "a{2,}", True), (27, M, "a", "a{2,}", False), (28, M, "b", "a{2,1}|b", True), (28, M, "aa", "a{2,1}", False), (28, M, "c", "[b-ac]", True),
    (28, M, "x", "[^b-a]", True), (28, M, "a", "[b-a]", False), (29, M, "a" * 64, "a{064}", True), (29, M, "a" * 65, "a{65}", False), (29, M, "a" * 65, "a{64,}", True),
    (29, M, "", "a{0}", True), (29, M, "a", "a{0}", False), (29, M, "aaa", "a{2,3}", True), (29, M, "aaaa", "a{2,3}", False),
    # classes
    (30, M, "^", "[^a]", True), (30, M, "a", "[^a]", False), (30, M, "b", "[^-a]", True), (30, M, "-", "[^-a]", False), (30, M, "a", "[^-a]", False), (30, M, "^", "[^^]", False),
    (30, M, "^", r"[\^a]", True), (31, M, "-", "[-a]", True), (31, M, "-", "[a-]", True), (31, M, "a", "[a-]", True), (31, M, "-", "[-]", True), (31, M, "-", "[--]", True),
    (31, M, "a", "[^-]", True), (31, M, "-", "[^-]", False), (31, M, "-", r"[a\-z]", True), (31, M, "b", r"[a\-z]", False), (31, M, "a", "[.]", False), (31, M, ".", "[.]", True),
    (31, M, "*", "[*]", True), (31, M, "{", "[{]", True), (31, M, "|", "[|]", True), (31, M, "^", "[a^]", True), (31, M, "]", r"[\]]", True), (31, M, "\n", r"[\t-\r]", True),
    (31, M, "-", r"[+-\-]", True), (31, M, ",", r"[+-\-]", True),
    # branches, groups, and parts of a text
    (32, M, "", "", True), (32, M, "a", "a|", True), (32, M, "", "a|", True), (32, M, "", "()*", True), (32, S, "abc", "", True), (32, M, "a", "", False), (32, M, "", "|", True),
    (35, S, "", "a*", True), (35, S, "xaby", "ab", True), (35, M, "xaby", "ab", False), (35, S, "ba", "ab", False), (35, S, "ab", "ab", True), (35, S, "a\nb", "a.b", False),
    # the limit, and nested counts
    (34, M, "a" * 1024, "a" * 1024, True), (34, M, "a" * 1025, "a" * 1025, False), (34, M, "é" * 512, "é" * 512, True), (34, M, "é" * 512, "é" * 512 + "|", False),
    (34, S, "b" * 5000 + "a", "a", True), (36, M, "a" * 4096, "((a{64}){64}){64}", False), (36, M, "a" * 4096, "(a{64}){64}", True), (36, M, "a" * 512, "((a{8}){8}){8}", True),
    (36, M, "a" * 511, "((a{8}){8}){8}", False), (36, M, "a" * 40, "(((a?){64}){64}){64}", True), (36, M, "aaaaab", "((a{2}|a{3})*b?){2,5}", True),
]
IN_PART = ["", "a{064}", "a{0,64}", "a{64,}", "a{0000000000000000000000000064}", "((a{64}){64}){64}", "[-a]", "[a-]", "[-]", "[--]", "[^-]", r"[a\-z]", "[.]", "[*]", "[{]", "[|]",
           "[a^]", r"[\t-\r]", "|", "()", "(|)", "a|", "^", "$", "-", ",", "/", '"', "'", "\0", "\x7f", "[^^]", "[^a]", "[b-a]", "a{2,1}", r"\^", "[$-&]", "[ -,.-Z^-~]"]
OUTSIDE = ["\\$", "\\/", "\\d", "\\s", "\\u", "\\'", '\\"', "\\a", "\\", "a\\", r"[\p{L}]", "(", ")", "a)", "(a", "]", "}", "{", "[", "a]", "a{65}", "a{0,65}", "a{65,}",
           "a{18446744073709551617}", "a{}", "a{,2}", "a{1", "a{1,", "a{1,2", "a{ 1}", "a{1 }", "a**", "a{1}{2}", "a+?", "*a", "|*", "(*)", "*", "+", "?", "{1}", "[]", "[^]", "[a",
           "[^", "[a-", "[a-b-c]", "[---]", "[+--]", "[[]", "[a[]", "[]a]", "[\\", "[\\]", r"[\d]", "[--a]", "[a-\\", "(?:a)", "(?i)a", r"\1", r"\b", "a{1,2,3}", "a{-1}", "a{²}"]


def main():
    wrong = [r for r in ROWS if r[1](r[2].encode(), r[3].encode()) != r[4]]
    wrong += [(e, "in the part") for e in IN_PART if read(e.encode()) is None] + [(e, "outside it") for e in OUTSIDE if read(e.encode()) is not None]
    for row in wrong:
        print("wrong:", row)
    print(f"{len(ROWS)} rows, {len(IN_PART)} expressions in the part and {len(OUTSIDE)} outside it: {len(wrong)} wrong")
    sys.exit(1 if wrong else 0)


if __name__ == "__main__":
    main()
