"""Expressions and texts by chance, for the programs that compare: most expressions are in the part, some a character away from it; texts are described, nearly so, or neither.

Every function takes a random.Random, so that a seed gives the same again.
"""
import regexps

LETTERS = "aaaabbbc"
OTHERS = "01-,/ $^\"'&~]}\t\n\r\0\x85é€\u2028😀😁"
SIGNS = "()[]{}|*+?.\\^-,$0123456789dwspPnrtabu:=!<>/"
COUNTS = ("0", "1", "2", "3", "2", "1", "5", "64", "063", "65", "00", "")


def letter(pick):
    return pick.choice(LETTERS) if pick.randrange(8) else pick.choice(OTHERS)


def escape(pick):
    return "\\" + pick.choice("()*+-.?[\\]^nrt{|}" if pick.randrange(40) else "dwsDWbBAzZ$/'\"uxaefpPk0")


def plain(pick):
    c = letter(pick)
    return c if regexps.normal(c) or pick.randrange(30) == 0 else "\\" + c


def item(pick):
    def one():
        if pick.randrange(9) == 0:
            return escape(pick)
        c = letter(pick) if pick.randrange(4) else pick.choice("(){}.*+?|$,!~z9")
        return c if regexps.class_char(c) or pick.randrange(30) == 0 else "\\" + c
    first = one()
    return first + "-" + one() if pick.randrange(3) == 0 else first


def char_class(pick):
    out = "[" + ("^" if pick.randrange(3) == 0 else "")
    if pick.randrange(10) == 0:
        out += "-"
    out += "".join(item(pick) for _ in range(pick.choice((1, 1, 2, 2, 3, 0))))
    return out + ("-" if pick.randrange(10) == 0 else "") + "]"


def quantifier(pick):
    sort = pick.randrange(8)
    if sort < 5:
        return pick.choice("*+?")
    counts = [c for c in (pick.choice(COUNTS[:9]) if pick.randrange(20) else pick.choice(COUNTS) for _ in range(2))]
    return "{" + counts[0] + ("}" if sort == 5 else ",}" if sort == 6 else "," + counts[1] + "}")


def atom(pick, depth):
    sort = pick.randrange(12)
    if sort < 3 and depth > 0:
        return "(" + alternatives(pick, depth - 1) + ")"
    if sort < 5:
        return char_class(pick)
    if sort == 5:
        return "."
    return escape(pick) if sort == 6 else plain(pick)


def branch(pick, depth):
    return "".join(atom(pick, depth) + (quantifier(pick) if pick.randrange(3) == 0 else "") for _ in range(pick.choice((0, 1, 1, 2, 2, 3, 4))))


def alternatives(pick, depth):
    return "|".join(branch(pick, depth) for _ in range(pick.choice((1, 1, 1, 2, 2, 3))))


def damaged(pick, text, more):
    """The text with a character left out, put in, changed or said twice."""
    at, sort = pick.randrange(len(text) + 1), pick.randrange(4)
    new = more(pick)
    if sort == 0 or not text:
        return text[:at] + new + text[at:]
    return text[:at] + text[at + 1:] if sort == 1 else text[:at] + new + text[at + 1:] if sort == 2 else text[:at] + text[max(at - 3, 0):at] + text[at:]


def expression(pick):
    e = alternatives(pick, pick.randrange(4))
    return damaged(pick, e, lambda p: p.choice(SIGNS)) if pick.randrange(6) == 0 else e


# ---- texts


def member(pick, x):
    _, complement, ranges = x
    if complement:
        fit = [c for c in LETTERS + OTHERS if not any(low <= ord(c) <= high for low, high in ranges)]
        return pick.choice(fit) if fit else None
    ranges = [(low, high) for low, high in ranges if low <= high]
    if not ranges:
        return None
    low, high = pick.choice(ranges)
    c = pick.choice((low, high, pick.randint(low, high)))
    return None if 0xD800 <= c < 0xE000 else chr(c)


def sample(pick, x, room):
    """A text that the tree describes, of some `room` characters at most; or None where none was met."""
    if x[0] == "class":
        return member(pick, x)
    if x[0] == "or":
        return sample(pick, pick.choice(x[1]), room)
    if x[0] == "row":
        many = x[1]
    else:
        most = x[1] + 3 if x[2] is None else x[2]
        if most < x[1] or x[1] > room:
            return None
        many = [x[3]] * pick.choice((x[1], min(most, x[1] + 1), min(most, x[1] + pick.randrange(4)), most if most < 9 else x[1]))
    out = ""
    for y in many:
        part = sample(pick, y, room - len(out))
        if part is None or len(out) + len(part) > room:
            return None
        out += part
    return out


def by_chance(pick, most):
    return "".join(letter(pick) for _ in range(pick.randrange(most)))


def text(pick, tree, room=40):
    """A text for a tree, or for None."""
    found = None if tree is None or pick.randrange(5) == 0 else sample(pick, tree, room)
    if found is None:
        return by_chance(pick, 9)
    sort = pick.randrange(6)
    if sort == 0:
        return damaged(pick, found, letter)
    return by_chance(pick, 4) + found + by_chance(pick, 4) if sort == 1 else found
