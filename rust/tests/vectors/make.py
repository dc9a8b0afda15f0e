"""Makes select.txt: queries and JSON texts with the answers of tools/reference.py, which says the rules apart from the engine.

    python3 rust/tests/vectors/make.py > rust/tests/vectors/select.txt

A line is the answer, the query as a JSON string and the JSON text, with tabs between. The answer is `ok` and the nodes, or `refused` and the number.
"""
import json, os, random, sys
sys.path.insert(0, os.path.join(os.path.dirname(os.path.abspath(__file__)), "..", "..", "..", "tools"))
import reference, tables

CASES, PLACES = 600, 4096
NAMES = ["a", "b", "é", "", "a b", "😀"]
NUMBERS = ["0", "1", "-1", "2.0", "1e1", "0.5", "9007199254740993", "9007199254740992.0", "1e99", "1e999"]
pick = random.Random(20)


def value(deep, least=0):
    sort = pick.randrange(6 if deep == 0 else 11) if least == 0 else pick.randrange(6, 11)
    if sort < 2:
        return pick.choice([None, True, False])
    if sort < 4:
        return pick.choice([0, 1, 2, 2.0, -1, 0.5, 10, 10.0, 9007199254740993, 9007199254740992.0])
    if sort < 6:
        return pick.choice(["", "a", "b", "é", "aa"])
    if sort < 8:
        return [value(deep - 1) for _ in range(pick.randrange(least, 6))]
    return {name: value(deep - 1) for name in pick.sample(NAMES, pick.randrange(least, 6))}


def bound():
    return str(pick.choice([0, 1, 2, 3, -1, -2, -5, 9, 9007199254740991])) if pick.randrange(3) else ""


def quoted():
    mark = pick.choice("'\"")
    return mark + pick.choice(NAMES) + mark


def selector(deep):
    sort = pick.randrange(7 if deep else 5)
    if sort == 0:
        return quoted()
    if sort == 1:
        return "*"
    if sort == 2:
        return bound() or "0"
    if sort < 5:
        return bound() + ":" + bound() + pick.choice(["", ":" + bound()])
    return "?" + test(deep - 1)


def segment(deep):
    sort = pick.randrange(6)
    if sort == 0:
        return "." + pick.choice(["a", "b", "é", "*"])
    if sort == 1:
        return ".." + pick.choice(["a", "*", "[" + selector(deep) + "]"])
    return "[" + ", ".join(selector(deep) for _ in range(1 + (pick.randrange(3) == 0))) + "]"


def query(deep, sigil="$", most=4):
    return sigil + "".join(segment(deep) for _ in range(pick.randrange(most)))


def single():
    return pick.choice("@$") + "".join(pick.choice([".a", ".b", "[0]", "[-1]", "['é']"]) for _ in range(pick.randrange(3)))


def operand(deep):
    sort = pick.randrange(8)
    if sort < 3:
        return single()
    if sort < 5:
        return pick.choice(NUMBERS)
    if sort == 5:
        return pick.choice(["true", "false", "null", quoted()])
    return function(deep)


def function(deep):
    name = pick.choice(["count", "value", "length", "count", "value", "length", "match", "f"])
    if name == "match":
        return "match(@, 'a')"
    return name + "(" + (operand(0) if name == "length" else query(deep, "@", 3)) + ")"


def expression_test():
    name, text = pick.choice(["match", "search", "!match", "!search"]), pick.choice(["@", "@", single(), "value(@.*)", quoted()])
    return name + "(" + text + ", " + pick.choice(["'a'", "'[ab]'", "'a*'", "'.'", "'(a|é)+'", "'^a'", "''", "'a{2}|b'", "'('", "'[^a]{1,}'", single()]) + ")"


def test(deep):
    sort = pick.randrange(9)
    if sort < 4:
        return operand(deep) + pick.choice([" == ", "!=", "<", "<=", ">", ">="]) + operand(deep)
    if sort < 6:
        return pick.choice([query(deep, "@", 3), query(deep, "@", 3), expression_test()])
    if sort == 6:
        return "!" + pick.choice([query(deep, "@", 3), "(" + test(0) + ")", function(0)])
    return "(" + test(0) + ")" + pick.choice([" && ", " || "]) + test(0)


def damaged(text):
    """Now and then a letter less, more or another, so that queries are refused too."""
    at = pick.randrange(len(text) + 1)
    return text[:at] + pick.choice(["", " ", "[", "]", "'", "0", "\\"]) + text[at + pick.randrange(2):] if pick.randrange(6) == 0 else text


for _ in range(CASES):
    v, q = value(4, 2), damaged(query(2))
    refusal, count, filled = reference.select(q.encode(), *tables.build(v), PLACES, 0)
    answer = f"refused {refusal}" if refusal else " ".join(["ok"] + [str(filled[i]) for i in range(count)])
    print(answer, json.dumps(q), json.dumps(v, ensure_ascii=False), sep="\t")
