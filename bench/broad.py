#!/usr/bin/env python3
"""broad.py DIR: the documents and the queries of the broad set, for bench/broad.sh.

Each document is written as DIR/NAME.json, and as DIR/NAME.table and DIR/NAME.text, the same value as a table. DIR/cases.tsv has a line for each case:
group, document, query, and whether the Rust text selects the same nodes or others, as docs/DIFFERENCES.md says. Every draw is from a seed, so that each
run makes the same documents."""
import json
import os
import random
import sys

sys.path.insert(0, os.path.join(os.path.dirname(os.path.abspath(__file__)), "..", "tools"))
import tables

SAME, OTHER = "same", "other"
LONG_NAME = "a-name-that-is-long-" * 15


def shuffled(value, draw):
    """The same value with the members of each map in an order of their own."""
    if isinstance(value, dict):
        members = [(k, shuffled(v, draw)) for k, v in value.items()]
        draw.shuffle(members)
        return dict(members)
    return [shuffled(v, draw) for v in value] if isinstance(value, list) else value


# ---- documents

def rows(number):
    """The document on which other engines were measured."""
    names = ["x", "bolt", "nut", "washer"]
    return {"rows": [{"id": i, "name": names[i % 4], "qty": i % 23, "price": float(f"{i % 97}.{i % 10}"), "ok": i % 3 == 0} for i in range(number)]}


def order(i, draw):
    items = [{"sku": f"S-{draw.randrange(1000):04}", "qty": draw.randrange(1, 20), "price": draw.randrange(100, 9000) / 100,
              "tags": draw.sample(["new", "sale", "heavy", "fragile", "bulk"], draw.randrange(3))} for _ in range(draw.randrange(6))]
    out = {"id": i, "customer": {"name": f"Customer {i % 71}", "city": draw.choice(["Oslo", "Lima", "Kyoto", "Accra"]), "vip": i % 5 == 0},
           "status": draw.choice(["open", "paid", "sent", "returned"]), "total": sum(x["qty"] * x["price"] for x in items) + 0.5,
           "paid": draw.choice([True, False, None]), "limit": draw.randrange(2000), "items": items}
    if i % 3 == 0:
        out["note"] = f"left at door {i}"
    return out


def orders(draw):
    return {"store": {"name": "North", "open": True}, "orders": [order(i, draw) for i in range(400)]}


def sparse(draw):
    """Rows of which each member is there or not, in any order, with a value of any kind."""
    def value():
        return draw.choice([None, True, False, draw.randrange(100), draw.randrange(1000) / 8, "red", "green", "blue and more", [1, 2], {"x": 1}])
    names = ["a", "b", "c", "d", "e", "f", "g", "h"]
    return [{k: value() for k in draw.sample(names, draw.randrange(7))} for _ in range(800)]


def wide_map(i):
    return {f"m{k:04}": (i * 7 + k * 13) % 1000 for k in range(1000)}


def wide(draw):
    """Maps of 1,000 members, all equal in pairs."""
    return {"maps": [wide_map(i // 2) for i in range(16)]}


def deep_maps(draw):
    value = {"leaf": 1, "depth": 60}
    for level in reversed(range(60)):
        value = {"depth": level, "name": f"level {level}", "next": value} if level % 2 else {"next": value, "depth": level, "even": True}
    return value


def deep_lists(draw):
    value = [60]
    for level in reversed(range(60)):
        value = [level, f"level {level}", value] if level % 2 else [value, level, None]
    return value


def six(draw):
    return {"a": {"b": 1, "c": "x"}, "d": [True]}


def twenty(draw):
    return {"n": 4, "ok": True, "rows": [{"id": i, "qty": 5 * i, "name": ["x", "bolt", "nut", "pin"][i]} for i in range(4)]}


def long_texts(draw):
    """Texts of thousands of bytes that begin alike, and names of hundreds."""
    begin = "the quick brown fox jumps over the lazy dog " * 50
    return {"rows": [{"title": begin[:200] + f"{i % 7}", "body": begin * (1 + i % 8) + f"end {i}", LONG_NAME + "one": i, LONG_NAME + "two": i % 5}
                     for i in range(60)]}


def beyond_ascii(draw):
    cities = ["Zürich", "København", "東京", "Москва", "Αθήνα", "القاهرة", "São Paulo", "🌍🚀"]
    return {"données": [{"prénom": f"Zoë {i % 13}", "ville": cities[i % 8], "名前": "山田太郎" + "あ" * (i % 5), "цена": i % 50 / 4, "🙂": i % 3 == 0}
                        for i in range(300)]}


def matrix(draw):
    return {"ints": [[(r * 31 + c * 17) % 100 for c in range(64)] for r in range(64)],
            "floats": [[r + c / 4 for c in range(40)] for r in range(40)]}


def cube(draw):
    return [[[x * y * z for z in range(12)] for y in range(12)] for x in range(12)]


def scalars(draw):
    kinds = [lambda i: None, lambda i: True, lambda i: False, lambda i: i, lambda i: i / 4, lambda i: f"text {i % 9}", lambda i: -i, lambda i: "z"]
    return [kinds[i % 8](i) for i in range(1000)]


def branch(depth, draw):
    out = {"name": f"n{draw.randrange(40)}", "size": draw.randrange(1000)}
    if depth:
        out["children"] = [branch(depth - 1, draw) for _ in range(draw.randrange(2, 5))]
    return out


def tree(draw):
    return branch(6, draw)


def pairs(draw):
    def row(i):
        a = draw.randrange(50)
        return {"a": a, "b": draw.choice([a, draw.randrange(50)]), "low": a / 2, "high": a / 2 + draw.choice([0, 1, -1]), "from": f"t{a:02}",
                "to": f"t{draw.randrange(50):02}", "in": {"x": a, "y": {"z": i % 9}}, "parts": [i % 9, a, i % 4]}
    return {"limit": 25, "word": "t25", "rows": [row(i) for i in range(500)]}


def settings(draw):
    """Maps of maps, with no list."""
    return {f"host{i:02}": {"name": f"host{i:02}.example", "port": 8000 + i % 7, "tls": i % 2 == 0, "load": i % 10 / 10,
                            "limits": {"open": 1024 * (i % 4), "memory": 4096}, "owner": None if i % 6 else f"team {i % 3}"} for i in range(90)}


def books(draw):
    """RFC 9535, 1.5."""
    return {"store": {"book": [
        {"category": "reference", "author": "Nigel Rees", "title": "Sayings of the Century", "price": 8.95},
        {"category": "fiction", "author": "Evelyn Waugh", "title": "Sword of Honour", "price": 12.99},
        {"category": "fiction", "author": "Herman Melville", "title": "Moby Dick", "isbn": "0-553-21311-3", "price": 8.99},
        {"category": "fiction", "author": "J. R. R. Tolkien", "title": "The Lord of the Rings", "isbn": "0-395-19395-8", "price": 22.99}],
        "bicycle": {"color": "red", "price": 399}}}


MADE = [orders, sparse, wide, deep_maps, deep_lists, six, twenty, long_texts, beyond_ascii, matrix, cube, scalars, tree, pairs, settings, books]
ALSO_SHUFFLED = [orders, wide, pairs, settings, beyond_ascii]


def documents():
    """Each document by its name."""
    out = {f"rows {number}": rows(number) for number in (16, 166, 1666)}
    out |= {f"rows {number}, shuffled": shuffled(rows(number), random.Random(number)) for number in (166, 1666)}
    for make in MADE:
        name = make.__name__.replace("_", " ")
        out[name] = make(random.Random(name))
        if make in ALSO_SHUFFLED:
            out[name + ", shuffled"] = shuffled(out[name], random.Random(name + " too"))
    return out


# ---- queries

EIGHT = ["$..price", "$..*", "$.rows[7].price", "$.rows[?@.qty > 10].price", "$.rows[::2]", "$.rows[?@.name == 'x' && @.qty <= 5]", "$..[?@.price]",
         "$.rows[?count(@.*) == 5]"]

# Group: (document, queries), and so on. A query with `!` before it is one on which the Rust text selects other nodes.
GROUPS = {
    "straight paths": [
        ("rows 1666", ["$", "$.rows", "$.rows[1500].ok", "$.rows[-1].qty", "$.none", "$.rows[9999]", "$['rows'][3]['name']"]),
        ("orders, shuffled", ["$.orders[17].customer.city", "$.orders[200].items[0].price", "$.orders[5].none.city"]),
        ("settings", ["$.host85.limits.memory"]),
        ("books", ["$.store.bicycle.color"]),
    ],
    "slices": [
        ("rows 1666", ["$.rows[10:20]", "$.rows[-5:]", "$.rows[::-1]", "$.rows[1:1000:7]", "$.rows[:400].price", "$.rows[500:500]"]),
        ("orders, shuffled", ["$.orders[::3].customer.name", "$.orders[*].items[-2:]"]),
        ("scalars", ["$[100:900:3]"]),
    ],
    "several selectors": [
        ("rows 1666", ["$.rows[3,1,2]", "$.rows[0,-1,5000]['id','price']", "$.rows[*]['name','qty']", "$.rows[:50,100:150]"]),
        ("rows 1666, shuffled", ["$.rows[*]['name','none','qty']"]),
        ("orders", ["$.orders[*]['customer','items'][*]", "$.orders[*].items[0,1]"]),
        ("books", ["$.store.book[0,2]['title','isbn']"]),
    ],
    "wildcards and child segments": [
        ("rows 1666", ["$.*", "$.rows[*]", "$.rows.*.*", "$.rows[*].price", "$.rows[*].none"]),
        ("rows 1666, shuffled", ["$.rows[*].price"]),
        ("orders", ["$.orders[*].items[*].price", "$.orders[*].customer.city", "$.orders[*].note"]),
        ("orders, shuffled", ["$.orders[*].items[*].price", "$.orders[*].customer.city", "$.orders[*].*"]),
        ("sparse", ["$[*].c", "$[*].*.x"]),
        ("settings", ["$.*.port", "$.*.limits.open"]),
        ("settings, shuffled", ["$.*.limits.open", "$.*.*"]),
        ("tree", ["$.children[*].children[*].name"]),
    ],
    "descendants": [
        ("orders", ["$..price", "$..*", "$..items[0]", "$..none"]),
        ("orders, shuffled", ["$..qty", "$..tags[*]", "$..['city','status']"]),
        ("tree", ["$..name", "$..children[1]", "$..children..size", "$..*"]),
        ("sparse", ["$..x", "$..[0]"]),
        ("settings", ["$..open"]),
        ("books", ["$..author", "$..book[2].title", "$..[0:2]"]),
    ],
    "a member and a literal": [
        ("rows 1666", ["$.rows[?@.qty > 10]", "$.rows[?@.price < 20.5]", "$.rows[?@.price == 48]", "$.rows[?@.name == 'nut']", "$.rows[?@.name < 'bolt x']",
                       "$.rows[?@.ok == true]", "$.rows[?@.none == 1]", "$.rows[?@.name != 'washer']", "$.rows[?10 <= @.qty]", "$.rows[?@.qty != 3]",
                       "$.rows[?@.price <= 2.05e1]"]),
        ("rows 1666, shuffled", ["$.rows[?@.qty > 10]", "$.rows[?@.price >= 20.5]", "$.rows[?@.name == 'nut']", "$.rows[?@.ok == false]",
                                 "$.rows[?@.none == 1]"]),
        ("orders", ["$.orders[?@.paid == null]", "$.orders[?@.total > 500]", "$.orders[?@.customer.city == 'Lima'].id",
                    "$.orders[?@.note == 'left at door 9']"]),
        ("orders, shuffled", ["$.orders[?@.paid == true]", "$.orders[?@.status == 'paid'].total", "$.orders[*].items[?@.qty < 5]"]),
        ("sparse", ["$[?@.a == 'red']", "$[?@.b > 40]", "$[?@.c <= 62.5]", "$[?@.d == true]", "$[?@.e == null]"]),
        ("scalars", ["$[?@ == 'z']", "$[?@ < 100]", "$[?@ >= 12.25]", "$[?@ == null]"]),
        ("settings", ["$[?@.port == 8003]", "$[?@.limits.open >= 2048]"]),
    ],
    "filters below descendants": [
        ("orders", ["$..[?@.qty > 10]", "$..items[?@.price < 10].sku"]),
        ("orders, shuffled", ["$..[?@.qty > 10].price", "$..[?@.city == 'Kyoto' || @.vip == true]"]),
        ("tree", ["$..[?@.size > 900].name", "$..children[?@.name == 'n7']"]),
        ("sparse", ["$..[?@ == 1]"]),
        ("settings, shuffled", ["$..[?@.memory == 4096]"]),
        ("cube", ["$..[?@ > 1000]"]),
        ("books", ["$..book[?@.price < 10]", "$..book[?@.isbn].title"]),
    ],
    "existence": [
        ("rows 1666", ["$.rows[?@.ok]", "$.rows[?@.none]", "$.rows[?!@.none]"]),
        ("orders, shuffled", ["$.orders[?@.note]", "$.orders[?@.items[2]]", "$.orders[?!@.note].id"]),
        ("sparse", ["$[?@.g]", "$..[?@.x]"]),
    ],
    "and, or, not": [
        ("rows 1666", ["$.rows[?@.qty > 10 && @.price < 50]", "$.rows[?@.qty == 3 || @.qty == 7 || @.qty == 11]", "$.rows[?!(@.ok == true)]",
                       "$.rows[?(@.qty > 20 || @.price < 5) && @.ok == true]", "$.rows[?@.none || @.name == 'x']"]),
        ("rows 1666, shuffled", ["$.rows[?@.qty > 10 && @.price < 50]", "$.rows[?(@.qty > 20 || @.price < 5) && !(@.name == 'nut')]"]),
        ("orders", ["$.orders[?@.status == 'open' && @.total >= 100 && @.customer.vip == true]", "$.orders[?@.note && @.paid == true]"]),
        ("orders, shuffled", ["$.orders[?@.status == 'open' && @.total >= 100 && @.customer.vip == true]",
                              "$.orders[?!@.note && (@.paid == null || @.limit < 50)]"]),
        ("sparse", ["$[?@.a && @.b && @.c]", "$[?@.a == 'red' || @.b == 'red' || @.c == 'red']", "$[?!(@.a || @.b)]"]),
    ],
    "functions": [
        ("rows 1666", ["$.rows[?count(@.*) > 4]", "$.rows[?value(@.name) == 'bolt']", "$.rows[?count(@.none) == 0]"]),
        ("rows 1666, shuffled", ["$.rows[?value(@.qty) < 3]"]),
        ("orders", ["$.orders[?count(@.items[*]) >= 4]", "$.orders[?count(@..price) == 2].id", "$.orders[?value(@..city) == 'Oslo']",
                    "$.orders[?length(@.none) == 0]", "$.orders[?length(value(@.status)) == 4]"]),
        ("orders, shuffled", ["$.orders[?count(@.items[?@.qty > 9]) == 2]", "$.orders[*].items[?length('abc') == @.qty]"]),
        ("tree", ["$..[?count(@.children[*]) == 3].name"]),
        ("sparse", ["$[?count(@.*) == 3]"]),
    ],
    "queries and filters in filters": [
        ("rows 166", ["$.rows[?@.qty == $.rows[5].qty]", "$.rows[?@.price > $.rows[20].price && @.ok == true]"]),
        ("orders", ["$.orders[?@.items[?@.price > 80]]", "$.orders[?@.items[*].tags[*]]", "$.orders[?@.items[?@.tags[?@ == 'sale']]].id"]),
        ("orders, shuffled", ["$.orders[?@.items[?@.qty > 15 && @.price > 50]]", "$.orders[?@..sku].id", "$.orders[*].items[?@.tags[?@ == 'bulk']].sku",
                              "$.orders[?@.items[?@.qty == $.orders[0].id]]"]),
        ("tree", ["$..[?@.children[?@.size > 900]].name", "$..[?@..children]"]),
        ("pairs", ["$.rows[?@.parts[?@ == 8]]", "$.rows[?@.parts[?@ > $.limit]].a", "$.rows[?$.word == 't25' && @.a > 40]"]),
    ],
    "two paths": [
        ("pairs", ["$.rows[?@.a == @.b]", "$.rows[?@.low < @.high]", "$.rows[?@.from <= @.to]", "$.rows[?@.in.x == @.parts[1]]", "$.rows[?@.a > $.limit]",
                   "$.rows[?@.from == $.word]", "$.rows[?@.in.y.z == @.parts[0]].a", "$.rows[?@.none == @.absent]", "!$.rows[?@.in == @.in]",
                   "!$.rows[?@.parts == $.rows[3].parts]"]),
        ("pairs, shuffled", ["$.rows[?@.a == @.b]", "$.rows[?@.low < @.high]", "$.rows[?@.from <= @.to]", "$.rows[?@.in.x == @.parts[1]]",
                             "!$.rows[?@.in == $.rows[3].in]"]),
        ("orders, shuffled", ["$.orders[?@.total > @.limit].id"]),
    ],
    "wide maps": [
        ("wide", ["$.maps[3].m0001", "$.maps[3].m0500", "$.maps[3].m0999", "$.maps[3].none", "$.maps[*].m0700", "$.maps[?@.m0900 > 500].m0100",
                  "$.maps[*].none", "$.maps[*]['m0010','m0990']"]),
        ("wide, shuffled", ["$.maps[*].m0700", "$.maps[?@.m0900 > 500].m0100"]),
    ],
    "wide maps, every member": [
        ("wide", ["$.maps[0].*", "$..*", "$..m0005", "$.maps[5][?@ < 50]", "!$.maps[?@ == $.maps[1]]"]),
        ("wide, shuffled", ["$.maps[*][?@ == 500]", "!$.maps[?@ == $.maps[1]]"]),
    ],
    "60 levels": [
        ("deep maps", ["$..depth", "$..leaf", "$..*", "$..[?@.even]", "$..[?@.depth > 30].name", "$.next.next.next.next.next.next.next.next.depth",
                       "$..next.name"]),
        ("deep lists", ["$..*", "$..[1]", "$..[-1]", "$..[?@ == 30]", "$[0][2][0][2][0][2][0][2][1]"]),
    ],
    "6 and 20 nodes": [
        ("six", ["$.a.b", "$.*", "$..*", "$..b", "$[?@.b == 1]", "$.a[?@ == 'x']", "$.d[0]"]),
        ("twenty", ["$.rows[2].name", "$.rows[*].qty", "$..id", "$..*", "$.rows[?@.qty > 5]", "$.rows[?@.name == 'nut' || @.id < 1].qty", "$.rows[::2]",
                    "$.rows[?count(@.*) == 3]"]),
    ],
    "long texts": [
        ("long texts", ["$.rows[*].title", "$.rows[?@.title < 'the quick brown fox k']", "$.rows[?@.title == $.rows[3].title]",
                        "$.rows[?@.body > $.rows[1].body].title", "$.rows[?@.body == $.rows[7].body]", f"$.rows[*]['{LONG_NAME}two']",
                        f"$.rows[?@['{LONG_NAME}two'] == 3].title"]),
    ],
    "texts beyond ASCII": [
        ("beyond ascii", ["$.données[*].prénom", "$.données[?@.ville == '東京']", "$.données[?@.名前 > '山田太郎ああ'].цена", "$.données[?@['🙂'] == true].ville",
                          "$..цена"]),
        ("beyond ascii, shuffled", ["$.données[*].名前", "$.données[?@.ville == 'Москва' || @.ville == '🌍🚀'].prénom",
                                    "$.données[?@.цена < 3.5]"]),
    ],
    "matrices": [
        ("matrix", ["$.ints[*][*]", "$.ints[*][5]", "$.ints[::2][::2]", "$.ints[3,5,7][-1]", "$.ints[*][?@ > 90]", "$.floats[*][?@ == 12.5]", "$..[3]",
                    "$.ints[?@[0] == 31]", "$.floats[?@[1] > @[0]]"]),
        ("cube", ["$[*][*][3]", "$..*", "$[?@[1][1] > 4][2][2]", "$[2:5][2:5][2:5]", "$[*][*][?@ == 0]"]),
    ],
    "the published eight": [("rows 16", EIGHT), ("rows 166", EIGHT), ("rows 1666", EIGHT)],
    "the published eight, members shuffled": [("rows 166, shuffled", EIGHT), ("rows 1666, shuffled", EIGHT)],
}


def cases():
    """Each case: group, document, query, and what the Rust text selects."""
    for group, parts in GROUPS.items():
        for document, queries in parts:
            for query in queries:
                yield group, document, query.lstrip("!"), OTHER if query.startswith("!") else SAME


def write(name, content):
    with open(name, "wb") as f:
        f.write(content)


def main():
    folder = sys.argv[1]
    for name, value in documents().items():
        table, text = tables.build(value)
        if tables.check(table, text) is not None:
            sys.exit(f"{name}: no table")
        write(f"{folder}/{name}.json", json.dumps(value, ensure_ascii=False, separators=(",", ":")).encode())
        write(f"{folder}/{name}.table", table)
        write(f"{folder}/{name}.text", text)
    write(f"{folder}/cases.tsv", "".join("\t".join(case) + "\n" for case in cases()).encode())


if __name__ == "__main__":
    main()
