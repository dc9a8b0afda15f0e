"""Compares what the fuzzer lists with tools/reference.py, tools/plans.py and tools/tables.py, which say documents 01 and 02 apart from the engine;
regexps.py, which the first of them uses, has the expressions of match and search. Refusal 7, which no input has, is none of their answers.

    fuzz list-queries 5 | python3 fuzz/compare.py
    fuzz list-plans 20 | python3 fuzz/compare.py
    fuzz list-rounds 2000 1 | python3 fuzz/compare.py
"""
import os, sys
sys.path.insert(0, os.path.join(os.path.dirname(os.path.abspath(__file__)), "..", "tools"))
import plans, reference, tables


def octets(word):
    return b"" if word == "-" else bytes.fromhex(word)


def compare(what, words):
    """What the engine gave, and what the Python gives."""
    if what == "compile":
        refusal = int(words[1])
        got = (refusal, octets(words[2]), octets(words[3])) if refusal == 0 else (refusal, 0, 0)
        return got, reference.compile(octets(words[0]), 1 << 20, 1 << 20)
    if what == "plan":
        return int(words[2]), 11 if plans.form_of(octets(words[0]), octets(words[1])) is None else 0
    if what in ("records", "texts", "table"):
        wrong = {"records": tables.check_records, "texts": tables.check_texts, "table": tables.check}[what](octets(words[0]), octets(words[1]))
        return tuple(map(int, words[2:])), (0, 0) if wrong is None else (9, 0) if wrong == 9 else wrong
    if what in ("text", "key"):
        table, text = octets(words[0]), octets(words[1])
        node, refusal, start, length = map(int, words[2:])
        return (refusal, text[start:start + length]), tables.named(table, text, node, what == "key")
    if what == "path":
        table, text = octets(words[0]), octets(words[1])
        node, length, refusal, needed, wrong = map(int, words[2:7])
        return (refusal, needed + wrong, octets(words[7])), tables.path(table, text, node, length)
    inputs = 3 if what == "select" else 4
    length, start, refusal, count, node = map(int, words[inputs:inputs + 5])
    got = refusal, node if refusal in (10, 17) else count, dict(enumerate(map(int, words[inputs + 5:]), start))
    return got, getattr(reference, what)(*map(octets, words[:inputs]), length, start)


counts, wrong = {}, 0
for line in sys.stdin:
    what, *words = line.split()
    got, want = compare(what, words)
    refusal = got[0] if isinstance(got, tuple) else got
    row = counts.setdefault(what, {})
    row[refusal] = row.get(refusal, 0) + 1
    if got != want:
        wrong += 1
        if wrong < 10:
            print("differs:", line.strip(), "and not", want)
for what, row in sorted(counts.items()):
    print(f"{what}: {sum(row.values())} answers beside the Python;", ", ".join(f"{k}: {row[k]}" for k in sorted(row)))
print(wrong, "differ")
sys.exit(wrong != 0)
