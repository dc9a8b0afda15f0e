#!/usr/bin/env python3
"""Writes what the program slices_vectors must print: the file stdout beside this one.

The rules are document 01's, section Evaluation, sentence by sentence, over Python's whole numbers. Nothing here is shared with the code.
"""

MAX_INT = 2**53 - 1
CODES = [None, -4, -3, -2, -1, 0, 1, 2, 3, 4, -MAX_INT, MAX_INT]
NAMES = ["_", "-4", "-3", "-2", "-1", "0", "1", "2", "3", "4", "L", "H"]


def select_index(n, i):
    # "Negative index: add the length; still negative selects nothing."
    if i < 0:
        i += n
    return [i] if 0 <= i < n else []


def select_slice(n, start, stop, step):
    # "step default 1; step 0 selects nothing"
    if step is None:
        step = 1
    if step == 0:
        return []
    # "Default start is 0, or n-1 for a negative step; default stop n, or -n-1."
    if start is None:
        start = n - 1 if step < 0 else 0
    if stop is None:
        stop = -n - 1 if step < 0 else n
    # "Negative bounds have n added once."
    if start < 0:
        start += n
    if stop < 0:
        stop += n
    # "Then start is brought into 0..n, stop into -1..n."
    start = max(0, min(n, start))
    stop = max(-1, min(n, stop))
    # "Walk from start while below stop (above, for negative steps); a place n selects nothing."
    at, places = start, []
    while (at < stop) if step > 0 else (at > stop):
        if at != n:
            places.append(at)
        at += step
    return places


def line(n, query, places):
    return " ".join([str(n), query, "->"] + [str(k) for k in places]) + "\n"


def main():
    with open(__file__.rsplit("/", 1)[0] + "/stdout" if "/" in __file__ else "stdout", "w") as out:
        for n in range(4):
            for code, i in enumerate(CODES):
                if i is not None:
                    out.write(line(n, NAMES[code], select_index(n, i)))
        for n in range(4):
            for a, start in enumerate(CODES):
                for b, stop in enumerate(CODES):
                    for c, step in enumerate(CODES):
                        query = f"{NAMES[a]}:{NAMES[b]}:{NAMES[c]}"
                        out.write(line(n, query, select_slice(n, start, stop, step)))


main()
