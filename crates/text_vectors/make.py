#!/usr/bin/env python3
"""Writes the files stdin and stdout of this crate: the vectors and what the program must write of them.

    python3 crates/text_vectors/make.py

UTF-8 goes by the ABNF of RFC 3629, section 4, as one pattern, and each outcome is held against Python's own decoder.
The bracket count goes by the words of document 01, "Bracket count". The queries are those of document 01 and of the
open points 1 to 3, and some that stand around them; a row is the query and the refusal that is expected of it, and
the rule has to agree.
"""
import itertools, os, re

HERE = os.path.dirname(os.path.abspath(__file__))
EDGES3 = bytes.fromhex("7F808F909FA0BFC0C2DFE0ECEDEEEFF4")
EDGES4 = bytes.fromhex("7F808F909FA0BFC0E1EDF0F1F3F4F5FF")

UTF8 = re.compile(
    rb"(?:[\x00-\x7F]"
    rb"|[\xC2-\xDF][\x80-\xBF]"
    rb"|\xE0[\xA0-\xBF][\x80-\xBF]|[\xE1-\xEC][\x80-\xBF]{2}|\xED[\x80-\x9F][\x80-\xBF]|[\xEE-\xEF][\x80-\xBF]{2}"
    rb"|\xF0[\x90-\xBF][\x80-\xBF]{2}|[\xF1-\xF3][\x80-\xBF]{3}|\xF4[\x80-\x8F][\x80-\xBF]{2})*\Z",
    re.DOTALL,
)


def is_utf8(text):
    by_rule = UTF8.match(text) is not None
    try:
        text.decode("utf-8")
        by_decoder = True
    except UnicodeDecodeError:
        by_decoder = False
    assert by_rule == by_decoder, text
    return by_rule


def too_deep(text):
    count, at = 0, 0
    while at < len(text):
        byte = text[at]
        at += 1
        if byte in b"\"'":
            while at < len(text) and text[at] != byte:
                at += 2 if text[at] == 0x5C else 1
            at += 1
        elif byte in b"[(":
            count += 1
        elif byte in b"])":
            count = max(count - 1, 0)
        if count > 32:
            return True
    return False


def sweep(alphabet, k):
    bits = [is_utf8(bytes(t)) for t in itertools.product(alphabet, repeat=k)]
    digits = "".join("%x" % int("".join("01"[b] for b in bits[i : i + 4]), 2) for i in range(0, len(bits), 4))
    return "".join(digits[i : i + 64] + "\n" for i in range(0, len(digits), 64))


def refusal(query):
    if not is_utf8(query):
        return 2
    return 3 if too_deep(query) else None


# Document 01, "32 open brackets pass, 33 are 3", and the open points 1 to 3; None where neither 2 nor 3 holds.
QUERIES = [
    (b"$", None),
    (b"", None),
    (b"$.a[1]", None),
    (b"$" + 32 * b"[", None),
    (b"$" + 33 * b"[", 3),
    (b"$" + 33 * b"(", 3),
    (b"$" + 16 * b"[(" + b"[", 3),
    (b"$" + 33 * b"[" + 33 * b"]", 3),
    (b"$" + 40 * b"[]", None),
    (b"$" + 32 * b"[" + b"])" + 2 * b"(", None),
    (b"$" + 32 * b"[" + b"])" + 3 * b"(", 3),
    # 1: an apostrophe in a wrong place hides what follows; a backslash outside quotes is an ordinary byte
    (b"$.it's" + 33 * b"[", None),
    (b"$.its" + 33 * b"[", 3),
    (b"\\'" + 33 * b"(", None),
    (b"\\" + 33 * b"(", 3),
    (b"$['" + 33 * b"[", None),
    (b"$['" + 33 * b"[" + b"']", None),
    (b"$['\\'" + 33 * b"[" + b"']", None),
    (b"$['\\\\'" + 31 * b"[", None),
    (b"$['\\\\'" + 32 * b"[", 3),
    (b'$["\'"' + 32 * b"[", 3),
    (b'$["\'' + 33 * b"[", None),
    (b"$['\"']" + 33 * b"[", 3),
    (b"$['a\\", None),
    # 2: above 32 at some moment, closed again or not; closing brackets first take nothing off
    (b"]]]" + 32 * b"[", None),
    (b"]]]" + 33 * b"[", 3),
    (b")" + 33 * b"(" + 33 * b")", 3),
    # 3: not UTF-8 is looked at before brackets
    (b"\xFF" + 33 * b"[", 2),
    (33 * b"[" + b"\xC3", 2),
    ("é".encode() + 33 * b"[", 3),
    ("$['é€😀']".encode(), None),
    (b"$['\xED\xA0\x80']", 2),
    (b"$['\xC0\xAF']", 2),
    (b"$['\xF4\x90\x80\x80']", 2),
]


def main():
    rows = []
    for query, expected in QUERIES:
        assert refusal(query) == expected, (query, expected)
        assert b"\n" not in query
        rows.append("passed\n" if expected is None else f"refused {expected}\n")
    every = bytes(range(256))
    with open(os.path.join(HERE, "stdin"), "wb") as f:
        f.write(b"".join(query + b"\n" for query, _ in QUERIES))
    with open(os.path.join(HERE, "stdout"), "w", encoding="ascii", newline="\n") as f:
        f.write(sweep(every, 1) + sweep(every, 2) + sweep(EDGES3, 3) + sweep(EDGES4, 4) + "".join(rows))


main()
