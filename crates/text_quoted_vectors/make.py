#!/usr/bin/env python3
"""Writes the input of the program quoted_vectors, the file stdin beside this one, and what it must print, the file stdout.

The rule is RFC 9535's grammar of string literals, section 2.3.1.1, rule by rule as regular expressions over code points, and section
2.3.1.2's table of escapes. Nothing here is shared with the code.
"""
import os
import re

# The texts: an opening quote and what follows it.
TEXTS = [
    # plain characters of one to four bytes
    "\"\"", "''", "\"a\"", "'a'", "'abc' and more", "\"\u00e9\"", "'\u20ac'", "'\U0001f600'", "\"a\u00e9\u20ac\U0001f600z\"x",
    "'\x20\x21\x23\x26\x28\x5b\x5d\x7e\x7f\u0080\ud7ff\ue000\uffff\U00010000\U0010ffff'",
    # quotes
    "\"it's\"", "'say \"no\"'", "\"a\\\"b\"", "'a\\'b'", "\"a\\'b\"", "'a\\\"b'", "\"a'", "'a\"", "'a'b'", "\"", "'",
    # the letters that name a character, and others
    "'\\b\\f\\n\\r\\t\\/\\\\'", "\"\\b\\f\\n\\r\\t\\/\\\\\"", "'\\a'", "'\\v'", "'\\0'", "'\\x41'", "'\\U0041'", "'\\", "'\\'", "'abc\\", "\"\\B\"",
    # four hexadecimal digits, in either case
    "'\\u0041'", "'\\u00e9\\u00E9'", "'\\uABCD\\uabcd\\uAbCd'", "'\\u0000'", "'\\u000a'", "'\\u007f\\u0080\\u07ff\\u0800'", "'\\uD7FF\\uE000\\uFFFF'",
    "'\\u004'", "'\\u00g1'", "'\\u'", "'\\u12", "'\\u-041'", "'\\u 041'", "'\\u0041", "'\\u+041'", "'\\u00:0'", "'\\u00@0'", "'\\u00`0'", "'\\u/041'",
    # surrogate pairs, and surrogates alone
    "'\\uD83D\\uDE00'", "'\\ud83d\\ude00'", "'\\uD800\\uDC00'", "'\\uDBFF\\uDFFF'", "'\\uD800'", "'\\uDBFF'", "'\\uDC00'", "'\\uDFFF'",
    "'\\uD800\\u0041'", "'\\uD800\\uD800'", "'\\uD800\\uDBFF'", "'\\uD800\\uE000'", "'\\uDC00\\uD800'", "'\\uD800a'", "'\\uD800\\n'", "'\\uD800\\uDC0'",
    "'\\uD800\\", "'\\uD800\\u", "'\\uD83D\\uDE00\\uD83D'", "'\\u0041\\u0042'", "'\\u0041\\uDC00'", "'\\u00e9\\u0301'",
    # control characters
    "'\t'", "'a\x00b'", "'a\x1fb'", "\"\x01\"", "'a\rb'", "'ok\x7f'",
    # what follows the closing quote
    "'a''b'", "'a'\\", "'a'\x00", "\"a\"\"", "''''",
    # no quoted text
    "abc", "`a`", "",
]

HEXDIG = "[0-9A-Fa-f]"
NON_SURROGATE = f"(?:[0-9ABCEFabcef]{HEXDIG}{{3}}|[Dd][0-7]{HEXDIG}{{2}})"
HIGH = f"[Dd][89ABab]{HEXDIG}{{2}}"
LOW = f"[Dd][CDEFcdef]{HEXDIG}{{2}}"
HEXCHAR = f"(?:{NON_SURROGATE}|{HIGH}\\\\u{LOW})"
ESCAPABLE = f"(?:[bfnrt/\\\\]|u{HEXCHAR})"
UNESCAPED = r"[\x20-\x21\x23-\x26\x28-\x5B\x5D-\uD7FF\uE000-\U0010FFFF]"
CHARACTER = {
    '"': re.compile(f"{UNESCAPED}|'|\\\\\"|\\\\{ESCAPABLE}"),
    "'": re.compile(f"{UNESCAPED}|\"|\\\\'|\\\\{ESCAPABLE}"),
}
NAMED = {"b": "\x08", "t": "\x09", "n": "\x0a", "f": "\x0c", "r": "\x0d", '"': '"', "'": "'", "/": "/", "\\": "\\"}


def stands_for(char):
    """The bytes that a character of a quoted text stands for."""
    if char[0] != "\\":
        return char.encode("utf-8")
    if char[1] != "u":
        return NAMED[char[1]].encode("utf-8")
    units = [int(digits, 16) for digits in char.split("\\u")[1:]]
    return b"".join(u.to_bytes(2, "big") for u in units).decode("utf-16-be").encode("utf-8")


def answer(text):
    if text == "":
        return "empty"
    if text[0] not in CHARACTER:
        return "no quote"
    quote, rest, at, out = text[0], text[1:], 0, b""
    while True:
        if rest[at:at + 1] == quote:
            return f"ok {out.hex()} {len(rest[at + 1:].encode('utf-8'))}"
        char = CHARACTER[quote].match(rest, at)
        if char is None:
            return f"bad {len(rest[:at].encode('utf-8'))}"
        out += stands_for(char.group())
        at = char.end()


def main():
    here = os.path.dirname(os.path.abspath(__file__))
    lines = [text.encode("utf-8") for text in TEXTS]
    # bytes that are no UTF-8
    lines += [b"'\xff'", b"'\xc3'", b"'\xed\xa0\x80'"]
    answers = [answer(text) for text in TEXTS] + ["not UTF-8"] * 3
    with open(os.path.join(here, "stdin"), "wb") as out:
        out.write(b"".join(line + b"\n" for line in lines))
    with open(os.path.join(here, "stdout"), "w") as out:
        out.write("".join(line + "\n" for line in answers))


main()
