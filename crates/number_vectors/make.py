#!/usr/bin/env python3
"""Makes `stdin` and `stdout`, the lines that the program is run on and the answers that are expected.

    python3 make.py

The answers come from the rules of documents 01 and 02 and the grammar of RFC 9535, said here once more and in another way than in the crates:
a text begins with a rule if some prefix of it matches the rule and what is left may follow; a float is found among all floats by its
distance, in exact fractions; and numbers are compared as exact fractions. No float is computed with.
"""
import os
import re
from fractions import Fraction

MAX_INT = 2**53 - 1
LIMIT = 10**19
MIN_EXPONENT, MAX_EXPONENT = -342, 308
INFINITY = 0x7FF0000000000000
INT = re.compile(r"0|-?[1-9][0-9]*")
NUMBER = re.compile(r"(?P<sign>-?)(?P<whole>0|[1-9][0-9]*)(\.(?P<frac>[0-9]+))?([eE](?P<exp>[-+]?[0-9]+))?")


def reading(rule, text, may_not):
    """The end of the prefix that matches the rule, where what is left begins with no byte of may_not; None if there is none."""
    ends = [e for e in range(1, len(text) + 1) if text[e : e + 1] not in may_not or e == len(text)]
    found = [e for e in ends if rule.fullmatch(text, 0, e)]
    assert len(found) <= 1, text
    return found[0] if found else None


def value(bits):
    """The exact value of the float with these bits, which have no sign and are finite; of an infinity's, the next value that there would be."""
    field, digits = divmod(bits, 2**52)
    return Fraction(digits, 2**1074) if field == 0 else Fraction((2**52 + digits) * 2 ** (field - 1), 2**1074)


def nearest(x):
    """The bits of the float nearest to x, which is not negative; of two as near, the even one. Past the largest float they are an infinity's."""
    low, high = 0, INFINITY
    if x >= value(high):
        return INFINITY
    while high - low > 1:
        middle = (low + high) // 2
        low, high = (middle, high) if value(middle) <= x else (low, middle)
    below, above = x - value(low), value(high) - x
    return low if below < above or (below == above and low % 2 == 0) else high


def answer_int(text):
    end = reading(INT, text, "0123456789")
    if end is None:
        return "nothing"
    v = int(text[:end])
    return f"next {end + 2} {v}" if abs(v) <= MAX_INT else f"out {end + 2}"


def answer_number(text):
    end = reading(NUMBER, text, "0123456789.eE")
    if end is None:
        return "nothing"
    m = NUMBER.fullmatch(text, 0, end)
    sign, whole, frac, exp = m["sign"], m["whole"], m["frac"] or "", m["exp"]
    if not frac and exp is None:
        v = int(sign + whole)
        if -(2**63) <= v < 2**63:
            return f"int {end + 2} {v}"
    n = int(whole + frac)
    e = int(exp or "0") - len(frac)
    if n >= LIMIT or not MIN_EXPONENT <= e <= MAX_EXPONENT:
        return f"beyond {end + 2}"
    bits = nearest(n * Fraction(10) ** e)
    if bits == INFINITY:
        return f"beyond {end + 2}"
    return f"float {end + 2} {bits + (2**63 if sign else 0):016x}"


def operand(word):
    if word[0] != "x":
        return Fraction(int(word))
    bits = int(word[1:], 16)
    return -value(bits - 2**63) if bits >= 2**63 else value(bits)


def answer_order(text):
    a, b = (operand(w) for w in text.split(" "))
    return "<" if a < b else "=" if a == b else ">"


INTS = """0 1 9 10 42 -1 -9 -42 00 01 -0 -00 -01 +1 - -- -x x 0x 1x 0] 12] 0- 1- 0. 1. 1.0 1e 1e5 0é é ١
9007199254740990 9007199254740991 9007199254740992 9007199254740993 -9007199254740990 -9007199254740991 -9007199254740992
09007199254740991 9223372036854775807 9223372036854775808 -9223372036854775808 -9223372036854775809
18446744073709551615 18446744073709551616 18446744073709551617 18455751272964292607 18455751272964292608
999999999999999999 1000000000000000000 9999999999999999999 10000000000000000000 10000000000000000001
99999999999999999999 100000000000000000000 -9999999999999999999 -10000000000000000000""".split()

NUMBERS = """0 -0 00 01 -00 -01 +1 - . 1 -1 12 1] 1) 1, 1é 1. 1.. 1.. .5 0.5 -0.5 0.50 00.5 0.5.5 1.5e 1.5e+ 1.5e- 1.5e+-3 1e 1E 1e+ 1e- 1ee5 1e5e 1e5. 1e5.5 1e5x
-0.0 0.0 0e0 -0e0 -0E-0 0e22 0e23 0e-22 0e-23 -0e23 0.0e23 0.0e22 0.0e-21 0.0e-22 -0.0e-21 -0.0e-22
1e0 1E0 1e+0 1e-0 1e1 1e21 1e22 1e23 10e22 100e22 1e0022 1e0023 1e+0022 1e-22 1e-23 1e-0022 -1e22 -1e-22 -1e23 1.0e22 1.0e23 1.0e24 0.1e23 0.1e24 0.01e24 0.1e-21 0.1e-22 0.1e-23
9007199254740991 9007199254740992 9007199254740993 9007199254740991.0 900719925474099.1 900719925474099.2 9007199254740.991e3 -9007199254740991 -9007199254740992
9007199254740991e0 9007199254740992e0 9007199254740991e22 9007199254740992e22 9007199254740991e-22 9007199254740992e-22 -9007199254740991e22 -9007199254740991e-22 9007199254740991e23 9007199254740991e-23
0.9007199254740991 0.9007199254740992 0.9007199254740993 0.00000000000000000000001 0.0000000000000000000001 0.000000000000000000001 0.0000009007199254740991 0.0000000000000000000010 0.00000000000000000000010
9223372036854775806 9223372036854775807 9223372036854775808 9223372036854775809 -9223372036854775807 -9223372036854775808 -9223372036854775809 -9223372036854775810
18446744073709551615 18446744073709551616 9999999999999999999 10000000000000000000 10000000000000000001 99999999999999999999 -99999999999999999999
9223372036854775807.0 9223372036854775808e0 18446744073709551617.0 18446744073709551617e0 1844674407370955161.7
1e18446744073709551616 1e18446744073709551638 1e-18446744073709551616 1e-18446744073709551638 1e10000000000000000000 1e9999999999999999999 0e99999999999999999999 -0e-99999999999999999999
1.5e0 1.5e3 1.5E3 1.5e+3 1.5e-3 0.1 0.2 0.3 0.7 123.456 3.14159265358979 2.2250738585072014e-308 1.7976931348623157e308 4.9e-324 1.0 10.0 1.10 1e2x 1e2]
4503599627370497.5 4503599627370496.5 450359962737049.75 8.5e15 5e-1 25e-2 125e-3 1.25e-20 9e22 3e22 7e-22 1234567890123456e-22 1234567890123456e22 8765432109876543e21 6.02214076e23 6.62607015e-34 299792458.0
9007199254740991e1 9007199254740989e1 9007199254740987e1 4503599627370499e1 7205759403792794e1 7205759403792794.5 72057594037927.945e3 900719925474099e2 5e22 5e-22 15e21 35e-22""".split()

# the edges of the range, of subnormal floats and of the largest, and halfway between two floats
EDGES = """1e308 1e309 -1e308 0e308 0e309 0e-342 0e-343 -0e-342 0.1e-341 0.1e-342 10e308 1e-342 -1e-342 1e-343 1e-324 2e-324 3e-324 -3e-324 5e-324 7e-324 8e-324
1.0000000000000000000 1.000000000000000000 9.999999999999999999 1e19 9999999999999999999e308 9999999999999999999e-342 9999999999999999999e289 1797693134862315807e290 1797693134862315808e290
1.7976931348623157e308 1.7976931348623158e308 1.7976931348623159e308 -1.7976931348623159e308 17976931348623157e292 8.98846567431158e307 8.988465674311581e307
2.2250738585072011e-308 2.2250738585072012e-308 2.2250738585072013e-308 2.2250738585072014e-308 2.2250738585072009e-308 4.4501477170144023e-308
4.9406564584124654e-324 2.4703282292062327e-324 2.4703282292062328e-324 2.470328229206232720e-324 2.470328229206232721e-324 7.4109846876186981e-324 7.4109846876186982e-324
9007199254740993.0 9007199254740993e0 9007199254740994.5 9007199254740995.0 9007199254740995e1 90071992547409930e-1 900719925474099301e-2 900719925474099300e-2 900719925474099299e-2
9223372036854775807.0 9223372036854774784.0 9223372036854775296.0 9223372036854775295.0 9223372036854775297.0 9223372036854776832e0 9223372036854776833e0 9223372036854777855e0 9223372036854777856e0 9223372036854777857e0
4611686018427387904e23 1152921504606846977e1 1152921504606847104.0 1152921504606847103.0 1152921504606847105.0 6929495644600919.5 3.518437208883201171875e13 0.500000000000000166 0.5000000000000001665
179769313486231570e291 1234567890123456789e-30 3.14159265358979323 2.718281828459045235 0.1000000000000000055 123456789012345.678 1234567890123456789e300 1234567890123456789e-342""".split()

# literals that are very near to the middle between two floats, below and above it: the lists of Vern Paxson's test of conversions, with up to 19 digits
HARD = """5e125 69e267 999e-26 7861e-34 75569e-254 928609e-261 9210917e80 84863171e114 653777767e273 5232604057e-298 27235667517e-109 653532977297e-123 3142213164987e-294
46202199371337e-72 231010996856685e-73 9324754620109615e212 78459735791271921e49 272104041512242479e200 6802601037806061975e198 20505426358836677347e-221
9e-265 85e-37 623e100 3571e263 81661e153 920657e-23 4603285e-24 87575437e-309 245540327e122 6138508175e120 83356057653e193 619534293513e124 2335141086879e218
36167929443327e-159 609610927149051e-255 3743626360493413e-165 94080055902682397e-242 899810892172646163e283 7120190517612959703e120 25188282901709339043e-252""".split()

# numbers whose order is asked: integers around the powers of two at which floats lose digits, and floats by their bits
WHOLE = [0, 1, -1, 2, 2**52, 2**53 - 1, 2**53, 2**53 + 1, 2**53 + 2, -(2**53), -(2**53) - 1, -(2**53) - 2, 2**62, 2**63 - 1024, 2**63 - 1025, 2**63 - 513, 2**63 - 512, 2**63 - 2, 2**63 - 1, -(2**63), -(2**63) + 1, -(2**63) + 1024]
ONE = 0x3FF0000000000000
FLOAT = [
    0, 1, 2**52 - 1, 2**52, ONE - 1, ONE, ONE + 1,              # zero, the smallest, the last and first of a kind, one and its neighbours
    0x3FE0000000000000, 0x3FF8000000000000, 0x4000000000000000,  # a half, one and a half, two
    0x432FFFFFFFFFFFFF, 0x4330000000000000, 0x4330000000000001,  # 2^52 and its neighbours
    0x433FFFFFFFFFFFFF, 0x4340000000000000, 0x4340000000000001,  # 2^53 and its neighbours
    0x43CFFFFFFFFFFFFF, 0x43D0000000000000, 0x43DFFFFFFFFFFFFF, 0x43E0000000000000, 0x43E0000000000001,  # 2^62, 2^63 and their neighbours
    0x43F0000000000000, 0x7FEFFFFFFFFFFFFF,                      # 2^64, the largest
]


def near(i):
    """The floats of the list that lie next to a whole number, for either sign."""
    return [f"x{b + (2**63 if i < 0 else 0):016x}" for b in FLOAT if abs(value(b) - abs(i)) <= max(2, abs(i) // 2)]


def orders():
    words = [str(i) for i in WHOLE]
    floats = [f"x{b + s:016x}" for b in FLOAT for s in (0, 2**63)]
    for i in WHOLE:
        yield from (f"{i} {f}" for f in near(i) + floats[i % 7 :: 11])
        yield from (f"{f} {i}" for f in near(i)[::2])
    yield from (f"{a} {b}" for a in words[::2] for b in words[::3])
    yield from (f"{f} {g}" for f in floats[::3] for g in floats[::5])


def powers():
    """Powers of ten, each with one digit and with seventeen, at exponents spread over the range."""
    return [t for e in range(-342, 309, 13) for t in (f"1e{e}", f"12345678901234567e{e}")]


def lines():
    long = ["1" * 3000, "0" * 1000, "-" + "7" * 2000, "1" + "0" * 1000 + "x"]
    for t in INTS + [""] + long:
        yield "i", t
    long += ["0." + "0" * 2000 + "1", "1" * 500 + "." + "3" * 1000, "1e" + "0" * 2000 + "22", "1e-" + "0" * 1000 + "22", "1e" + "9" * 2000, "1e-" + "9" * 1000]
    for t in NUMBERS + EDGES + HARD + powers() + ["", "1 ", " 1"] + long:
        yield "n", t
    for t in orders():
        yield "c", t


def main():
    here = os.path.dirname(os.path.abspath(__file__))
    answer = {"i": answer_int, "n": answer_number, "c": answer_order}
    given, expected = [], []
    for kind, text in lines():
        given.append(f"{kind} {text}\n")
        expected.append(answer[kind](text) + "\n")
    given, expected = "".join(given).encode(), "".join(expected).encode()
    assert len(given) < 65536, len(given)
    with open(os.path.join(here, "stdin"), "wb") as f:
        f.write(given)
    with open(os.path.join(here, "stdout"), "wb") as f:
        f.write(expected)
    print(f"{len(given.splitlines())} lines, {len(given)} bytes")


if __name__ == "__main__":
    main()
