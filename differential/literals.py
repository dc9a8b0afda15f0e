#!/usr/bin/env python3
"""Number literals through the C boundary, held bit for bit against exact fractions.

    python3 differential/literals.py [COUNT [SEED]]      COUNT random literals (1000000) and the hard ones

It uses the archive of bin/archive. A literal's float is found among all floats by its distance, in exact fractions (crates/number_vectors/make.py); Python's own
float of the text is the first guess, and the guess and its neighbours are what is compared, so that a wrong guess is found too. The hard ones are powers of two and
ten, the middles between neighbouring floats and their neighbours with 17 and 19 digits, the ends of subnormal and of all floats, and published lists.
"""
import os, random, struct, subprocess, sys
from fractions import Fraction

here = os.path.dirname(os.path.abspath(__file__))
sys.path.insert(0, os.path.join(here, "..", "crates", "number_vectors"))
sys.dont_write_bytecode = True
import make

PUBLISHED = """5e-324 2.2250738585072011e-308 2.2250738585072012e-308 2.2250738585072014e-308 1.7976931348623157e308 1.7976931348623158e308 1.7976931348623159e308
9007199254740993 9007199254740993.0 9007199254740995.0 1.00000000000000011102e0 1.00000000000000011103e0 0.500000000000000166e0 3.518437208883201171875e13
62.5364939768271845828 8.10109172351e-10 1.50000000000000011102 1.5e-5 6.7868024205e-2 358416272e-33 899810892172646163e-283 7120190517612959703e120 25188282901709339043e-252
308984926168550152811e-52 6372891218502368041059e64 1e23 9e-265 85e-37 623e100 3571e263 81661e153 920657e-23 4603285e-24 87575437e-309 245540327e122 6138508175e120
83356057653e193 619534293513e124 2335141086879e218 36167929443327e-159 609610927149051e-255 3743626360493413e-165 94080055902682397e-242 899810892172646163e283
7120190517612959703e120 5e125 69e267 999e-026 7861e-034 75569e-254 928609e-261 9210917e80 84863171e114 653777767e273 5232604057e-298 27235667517e-109 653532977297e-123
3142213164987e-294 46202199371337e-072 231010996856685e-073 9324754620109615e212 78459735791271921e235 272104041512242479e200 6802601037806061975e198""".split()


def rule(text):
    """What the rules give for a literal: as differential/literals.c writes it."""
    m = make.NUMBER.fullmatch(text)
    sign, whole, frac, exp = m["sign"], m["whole"], m["frac"] or "", m["exp"]
    if not frac and exp is None and -(2**63) <= int(sign + whole) < 2**63:
        return f"int {int(sign + whole) % 2**64:016x}"
    n, e = int(whole + frac), int(exp or "0") - len(frac)
    if n >= make.LIMIT or not make.MIN_EXPONENT <= e <= make.MAX_EXPONENT:
        return "refused 8"
    bits = near(Fraction(n) * Fraction(10) ** e, text.lstrip("-"))
    return "refused 8" if bits >= make.INFINITY else f"float {bits + (2**63 if sign else 0):016x}"


def near(x, text):
    """The bits of the float nearest to x, ties to even, from a guess and its neighbours; a guess that is further off is searched for."""
    guess = struct.unpack("<Q", struct.pack("<d", float(text)))[0]
    low, high = max(guess - 1, 0), min(guess + 1, make.INFINITY)
    if not (make.value(low) <= x <= make.value(high)) and guess != make.INFINITY:
        return make.nearest(x)
    best = min((abs(make.value(b) - x), b % 2, b) for b in range(low, high + 1))
    return best[2] if x < make.value(make.INFINITY) else make.INFINITY


def decimal(n, e):
    return f"{n}e{e}"


def hard():
    for e in range(-343, 310):
        for n in (1, 5, 9, 17, 2**53 - 1, 2**53 + 1, 10**16 + 1, 10**18 + 7, 10**19 - 1):
            yield decimal(n, e)
    for k in range(-1074, 1024, 3):
        x = Fraction(2) ** k
        for y in (x, x * (1 + Fraction(1, 2**53)), x * (1 + Fraction(3, 2**53))):
            for digits in (17, 19):
                e = len(str(int(y))) - digits if y >= 1 else -len(str(int(1 / y))) - digits + 1
                n = round(y / Fraction(10) ** e)
                for d in (-1, 0, 1):
                    if 0 < n + d < 10**19 and -342 <= e <= 308:
                        yield decimal(n + d, e)
    yield from PUBLISHED


def some(pick):
    digits = pick.randrange(1, 20)
    n = pick.randrange(10 ** (digits - 1), 10**digits)
    sort = pick.randrange(8)
    sign = "-" if pick.randrange(4) == 0 else ""
    if sort == 0:
        return f"{sign}{n}.{pick.randrange(10 ** pick.randrange(1, 6)):d}"
    if sort == 1:
        return f"{sign}{n}"
    if sort == 2:
        b = pick.randrange(0x7FF0000000000000)
        return sign + repr(struct.unpack("<d", struct.pack("<Q", b))[0]).replace("+", "")
    if sort == 3:
        b = pick.randrange(1, 0x7FE0000000000000)
        y = (make.value(b) + make.value(b + 1)) / 2
        e = (len(str(int(y))) if y >= 1 else -len(str(int(1 / y)))) - 19
        n = round(y / Fraction(10) ** e)
        return f"{sign}{n}e{e}" if 0 < n < 10**19 else f"{sign}{n // 10}e{e + 1}"
    return f"{sign}{n}{pick.choice('eE')}{pick.randrange(-345, 312)}"


def main():
    count, seed = int(sys.argv[1]) if len(sys.argv) > 1 else 1000000, int(sys.argv[2]) if len(sys.argv) > 2 else 1
    root = os.path.join(here, "..")
    archive = subprocess.run([os.path.join(root, "bin", "archive")], stdout=subprocess.PIPE, text=True, check=True).stdout.strip()
    program = os.path.join(root, "target", "differential", "literals")
    os.makedirs(os.path.dirname(program), exist_ok=True)
    subprocess.run(["cc", "-O2", "-Wall", "-Wextra", "-Werror", "-o", program, os.path.join(here, "literals.c"), archive], check=True)
    pick = random.Random(seed)
    lines = [t for t in hard() if make.NUMBER.fullmatch(t)]
    held = len(lines)
    while len(lines) < held + count:
        t = some(pick)
        if make.NUMBER.fullmatch(t):
            lines.append(t)
    got = subprocess.run([program], input="\n".join(lines) + "\n", stdout=subprocess.PIPE, text=True, check=True).stdout.split("\n")[:-1]
    assert len(got) == len(lines)
    wrong = [(t, g, w) for t, g in zip(lines, got) if g != (w := rule(t))]
    for t, g, w in wrong[:20]:
        print(f"{t}: {g}, and by the rule {w}")
    kinds = {k: sum(g.startswith(k) for g in got) for k in ("int", "float", "refused")}
    print(f"{len(lines)} literals, {held} of them hard ones: {kinds}; {len(wrong)} wrong")
    sys.exit(1 if wrong else 0)


main()
