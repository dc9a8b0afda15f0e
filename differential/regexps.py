#!/usr/bin/env python3
"""match and search through the C boundary, held against tools/regexps.py and, where both have the expression, against Python's `re`.

    python3 differential/regexps.py [COUNT [SEED]]      COUNT pairs of an expression and a text (1000000), and the rows of tools/regexps.py

It uses the archive of bin/archive. Expressions and texts come by chance (tools/regexp_samples.py), four texts for an expression; differential/regexps.c asks each pair as
values of the table and as literals.

An expression of the part is one of `re` once three things are written otherwise, since they mean something else there: `^` and `$` outside of classes, and `.`, which
is `[^\\n\\r]`. Two things are in the part and refused by `re`: a count whose most is below its least, and a range whose last is before its first. An expression that is
outside the part is not asked of `re`, which has more. `re` tries one way after the other and may take long: a pair that it does not end within some time is counted.
"""
import os, random, re, signal, subprocess, sys, warnings

HERE = os.path.dirname(os.path.abspath(__file__))
ROOT = os.path.join(HERE, "..")
sys.dont_write_bytecode = True
sys.path.insert(0, os.path.join(ROOT, "tools"))
import regexp_samples, regexps

BATCH, TEXTS, SECONDS = 50000, 4, 0.05
REFUSED = {"bad character range": "a range whose last is before its first", "min repeat greater": "a count whose most is below its least"}
warnings.simplefilter("ignore")


class Slow(Exception):
    pass


def alarm(*_):
    raise Slow


def for_re(expression):
    """The same expression as `re` spells it."""
    out, at, inside = [], 0, False
    while at < len(expression):
        c = expression[at]
        if c == "\\":
            out.append(expression[at:at + 2])
            at += 2
            continue
        if inside:
            inside = c != "]"
        elif c == "[":
            inside = True
            if expression.startswith("[^", at):
                out.append("[^")
                at += 2
                continue
        out.append(c if inside else "[^\\n\\r]" if c == "." else "\\" + c if c in "^$" else c)
        at += 1
    return "".join(out)


def compiled(expression):
    """The expression for `re`, or why `re` has none."""
    try:
        return re.compile(for_re(expression)), None
    except re.error as error:
        return None, next((words for said, words in REFUSED.items() if str(error).startswith(said)), None)


def by_re(pattern, text):
    # The alarm may come as it is taken back, so that both are inside the outer `try`.
    try:
        signal.setitimer(signal.ITIMER_REAL, SECONDS)
        try:
            return "%d%d" % (pattern.fullmatch(text) is not None, pattern.search(text) is not None)
        finally:
            signal.setitimer(signal.ITIMER_REAL, 0)
    except Slow:
        return None


def pairs(count, pick):
    for _, _, text, expression, _ in regexps.ROWS:
        yield expression, text
    made = 0
    while made < count:
        expression = regexp_samples.expression(pick)
        tree = regexps.read(expression.encode())
        for _ in range(min(TEXTS, count - made)):
            yield expression, regexp_samples.text(pick, tree)
            made += 1


def hexed(s):
    return s.encode().hex() or "-"


class Tally:
    def __init__(self):
        self.counts, self.wrong = {}, 0

    def add(self, what):
        self.counts[what] = self.counts.get(what, 0) + 1

    def fault(self, *words):
        self.wrong += 1
        if self.wrong <= 20:
            print("WRONG:", *words)


def judge(tally, rows, answers):
    last, tree, pattern, why = None, None, None, None
    for (expression, text), answer in zip(rows, answers):
        if expression != last:
            last, tree = expression, regexps.read(expression.encode())
            pattern, why = (None, None) if tree is None else compiled(expression)
        want = "00" if tree is None else "%d%d" % tuple(regexps.described(tree, text, part) for part in (False, True))
        tally.add("outside the part" if tree is None else {"11": "match", "01": "search alone", "00": "neither"}.get(want, want))
        if answer != want:
            tally.fault(repr(expression), repr(text), "answers", answer, "and tools/regexps.py says", want)
        if tree is None:
            continue
        if pattern is None:
            tally.add(f"re refuses {why}")
            if why is None:
                tally.fault(repr(expression), "is refused by re")
            continue
        other = by_re(pattern, text)
        tally.add("re does not end in time" if other is None else "re says the same" if other == want else "re says otherwise")
        if other is not None and other != want:
            tally.fault(repr(expression), repr(text), "answers", answer, "and re says", other)


def main():
    count, seed = int(sys.argv[1]) if len(sys.argv) > 1 else 1000000, int(sys.argv[2]) if len(sys.argv) > 2 else 1
    archive = subprocess.run([os.path.join(ROOT, "bin", "archive")], stdout=subprocess.PIPE, text=True, check=True).stdout.strip()
    program = os.path.join(ROOT, "target", "differential", "regexps")
    os.makedirs(os.path.dirname(program), exist_ok=True)
    subprocess.run(["cc", "-O2", "-Wall", "-Wextra", "-Werror", "-o", program, os.path.join(HERE, "regexps.c"), archive], check=True)
    signal.signal(signal.SIGALRM, alarm)
    tally, rows, done = Tally(), [], 0

    def ask():
        nonlocal done
        lines = "".join(f"{hexed(e)} {hexed(t)}\n" for e, t in rows)
        ran = subprocess.run([program], input=lines, stdout=subprocess.PIPE, stderr=subprocess.DEVNULL, text=True)
        answers = ran.stdout.split("\n")[:-1]
        if ran.returncode or len(answers) != len(rows):
            tally.fault("the program ended with", ran.returncode, answers[-1:], rows[len(answers) - 1:len(answers)])
        judge(tally, rows, answers)
        done += len(rows)
        rows.clear()

    for pair in pairs(count, random.Random(seed)):
        rows.append(pair)
        if len(rows) == BATCH:
            ask()
    ask()
    for what, n in sorted(tally.counts.items()):
        print(f"{n:9,} {what}")
    print(f"{done:,} pairs of an expression and a text: {tally.wrong} wrong")
    sys.exit(1 if tally.wrong else 0)


if __name__ == "__main__":
    main()
