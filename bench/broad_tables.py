#!/usr/bin/env python3
"""broad_tables.py RESULTS VERSIONS [PERFORMANCE.md]: prints the tables of bench/broad.sh, and puts all but that of each query between the two marks of
PERFORMANCE.md.

RESULTS has the lines of bench/broad.rs, of one pass or of several; each figure is the least of the passes. Cases on which the Rust text selects other nodes
have a table of their own and no part in the ratios to it. What is past an aim is also said on standard error."""
import math
import statistics
import sys

from peers import number, ratio, shown, table

BEGIN, END = "<!-- broad: written by bench/broad.sh -->\n", "<!-- end -->"
FIGURES = ("walk", "before", "run", "checked_table", "checked_plan", "rust", "compile", "parse", "c", "in_turn")
# The aims: the Rust text beside the walk, its parse beside compile, a run beside both checks and the walk, and the walk beside an earlier one.
LEAST_WALK, LEAST_COMPILE, MOST_RUN, MOST_GROWN = 5, 8, 1.03, 1.05
# Characters of a query that a table shows.
LONGEST = 60


class Case:
    def __init__(self, words):
        self.group, self.document, self.nodes, self.query, self.selected, same = words[:6]
        self.same = same == "same"
        for name, word in zip(FIGURES, words[6:]):
            setattr(self, name, None if word == "-" else float(word))

    def lower(self, other):
        """Takes the figures of another pass that are less."""
        for name in FIGURES:
            if getattr(self, name) is not None:
                setattr(self, name, min(getattr(self, name), getattr(other, name)))

    @property
    def checks(self):
        return self.checked_table + self.checked_plan

    @property
    def added(self):
        """A run beside what it is made of, each by itself."""
        return self.run / (self.checks + self.walk)

    @property
    def joined(self):
        """A run beside what it is made of, one behind the other."""
        return self.run / self.in_turn


def read(name):
    """The cases, in their order."""
    cases = {}
    with open(name) as f:
        for line in f.read().splitlines():
            case = Case(line.split("\t"))
            key = case.group, case.document, case.query
            if key in cases:
                cases[key].lower(case)
            else:
                cases[key] = case
    return list(cases.values())


def mean(values):
    """The geometric mean."""
    return math.exp(statistics.fmean(map(math.log, values)))


def spread(values):
    """Least, median, greatest and geometric mean."""
    return [ratio(x) for x in (min(values), statistics.median(values), max(values), mean(values))]


def groups(cases):
    """Each group's cases, and all."""
    names = dict.fromkeys(c.group for c in cases)
    return [(name, [c for c in cases if c.group == name]) for name in names] + [("all", cases)]


def walk_table(cases):
    rows = [[name, str(len(cs))] + spread([c.rust / c.walk for c in cs]) for name, cs in groups(cases)]
    return ["### The Rust text divided by the walk", ""] + table(["group", "queries", "least", "median", "greatest", "geometric mean"], rows)


def run_table(cases):
    rows = []
    for name, cs in groups(cases):
        ours, bare = [c.rust / c.run for c in cs], [c.rust / c.checks for c in cs]
        made = [f"{f(values):.3f}" for values in ([c.added for c in cs], [c.joined for c in cs]) for f in (mean, max)]
        rows.append([name, ratio(min(ours)), ratio(mean(ours)), ratio(mean(bare))] + made)
    head = ["group", "Rust / run, least", "geometric mean", "with a walk of no time", "run / (checks and walk), mean", "greatest", "the three in turn, mean", "greatest"]
    return ["### Whole runs", ""] + table(head, rows)


def compile_table(cases):
    rows = [[name] + spread([c.parse / c.compile for c in cs]) for name, cs in groups(cases)]
    return ["### The Rust text's parse divided by compile", ""] + table(["group", "least", "median", "greatest", "geometric mean"], rows)


def before_table(cases):
    cases = [c for c in cases if c.before]
    if not cases:
        return []
    rows = [[name] + spread([c.walk / c.before for c in cs]) for name, cs in groups(cases)]
    return ["### The walk divided by the earlier walk", ""] + table(["group", "least", "median", "greatest", "geometric mean"], rows)


def hand_table(cases):
    cases = [c for c in cases if c.c]
    if not cases:
        return []
    rows = [[name] + spread([c.walk / c.c for c in cs]) for name, cs in groups(cases)]
    return ["### The walk divided by the C by hand", ""] + table(["group", "least", "median", "greatest", "geometric mean"], rows)


def cut(query):
    return shown(query if len(query) <= LONGEST else query[:LONGEST // 2] + ".." + query[-LONGEST // 2:])


def times(case, with_before):
    return [number(x) for x in ([case.before] if with_before else []) + [case.walk, case.run, case.rust]]


def query_table(cases, last):
    """A line for each case, with the ratio to the Rust text where it is asked for."""
    with_before = any(c.before for c in cases)
    head = ["document", "nodes", "query", "selected"] + ["earlier walk"] * with_before + ["walk", "run", "Rust"] + ["Rust / walk"] * last
    rows = [[c.document, f"{int(c.nodes):,}", cut(c.query), f"{int(c.selected):,}"] + times(c, with_before) + [ratio(c.rust / c.walk)] * last for c in cases]
    return table(head, rows)


def each_table(cases):
    out = ["### Each query, ns", ""]
    for name, cs in groups(cases)[:-1]:
        out += [f"#### {name[0].upper()}{name[1:]}", ""] + query_table(cs, True)
    return out


def below_table(cases):
    below = sorted((c for c in cases if c.rust / c.walk < LEAST_WALK), key=lambda c: c.rust / c.walk)
    return [f"### Queries below {LEAST_WALK}, ns", ""] + query_table(below, True)


def other_table(cases):
    return ["### Where the Rust text selects other nodes, ns", ""] + query_table(cases, False)


def said(cases, what, value, past):
    """The cases past an aim, in words."""
    found = [(value(c), c) for c in cases if past(value(c))]
    print(f"{what}: {len(found)} of {len(cases)} cases", file=sys.stderr)
    for x, c in sorted(found, key=lambda pair: pair[0]):
        print(f"  {x:.2f}  {cut(c.query)} on {c.document}", file=sys.stderr)


def say_aims(cases, same):
    said(same, f"Rust / walk below {LEAST_WALK}", lambda c: c.rust / c.walk, lambda x: x < LEAST_WALK)
    said(same, f"parse / compile below {LEAST_COMPILE}", lambda c: c.parse / c.compile, lambda x: x < LEAST_COMPILE)
    said(cases, f"run / (checks and walk) above {MOST_RUN}", lambda c: c.added, lambda x: x > MOST_RUN)
    said(cases, f"run / (checks and walk in turn) above {MOST_RUN}", lambda c: c.joined, lambda x: x > MOST_RUN)
    said([c for c in cases if c.before], f"walk / earlier walk above {MOST_GROWN}", lambda c: c.walk / c.before, lambda x: x > MOST_GROWN)


def put(name, out):
    """Puts lines between the two marks of a file."""
    with open(name) as d:
        head, rest = d.read().split(BEGIN)
    with open(name, "w") as d:
        d.write(head + BEGIN + "\n" + "\n".join(out) + "\n" + END + rest.split(END, 1)[1])


def main():
    cases = read(sys.argv[1])
    same, other = [c for c in cases if c.same], [c for c in cases if not c.same]
    with open(sys.argv[2]) as v:
        out = ["Measured with:", ""] + ["- " + line for line in v.read().splitlines()] + [""]
    out += walk_table(same) + before_table(cases) + hand_table(cases) + run_table(same) + compile_table(same)
    print("\n".join(out + each_table(same) + other_table(other)))
    say_aims(cases, same)
    if len(sys.argv) > 3:
        put(sys.argv[3], out + below_table(same) + other_table(other))


if __name__ == "__main__":
    main()
