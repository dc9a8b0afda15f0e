#!/usr/bin/env python3
"""peers.py QUERIES RESULTS VERSIONS PERFORMANCE.md: puts the tables of bench/peers.sh between the two marks of PERFORMANCE.md.

RESULTS has the lines of every pass: engine, nodes, query, nodes selected, what was timed, ns, rounds. Each figure is the least of its passes
that is above 0: a machine that is shared has passes at less than its full speed, and the least are at one speed for all engines.
It stops where two engines select another number of nodes."""
import statistics
import sys

BEGIN, END = "<!-- peers: written by bench/peers.sh -->\n", "<!-- end -->"
# On a larger table what this query takes is too short beside the table check to be had as a difference.
SHORT = "one"


def read_queries(name):
    """Each query's name and text."""
    with open(name) as f:
        return [line.split("\t")[:2] for line in f.read().splitlines()[1:]]


class Figures:
    def __init__(self, name):
        passes, self.selected = {}, {}
        with open(name) as f:
            for line in f.read().splitlines():
                engine, nodes, query, selected, what, ns, _ = line.split("\t")
                passes.setdefault((engine, int(nodes), query, what), []).append(float(ns))
                if self.selected.setdefault((int(nodes), query), selected) != selected:
                    sys.exit(f"{engine} selects {selected} nodes, not {self.selected[int(nodes), query]}: {query}, {nodes} nodes")
        self.value = {k: min((x for x in v if x > 0), default=0.0) for k, v in passes.items()}
        self.spread = {k: max(v) / min(v) for k, v in passes.items() if min(v) > 0}
        self.sizes = sorted({k[1] for k in self.value})

    def rust(self, nodes, query):
        return self.value["rust", nodes, query, "eval"]

    def c(self, nodes, query):
        return self.value["c", nodes, query, "eval"]

    def ours(self, nodes, query, what):
        return self.value["ours", nodes, query, what]

    def less(self, nodes, query):
        """A run less both checks, where this says something."""
        value = self.ours(nodes, query, "less")
        return number(value) if value > 0 and (query != SHORT or nodes == self.sizes[0]) else "-"


def number(x):
    if x < 100:
        return f"{x:.1f}"
    digits = max(0, len(str(int(x))) - 3)
    return f"{round(x / 10 ** digits) * 10 ** digits:,}"


def ratio(x):
    return f"{x:.2g}" if x < 0.1 else f"{x:.2f}" if x < 10 else f"{x:,.0f}"


def row(cells):
    return "| " + " | ".join(cells) + " |"


def table(head, rows):
    return [row(head), "|" + "---|" * len(head)] + [row(r) for r in rows] + [""]


def shown(text):
    return "`" + text.replace("|", "\\|") + "`"


def size_table(f, queries, nodes):
    rows = []
    for name, text in queries:
        rust, c = f.rust(nodes, name), f.c(nodes, name)
        walk, run, select = (f.ours(nodes, name, what) for what in ("walk", "run", "select"))
        rows.append([shown(text), f"{int(f.selected[nodes, name]):,}", number(rust), number(c), number(walk), f.less(nodes, name), number(run),
                     number(select), ratio(rust / walk), ratio(walk / c), ratio(rust / run)])
    head = ["query", "selected", "Rust module", "C, flat table", "ours: walk", "run less checks", "ours: whole run", "ours: select", "Rust / walk", "walk / C", "Rust / run"]
    return [f"### {nodes:,} nodes", ""] + table(head, rows)


def check_table(f):
    checks = ("check", "check, tuned", "check, shape only", "memory pass, 8 sums")
    rows = []
    for nodes in f.sizes:
        ours, theirs = f.ours(nodes, "check", "table"), [f.c(nodes, name) for name in checks]
        rows.append([f"{nodes:,}", f"{ours / nodes:.2f}"] + [f"{x / nodes:.2f}" for x in theirs] + [ratio(ours / theirs[0]), ratio(ours / theirs[1])])
    head = ["nodes", "ours", "C", "C, tuned", "C, shape only", "bare pass", "ours / C", "ours / C, tuned"]
    return ["### Table check, ns a node", ""] + table(head, rows)


def query_table(f, queries):
    rows = []
    for name, text in queries:
        least = f.sizes[0]
        rust = f.value["rust", least, name, "both"] - f.rust(least, name)
        compiled, checked = (statistics.median(f.ours(n, name, what) for n in f.sizes) for what in ("compile", "plan"))
        rows.append([shown(text), number(rust), number(compiled), number(checked), ratio(rust / compiled)])
    return ["### Compile and plan check, ns", ""] + table(["query", "Rust module: compile", "ours: compile", "ours: plan check", "Rust / ours"], rows)


def spread_row(title, values):
    values = sorted(values)
    return [title, f"{statistics.median(values):.3f}", f"{values[-1]:.2f}"] if values else [title, "-", "-"]


def spreads(f):
    rows = []
    for engine, title in (("rust", "Rust module"), ("c", "C, flat table"), ("ours", "ours, but the run less checks")):
        rows.append(spread_row(title, [x for k, x in f.spread.items() if k[0] == engine and k[3] != "less"]))
    rows.append(spread_row("ours, the run less checks", [x for k, x in f.spread.items() if k[3] == "less" and (k[2] != SHORT or k[1] == f.sizes[0])]))
    return ["### Spread", "", "Greatest over least of the passes, over all figures of an engine.", ""] + table(["", "median", "worst"], rows)


def main():
    queries, f = read_queries(sys.argv[1]), Figures(sys.argv[2])
    with open(sys.argv[3]) as v:
        out = ["Measured with:", ""] + ["- " + line for line in v.read().splitlines()] + [""]
    out += ["![Times of other engines and of this one, as ratios to the Rust module](performance.svg)", ""]
    for nodes in f.sizes:
        out += size_table(f, queries, nodes)
    out += check_table(f) + query_table(f, queries) + spreads(f)
    with open(sys.argv[4]) as d:
        head, rest = d.read().split(BEGIN)
    with open(sys.argv[4], "w") as d:
        d.write(head + BEGIN + "\n" + "\n".join(out) + "\n" + END + rest.split(END, 1)[1])


if __name__ == "__main__":
    main()
