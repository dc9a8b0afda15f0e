#!/usr/bin/env python3
"""plot.py QUERIES RESULTS PEERS.md OUT.svg: the times of other engines and of this one at 9,998 nodes, as ratios to the Rust module's.

A bar begins at 1, the Rust module, on a logarithmic scale: upwards for what takes longer, downwards for what takes less. The other engines' ratios are those
of PEERS.md, to the Rust module as it was measured there; C's and this engine's are those of RESULTS. A plain SVG, with no library."""
import math
import re
import sys

from peers import Figures, read_queries

NODES = 9998
# Columns of PEERS.md, what RESULTS calls the others, and a colour for each: of those that are told apart without red and green.
BARS = [
    ("peer", "jq", "jq", "#56b4e9"),
    ("peer", "PostgreSQL, array", "PostgreSQL", "#0072b2"),
    ("peer", "Jayway", "Jayway", "#cc79a7"),
    ("ours", "run", "this engine, whole run with both checks", "#e69f00"),
    ("ours", "walk", "this engine, walk alone", "#d55e00"),
    ("c", "eval", "C by hand, table checked before", "#999999"),
]
LEFT, TOP, WIDTH, HEIGHT, BOTTOM = 60, 70, 1040, 420, 104
LOW, HIGH = -3, 3  # powers of ten


def peers(name):
    """PEERS.md's ns for each query and column at this size, evaluation alone."""
    with open(name) as f:
        part = f.read().split(f"## {NODES:,} nodes")[1].split("\n## ")[0]
    rows = [[c.strip() for c in re.split(r"(?<!\\)\|", line)[1:-1]] for line in part.splitlines() if line.startswith("|")]
    head, found = rows[0], {}
    for cells in rows[2:]:
        if cells[2] == "evaluate":
            query = cells[0].strip("`").replace("\\|", "|")
            for title, cell in zip(head[3:], cells[3:]):
                if cell != "-":
                    found[query, title] = float(cell.split(" ")[0].replace(",", ""))
    return found


def ratios(queries, figures, given):
    """For each query the ratio of each bar, none where the engine cannot answer it."""
    out = []
    for name, text in queries:
        rust, line = figures.rust(NODES, name), []
        for kind, key, _, _ in BARS:
            if kind == "peer":
                line.append(given[text, key] / given[text, "Rust module"] if (text, key) in given else None)
            else:
                line.append((figures.ours(NODES, name, key) if kind == "ours" else figures.c(NODES, name)) / rust)
        out.append((text, line))
    return out


def y(value):
    power = min(max(math.log10(value), LOW), HIGH)
    return TOP + HEIGHT * (HIGH - power) / (HIGH - LOW)


def text(x, at, words, more=""):
    words = words.replace("&", "&amp;").replace("<", "&lt;").replace(">", "&gt;")
    return f'<text x="{x:.1f}" y="{at:.1f}" {more}>{words}</text>'


def label(ratio):
    return f"{ratio:.0f}" if ratio >= 9.95 else f"{ratio:.1f}" if ratio >= 0.95 else f"{ratio:.2f}" if ratio >= 0.095 else f"{ratio:.3f}".lstrip("0")


def grid():
    out = []
    for power in range(LOW, HIGH + 1):
        at, strong = y(10 ** power), power == 0
        out.append(f'<line x1="{LEFT}" y1="{at:.1f}" x2="{LEFT + WIDTH}" y2="{at:.1f}" stroke="{"#000" if strong else "#ddd"}"/>')
        out.append(text(LEFT - 6, at + 4, f"{10 ** power:g}", 'text-anchor="end"'))
    return out


def bars(all_ratios):
    out, group = [], WIDTH / len(all_ratios)
    wide = group * 0.84 / len(BARS)
    for g, (query, line) in enumerate(all_ratios):
        left = LEFT + g * group + group * 0.08
        for i, value in enumerate(line):
            if value is None or value <= 0:
                continue
            at, (_, _, title, colour) = left + i * wide, BARS[i]
            top, low = min(y(value), y(1)), max(y(value), y(1))
            out.append(f'<rect x="{at:.1f}" y="{top:.1f}" width="{wide - 1:.1f}" height="{max(low - top, 1):.1f}" fill="{colour}"><title>{title}: {value:.3g}</title></rect>')
            out.append(text(at + wide / 2, top - 3 if value >= 1 else low + 10, label(value), 'text-anchor="middle" font-size="8"'))
        turned = f'transform="rotate(-14 {left + group * 0.42:.1f} {TOP + HEIGHT + 34})" text-anchor="middle" font-family="monospace" font-size="10"'
        out.append(text(left + group * 0.42, TOP + HEIGHT + 34, query, turned))
    return out


def legend():
    out, at = [], LEFT
    for _, _, title, colour in BARS:
        out.append(f'<rect x="{at}" y="{TOP - 34}" width="11" height="11" fill="{colour}"/>')
        out.append(text(at + 15, TOP - 24, title))
        at += 30 + round(6.1 * len(title))
    return out


def main():
    queries, figures = read_queries(sys.argv[1]), Figures(sys.argv[2])
    found = ratios(queries, figures, peers(sys.argv[3]))
    title = f"Time of one evaluation at {NODES:,} nodes, as a ratio to the Rust module's (the line at 1); logarithmic"
    size = (LEFT + WIDTH + 30, TOP + HEIGHT + BOTTOM)
    out = [f'<svg xmlns="http://www.w3.org/2000/svg" viewBox="0 0 {size[0]} {size[1]}" font-family="sans-serif" font-size="11">',
           f"<title>{title}</title>", f'<rect width="{size[0]}" height="{size[1]}" fill="#fff"/>', text(LEFT, 22, title, 'font-size="14"')]
    out += legend() + grid() + bars(found)
    foot = "jq, PostgreSQL and Jayway: as measured earlier on another machine, against the Rust module there. No bar: the engine has no such query."
    out += [text(LEFT, size[1] - 18, foot), "</svg>"]
    with open(sys.argv[4], "w") as f:
        f.write("\n".join(out) + "\n")


if __name__ == "__main__":
    main()
