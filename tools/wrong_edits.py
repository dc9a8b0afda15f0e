#!/usr/bin/env python3
"""Tries wrong edits of the definition, and tells which of them its examples and laws refuse, with no crate of code.

    python3 tools/wrong_edits.py [--results FILE] [MODULE | NUMBER ..]

tools/wrong_edits.txt has the edits, under the module of crates/definition/specs that each is of. Every edit is made in a copy of the crates below, of
which each must then still be proved: the definition, its examples, and the laws above it. The copy is checked in steps, the quick ones first, and an
edit is given up at the first place that refuses it. With module names or numbers only those edits are tried. With --results every outcome is written
to the file as it comes, and an edit that the file already has as refused is not tried again.

Last come the edits that nothing refuses: those of which wrong_edits.txt gives a reason, and the others, for which a row or a law is missing. The script
fails where there is one of the others, where less than 95 of 100 edits are refused, or where an edit is no edit at all: its old text is not in the file
exactly once, or the definition alone does not check with it.
"""
import os, re, shutil, subprocess, sys, tempfile

ROOT = os.path.dirname(os.path.dirname(os.path.abspath(__file__)))
SPECS = "crates/definition/specs"
EXAMPLES = "crates/definition_examples/specs"
# the module of the examples that is to refuse an edit of a module of the definition first
FIRST = {
    "Limits": "Limits", "Utf8": "Classes", "Brackets": "Refusals", "Lexical": "Classes", "Literals": "Numbers", "Slices": "Rows", "Tables": "Cases",
    "Forms": "Points", "QueryForms": "Rights", "Walk": "Points", "Compare": "Cases", "Evaluation": "Cases", "Selecting": "Cases", "Outcomes": "Examples",
    "Plans": "Points", "Paths": "Paths",
}
# the module of the examples that takes longest, and comes last
SLOW = "Deep"
CRATES = ("definition_examples", "definition_standards", "definition_laws")


def edits():
    """(number, module, old, new, the reason why nothing can tell or None) of each edit."""
    found, module = [], None
    with open(os.path.join(ROOT, "tools/wrong_edits.txt"), encoding="utf-8") as lines:
        for line in lines:
            line = line.rstrip("\n")
            if line.startswith("["):
                module = line[1:-1]
            elif line.startswith("? "):
                found[-1] = found[-1][:4] + (line[2:],)
            elif line and not line.startswith("#"):
                old, new = line.split(" => ")
                found.append((len(found) + 1, module, old, new, None))
    return found


def needed(listed):
    """The crates of the steps and all that they depend on, as lines of crates.txt."""
    below, todo = {}, list(CRATES)
    while todo:
        c = todo.pop()
        if c not in below and c in listed:
            below[c] = listed[c]
            todo += listed[c]
    return below


def copy(where):
    with open(os.path.join(ROOT, "crates.txt"), encoding="utf-8") as lines:
        listed = {m[1]: m[2].split() for m in (re.match(r"(\w+):(.*)", line) for line in lines) if m}
    crates = needed(listed)
    for c in crates:
        for part in ("src", "specs", "proofs"):
            if os.path.isdir(os.path.join(ROOT, "crates", c, part)):
                shutil.copytree(os.path.join(ROOT, "crates", c, part), os.path.join(where, "crates", c, part))
    with open(os.path.join(where, "crates.txt"), "w", encoding="utf-8") as out:
        out.writelines(f"{c}: {' '.join(deps)}\n" for c, deps in crates.items())


def read(path):
    with open(path, encoding="utf-8") as f:
        return f.read()


def write(path, text):
    with open(path, "w", encoding="utf-8") as f:
        f.write(text)


def below(modules):
    """Modules of the examples, with those that they use."""
    all_of, todo = set(), list(modules)
    while todo:
        module = todo.pop()
        if module not in all_of:
            all_of.add(module)
            todo += re.findall(r"^use Rattle\.definition_examples\.specs\.(\w+)", read(os.path.join(ROOT, EXAMPLES, module + ".antt")), re.M)
    return all_of


def keep(where, modules):
    """Has these modules of the examples in the copy, and no others: their files of specs/, and of proofs/ where they have some there."""
    for part in (EXAMPLES, EXAMPLES.replace("specs", "proofs")):
        if not os.path.exists(os.path.join(ROOT, part, "Lib.antt")):
            continue
        lines = read(os.path.join(ROOT, part, "Lib.antt")).splitlines()
        for module in (line[len("pub mod "):] for line in lines):
            file = os.path.join(part, module + ".antt")
            if module in modules:
                shutil.copy(os.path.join(ROOT, file), os.path.join(where, file))
            elif os.path.exists(os.path.join(where, file)):
                os.remove(os.path.join(where, file))
        write(os.path.join(where, part, "Lib.antt"), "".join(f"{line}\n" for line in lines if line[len("pub mod "):] in modules))


def check(where, crate):
    """The first place that refuses a crate of the copy or one below it, as CRATE/FILE:LINE, or None."""
    ran = subprocess.run(["rt", "check"], cwd=os.path.join(where, "crates", crate), stdout=subprocess.PIPE, stderr=subprocess.STDOUT, text=True)
    if not ran.returncode:
        return None
    for line in ran.stdout.splitlines():
        # rt names the crate whose turn it is, and then the files by their place in it
        begun = re.match(r"rt: chose --jobs \d+ for (\w+)", line)
        place = re.match(r"(?:\S*/crates/(\w+)/|\./)?((?:src|specs|proofs)/\S*?:\d+)\S*: error", line)
        if place:
            return f"{place[1] or crate}/{place[2]}"
        crate = begun[1] if begun else crate
    return ran.stdout.strip().splitlines()[-1]


def refused_by(where, module):
    """The first place that refuses the copy with an edit of a module, or None."""
    every = {line[len("pub mod "):] for line in read(os.path.join(ROOT, EXAMPLES, "Lib.antt")).splitlines()}
    steps = (
        (below([FIRST[module]]), ["definition_examples"]),
        (every - {SLOW}, ["definition_examples"]),
        (every - {SLOW}, ["definition_standards", "definition_laws"]),
        (every, ["definition_examples"]),
    )
    for modules, crates in steps:
        keep(where, modules)
        for crate in crates:
            place = check(where, crate)
            if place:
                return place
    return None


def attempt(where, module, old, new):
    """What becomes of an edit: refused, survived or bad, and where."""
    file = os.path.join(where, SPECS, module + ".antt")
    text = read(file)
    if text.count(old) != 1:
        return "bad", f"the old text is there {text.count(old)} times"
    write(file, text.replace(old, new))
    try:
        place = refused_by(where, module)
    finally:
        write(file, text)
    if place is None:
        return "survived", ""
    return ("bad", "the definition alone does not check: " + place) if place.startswith("definition/") else ("refused", place)


def before(path):
    """The outcomes of a file of results, by the edit's module, old and new text."""
    kept = {}
    if path and os.path.exists(path):
        for line in read(path).splitlines():
            outcome, place, module, old, new = line.split("\t")
            kept[module, old, new] = outcome, place
    return kept


def main(words):
    path = words[words.index("--results") + 1] if "--results" in words else None
    chosen = [w for i, w in enumerate(words) if w != "--results" and (i == 0 or words[i - 1] != "--results")]
    todo = [e for e in edits() if not chosen or e[1] in chosen or str(e[0]) in chosen]
    kept, outcomes = before(path), []
    with tempfile.TemporaryDirectory() as where:
        copy(where)
        for number, module, old, new, reason in todo:
            outcome, place = kept.get((module, old, new), ("", ""))
            if outcome != "refused":
                outcome, place = attempt(where, module, old, new)
                if path:
                    with open(path, "a", encoding="utf-8") as out:
                        out.write("\t".join((outcome, place, module, old, new)) + "\n")
            outcomes.append((outcome, number, module, old, new, reason))
            print(f"{number} {module}: {outcome} {place}", flush=True)
    refused = sum(o[0] == "refused" for o in outcomes)
    print(f"\n{refused} of {len(outcomes)} wrong edits refused")
    for outcome, number, module, old, new, reason in outcomes:
        if outcome != "refused":
            print(f"{outcome}: {number} {module}: {old} => {new}\n    {reason or 'no reason is given'}")
    open_ends = [o for o in outcomes if o[0] == "bad" or o[0] == "survived" and not o[5]]
    sys.exit(1 if open_ends or 100 * refused < 95 * len(outcomes) else 0)


if __name__ == "__main__":
    main(sys.argv[1:])
