#!/usr/bin/env bash
# Proves the named crates and all that they need, and shows on one line how far it is: how many crates of how many, the time, and what is being proved.
#
#   tools/prove.sh NAME...
#   tools/prove.sh --needed NAME...      only lists them, one to a line
#
# It writes to standard error alone. What the prover prints is kept in target/prove.log. Of a program among the named crates it makes crates/NAME/out/NAME, and runs it
# on no input; `rt ci` runs each on its stored input.
set -euo pipefail
cd "$(dirname "$0")/.."
source tools/progress.sh
[ $# -gt 0 ] || { sed -n '2,8p' "$0" >&2; exit 2; }

# The named crates and the crates of this repository that they need, one to a line.
needed() {
    awk -v wanted="$*" '
        function visit(name,    parts, count, i) {
            if (!(name in needs) || name in seen) return
            seen[name] = 1
            count = split(needs[name], parts, " ")
            for (i = 1; i <= count; i++) visit(parts[i])
            print name
        }
        { sub(/#.*/, "") }
        /:/ { at = index($0, ":"); name = substr($0, 1, at - 1); sub(/ .*/, "", name); needs[name] = substr($0, at + 1) }
        END { count = split(wanted, names, " "); for (i = 1; i <= count; i++) visit(names[i]) }' crates.txt
}

if [ "$1" = --needed ]; then
    shift
    needed "$@"
    exit
fi
command -v rt >/dev/null || { echo "The Rattle toolchain is needed, and there is no rt on the PATH." >&2; exit 2; }
mkdir -p target
log=target/prove.log
for name in "$@"; do [ -d "crates/$name" ] || { echo "There is no crate $name." >&2; exit 2; }; done

crates=$(needed "$@")
total=$(wc -l <<<"$crates")
# What was never proved in this clone; what has changed since is found by rt.
missing=0
for crate in $crates; do [ -d "crates/$crate/out" ] || missing=$((missing + 1)); done
if [ "$missing" -gt 0 ]; then
    echo "$missing of $total crates are to be proved first. From nothing this takes long (README.md); when nothing has changed, some seconds." >&2
    echo "The prover's log is $log." >&2
fi

# Each crate by `rt check` in its folder, which proves first what it needs, and a program by `rt run`, which builds it too.
prove() {
    local name verb
    for name in "$@"; do
        verb=check
        [ ! -f "crates/$name/src/main.rt" ] || verb=run
        (cd "crates/$name" && rt $verb) || return
    done
}

# rt takes what a crate needs in the order of `needed`, and names each that it proves anew.
progress() {
    local proving before
    proving=$(sed -n 's/^rt: chose --jobs [0-9]* for //p' "$log" | tail -n 1)
    before=$(grep -nx "${proving:-.}" <<<"$crates" | head -n 1 | cut -d: -f1) || before=
    if [ -n "$before" ]; then
        line "$((before - 1)) of $total crates, $(minutes $SECONDS), proving $proving"
    else
        line "$total crates, $(minutes $SECONDS), reading them"
    fi
}

status=0
watched "$log" prove "$@" || status=$?
if [ $status -ne 0 ]; then
    grep -E '(^|: )error|: not proved|: no proof|^rt: ' "$log" | grep -vE '^rt: (chose|.*: begins with)' | awk 'NR <= 10 { print substr($0, 1, 240) }' >&2 || tail -n 5 "$log" >&2
    echo "Not proved. The whole log is $log." >&2
elif [ $SECONDS -ge 5 ]; then
    echo "$total crates are proved, in $(minutes $SECONDS)." >&2
fi
exit $status
