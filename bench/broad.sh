#!/usr/bin/env bash
# Measures this engine beside the given Rust text on the broad set of bench/broad.py: every selector, operator, kind of operand, function and nesting, over
# documents of many shapes. It prints the figures of each query and, by group, the ratios to the Rust text.
#
#   ORACLE=DIR bench/broad.sh WORK [PERFORMANCE.md]
#
# ORACLE  names the folder in which cargo built the given Rust text, as for bench/run.sh.
# WORK    is a scratch directory; results.tsv in it keeps every figure of every pass, and tables.md what is printed.
# PERFORMANCE.md, where it is given, gets the tables between the marks of the broad set, without that of each query.
# PEERS   may name the folder of the peers' programs: the C by hand in flat.c is then timed too, on the queries that it has.
# BEFORE  may name an archive of the library `eval_measured` of an earlier source: its walk is then timed too, and must select the same nodes.
# ROUNDS  is 25 unless set, and PASSES 3; a pass takes half a minute. Nothing else should run meanwhile. The program is held to the last processor.
# The archives are those of bin/archive, for the machine at hand.
set -euo pipefail
: "${ORACLE:?names the folder in which the Rust text was built}"
[ $# -ge 1 ] || { sed -n '2,14p' "$0" >&2; exit 2; }
mkdir -p "$1/docs"
work=$(cd "$1" && pwd)
performance=${2:+$(realpath "$2")}
before=${BEFORE:+$(realpath "$BEFORE")}
peers=${PEERS:+$(realpath "$PEERS")}
built=$(realpath "$ORACLE")/target/release
cd "$(dirname "$0")/.."

bin/archive "$work"
bin/archive --crate eval_measured "$work"
python3 -B bench/broad.py "$work/docs"
options=(-C "link-arg=$work/libstewpebble.a" -C "link-arg=$work/libeval_measured.a")
if [ -n "$before" ]; then
    objcopy --redefine-sym stewpebble_walk=stewpebble_walk_before "$before" "$work/libbefore.a"
    options+=(--cfg before -C "link-arg=$work/libbefore.a")
fi
if [ -n "$peers" ]; then
    gcc -O3 -I "$peers" -c -o "$work/flat.o" bench/broad_flat.c
    options+=(--cfg flat -C "link-arg=$work/flat.o")
fi
rustc -O --edition 2021 --check-cfg 'cfg(before, flat)' -o "$work/broad" bench/broad.rs \
    --extern rustoracle="$built/librustoracle.rlib" -L dependency="$built/deps" "${options[@]}"

load() { cut -d' ' -f1-3 /proc/loadavg; }
{
    echo "processor: $(lscpu | sed -n 's/^Model name: *//p' | head -n 1), $(uname -m)"
    rustc --version
    gcc --version | head -n 1
    echo "load before: $(load)"
} >"$work/versions"
: >"$work/results.tsv"
for pass in $(seq "${PASSES:-3}"); do
    taskset -c $(($(nproc) - 1)) "$work/broad" "$work/docs" "${ROUNDS:-25}" >>"$work/results.tsv"
    echo "load after pass $pass: $(load)" >>"$work/versions"
done
python3 -B bench/broad_tables.py "$work/results.tsv" "$work/versions" ${performance:+"$performance"} | tee "$work/tables.md"
