#!/usr/bin/env bash
# Measures this engine beside the given Rust text and beside C by hand, on the documents and queries on which other engines were measured, and writes the
# tables of docs/PERFORMANCE.md and the plot docs/performance.svg anew.
#
#   PEERS=DIR bench/peers.sh WORK [DOCS]
#
# PEERS  names the folder of the peers' programs and figures: gen.py, flat.c, peers.rs, queries.tsv, PEERS.md. Beside it lie rust-oracle and docs/src, from
#        which the Rust text is built, as the peers' own script does.
# WORK   is a scratch directory; results.tsv in it keeps every figure of every pass.
# DOCS   is the folder of PERFORMANCE.md and of the plot, docs unless given.
# PASSES is 3 unless set; a pass takes some three minutes. Nothing else should run meanwhile. Every program is held to the last processor.
# The archives are those of bin/archive, for the machine at hand.
set -euo pipefail
: "${PEERS:?names the folder of the programs of the peers}"
[ $# -ge 1 ] || { sed -n '2,12p' "$0" >&2; exit 2; }
mkdir -p "$1"
work=$(cd "$1" && pwd)
peers=$(cd "$PEERS" && pwd)
docs=$(cd "${2:-$(dirname "$0")/../docs}" && pwd)
cd "$(dirname "$0")/.."
sizes='16 166 1666 10833' # rows; a table has 2 + 6 * rows nodes

bin/archive "$work"
bin/archive --crate eval_measured "$work"
mkdir -p "$work/docs" "$work/rust/docs"
python3 "$peers/gen.py" "$work/docs" $sizes
# The Rust text: its own build, with the peers' program in place of its bench.
rm -rf "$work/rust/rust-oracle" "$work/rust/docs/src"
cp -r "$peers/../rust-oracle" "$work/rust/"
cp -r "$peers/../docs/src" "$work/rust/docs/"
chmod -R u+w "$work/rust"
cp "$peers/peers.rs" "$work/rust/rust-oracle/src/bench.rs"
"$work/rust/rust-oracle/build" "$work/rust/build" >"$work/rust/log" 2>&1 || { cat "$work/rust/log"; exit 1; }
gcc -O3 -o "$work/flat" "$peers/flat.c"
cc -O2 -Wall -o "$work/peers" bench/peers.c "$work/libstewpebble.a" "$work/libeval_measured.a"

load() { cut -d' ' -f1-3 /proc/loadavg; }
{
    echo "processor: $(lscpu | sed -n 's/^Model name: *//p' | head -n 1), $(uname -m)"
    rustc --version
    gcc --version | head -n 1
    echo "load before: $(load)"
} >"$work/versions"
pin="taskset -c $(($(nproc) - 1))"
: >"$work/results.tsv"
for pass in $(seq "${PASSES:-3}"); do
    $pin "$work/rust/build/target/release/bench" "$peers/queries.tsv" "$work/docs" $sizes
    $pin "$work/flat" bench "$work/docs" $sizes
    $pin "$work/peers" "$peers/queries.tsv" "$work/docs" $sizes
    echo "load after pass $pass: $(load)" >>"$work/versions"
done >>"$work/results.tsv"
python3 -B bench/peers.py "$peers/queries.tsv" "$work/results.tsv" "$work/versions" "$docs/PERFORMANCE.md"
python3 -B bench/plot.py "$peers/queries.tsv" "$work/results.tsv" "$peers/PEERS.md" "$docs/performance.svg"
