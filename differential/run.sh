#!/usr/bin/env bash
# Calls every function of the C boundary, compares compile, select and run with the given Rust text on random queries and documents, and match and search with Python.
#
#   differential/run.sh calls                                 the calls of the C boundary alone
#   differential/run.sh paths [COUNT [SEED]]                  paths of nodes of random tables, compiled and run; the same for COUNT and SEED
#   differential/run.sh regexps [COUNT [SEED]]                match and search on random expressions and texts, beside tools/regexps.py and Python's re; the same
#   ORACLE=DIR differential/run.sh [COUNT [SEED]]             compile, on random and damaged queries; COUNT is 1000000 and SEED is 1 where they are not given
#   ORACLE=DIR differential/run.sh select [COUNT [SEED]]      select and run, on random documents; the same for COUNT and SEED
#   ORACLE=DIR differential/run.sh vectors                    some of the queries with their refusals, as crates/compile_vectors reads them
#   ORACLE=DIR differential/run.sh select-vectors             some of the queries on small documents with their nodes, as crates/select_vectors reads them
#
# ORACLE names the folder in which cargo built the given Rust text as the library `rustoracle` (docs/DIFFERENCES.md, "How the Rust column was obtained").
# The archive is that of bin/archive, for the machine at hand.
set -euo pipefail
cd "$(dirname "$0")/.."
[ "${1:-}" = calls ] || [ "${1:-}" = paths ] || [ "${1:-}" = regexps ] || : "${ORACLE:?names the folder of the built Rust text}"
mkdir -p target/differential
archive=$(bin/archive)
cc -O2 -Wall -Wextra -Werror -o target/differential/calls differential/calls.c "$archive"
target/differential/calls >&2
[ "${1:-}" != calls ] || exit 0
if [ "${1:-}" = paths ]; then
    cc -O2 -Wall -Wextra -Werror -o target/differential/paths differential/paths.c "$archive"
    target/differential/paths "${2:-1000000}" "${3:-1}"
    exit
fi
if [ "${1:-}" = regexps ]; then
    python3 differential/regexps.py "${2:-1000000}" "${3:-1}"
    exit
fi
built=$ORACLE/target/release
if [ "${1:-}" = select ] || [ "${1:-}" = select-vectors ]; then
    rustc -O --edition 2021 --crate-type rlib --crate-name stewpebble --out-dir target/differential rust/src/lib.rs
    rustc -O --edition 2021 -o target/differential/select differential/select.rs \
        --extern rustoracle="$built/librustoracle.rlib" -L "$built/deps" -L target/differential -C link-arg="$archive"
    if [ "$1" = select ]; then
        target/differential/select "${2:-1000000}" "${3:-1}"
        exit
    fi
    cd crates/select_vectors
    ../../target/differential/select 100000 1 sample 1 >stdin
    awk '{ printf $5 == 0 ? "ok" : "refused " $5; for (i = 6; i <= NF; i++) printf " " $i; print "" } END { print NR " cases, 0 answers differ" }' stdin >stdout
    exit
fi
rustc -O --edition 2021 -o target/differential/compile differential/compile.rs \
    --extern rustoracle="$built/librustoracle.rlib" -L dependency="$built/deps" -C link-arg="$archive"
if [ "${1:-}" = vectors ]; then
    cd crates/compile_vectors
    ../../target/differential/compile 300000 1 sample 660 >stdin
    awk '{ print $2 == 0 ? "ok" : "refused " $2 } END { print NR " queries, 0 answers differ" }' stdin >stdout
else
    target/differential/compile "${1:-1000000}" "${2:-1}"
fi
