#!/usr/bin/env bash
# Measures the table check, the stack of the deepest runs and the growth of hostile queries and, where ORACLE names the folder in which cargo built the given
# Rust text (as for differential/run.sh), compile beside that text's parse. The archive is that of bin/archive, for the machine at hand.
set -euo pipefail
cd "$(dirname "$0")/.."
mkdir -p target/bench
archive=$(bin/archive)
cc -O2 -Wall -o target/bench/table_check bench/table_check.c "$archive"
target/bench/table_check
cc -O2 -Wall -pthread -o target/bench/stack bench/stack.c "$archive"
target/bench/stack
cc -O2 -Wall -o target/bench/hostile bench/hostile.c "$archive"
target/bench/hostile
if [ -n "${ORACLE:-}" ]; then
    built=$ORACLE/target/release
    rustc -O --edition 2021 -o target/bench/compile bench/compile.rs \
        --extern rustoracle="$built/librustoracle.rlib" -L dependency="$built/deps" -C link-arg="$archive"
    target/bench/compile
fi
