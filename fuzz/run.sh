#!/usr/bin/env bash
# Calls every function of include/stewpebble.h with arbitrary bytes; docs/FUZZING.md says what is checked.
#
#   fuzz/run.sh [ROUNDS [SEED]]      ROUNDS is 1000000 and SEED is 1 where they are not given
#
# ARCHIVE names a built archive of the library. Where it is not set, bin/archive makes it, for the machine at hand.
# Valgrind and Python are used where they are installed.
set -euo pipefail
cd "$(dirname "$0")/.."
rounds=${1:-1000000} seed=${2:-1}
mkdir -p target/fuzz
archive=${ARCHIVE:-$(bin/archive)}
flags="-O2 -g -Wall -Wextra -pthread"
fuzz=target/fuzz/fuzz
cc $flags -o $fuzz fuzz/fuzz.c "$archive"

echo "== random, structured and damaged"
$fuzz random "$rounds" "$seed"
echo "== limits"
$fuzz edges
echo "== all short queries"
$fuzz queries 6
echo "== short plans and changed plans"
$fuzz plans

echo "== the driver under AddressSanitizer and UndefinedBehaviorSanitizer"
cc $flags -fsanitize=address,undefined -fno-sanitize-recover=undefined -o $fuzz-sanitized fuzz/fuzz.c "$archive"
$fuzz-sanitized random $((rounds / 20)) "$seed" | tail -1
$fuzz-sanitized edges | tail -1

if command -v valgrind >/dev/null; then
    echo "== under valgrind"
    valgrind -q --error-exitcode=3 $fuzz random $((rounds / 500)) "$seed" | tail -1
fi

if command -v python3 >/dev/null; then
    echo "== beside tools/reference.py"
    export PYTHONDONTWRITEBYTECODE=1
    $fuzz list-queries 5 | python3 fuzz/compare.py
    $fuzz list-plans 20 | python3 fuzz/compare.py
    $fuzz list-rounds $((rounds / 250)) "$seed" | python3 fuzz/compare.py
fi

echo "== faults that must be found"
cc $flags -c -o target/fuzz/fuzz.o fuzz/fuzz.c
for fault in $(seq 0 22); do
    cc -O1 -Wall -Wextra -DFAULT="$fault" -c -o target/fuzz/faults.o fuzz/faults.c
    cc -pthread -o $fuzz-faults target/fuzz/fuzz.o target/fuzz/faults.o "$archive" \
        -Wl,--wrap=stewpebble_compile,--wrap=stewpebble_check_table,--wrap=stewpebble_select,--wrap=stewpebble_path_of_node
    found=0
    $fuzz-faults random 20000 1 >target/fuzz/faults.log || found=1
    # fault 0 is none
    if [ $found = 0 ] && [ "$fault" != 0 ] || [ $found = 1 ] && [ "$fault" = 0 ]; then
        echo "fault $fault: wrongly told"
        exit 1
    fi
done
echo "22 faults found"
