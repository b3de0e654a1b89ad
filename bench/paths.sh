#!/usr/bin/env bash
# Times `longest` and `potentials` over a procedure of 20,000 rows, of straight code and of branches (crates/benchmarks/src/paths.rt), by
# processor time. Prints milliseconds for each call, from the least of five runs with one call and of five with eleven; the aim is 100.
set -euo pipefail
here=$(cd "$(dirname "$0")" && pwd)
(cd "$here/../crates/benchmarks" && ../../tools/rt run > /dev/null < /dev/null)
program=$here/../crates/benchmarks/out/benchmarks

# The least processor time of five runs with these WALKS, POTENTIALS and BRANCHES, in seconds.
TIMEFORMAT=%U
least() {
    for _ in 1 2 3 4 5; do
        { time "$program" 0 0 0 0 0 0 0 "$@" < /dev/null > /dev/null; } 2>&1
    done | sort -n | sed -n 1p
}

# The milliseconds of one call, from the times of one and of eleven.
each() { echo "$1 $2" | awk '{ printf "%.0f", ($2 - $1) * 100 }'; }

for branches in 0 1; do
    walks=$(each "$(least 1 0 $branches)" "$(least 11 0 $branches)")
    potentials=$(each "$(least 0 1 $branches)" "$(least 0 11 $branches)")
    echo "$([ $branches = 0 ] && echo straight code || echo branches): longest $walks ms, potentials $potentials ms"
done
