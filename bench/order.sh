#!/usr/bin/env bash
# Times `order` over 65,535 calls between 1,024 procedures, without a cycle and with one of the last two procedures, by
# processor time. Prints milliseconds for each call of it, the least of five rounds.
set -euo pipefail
here=$(cd "$(dirname "$0")" && pwd)
times=100
(cd "$here/../crates/benchmarks" && ../../tools/rt run > /dev/null < /dev/null)
program=$here/../crates/benchmarks/out/benchmarks

# The least processor time of five runs with these arguments, in milliseconds for each of the calls of `order`.
TIMEFORMAT=%U
milliseconds() {
    for _ in 1 2 3 4 5; do
        { time "$program" 0 "$1" "$2" < /dev/null > /dev/null; } 2>&1
    done | sort -n | awk -v times="$times" 'NR == 1 { printf "%.2f", $1 * 1000 / times }'
}

echo "order: $(milliseconds "$times" 0) ms without a cycle, $(milliseconds 0 "$times") ms with one"
