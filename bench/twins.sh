#!/usr/bin/env bash
# Runs the ROMs of examples/ on the runner and, event by event, on the checked step, with random inputs and random resets shortly
# before the vertical blank: bench/twins.sh [EVENTS] [SEED], ten million of each ROM where no count is given. The first call proves
# what crates/benchmarks stands on, which takes minutes. Prints a line for each ROM; the events must agree, with no trap.
set -euo pipefail
here=$(cd "$(dirname "$0")" && pwd)
events=${1:-10000000}
(cd "$here/../crates/benchmarks" && ../../tools/rt run > /dev/null < /dev/null)
for cert in "$here"/../examples/*/*.cert; do
    printf '%s: ' "$(basename "${cert%.cert}")"
    "$here/../crates/benchmarks/out/benchmarks" 0 0 0 0 "$events" 0 0 0 0 0 "${2:-1}" "${cert%.cert}.rom" "$cert" < /dev/null | sed -n 1p
done
