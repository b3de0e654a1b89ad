#!/usr/bin/env bash
# Times calls of `successors` at all documented codes from random states, by processor time, in turns with libz80ex's mixed
# loop (apt-get install libz80ex-dev). Prints the calls a second, the least of five rounds, and what that is on a core that
# runs the mixed loop at 50 million events a second: the aim is 2,000,000.
set -euo pipefail
here=$(cd "$(dirname "$0")" && pwd)
calls=${1:-20000000}
events=50000000
work=$(mktemp -d)
trap 'rm -rf "$work"' EXIT
cc -O2 -o "$work/libz80ex" "$here/libz80ex.c" -lz80ex
python3 "$here/roms.py" "$work"
(cd "$here/../crates/benchmarks" && ../../tools/rt run > /dev/null < /dev/null)
ours=$here/../crates/benchmarks/out/benchmarks
theirs=$work/libz80ex

# The processor time of a command, in seconds.
TIMEFORMAT=%U
seconds() { { time "$@" < /dev/null > /dev/null; } 2>&1; }

for _ in 1 2 3 4 5; do
    seconds "$ours" 0 0 0 "$calls" >> "$work/ours"
    seconds "$theirs" "$work/mixed.rom" "$events" >> "$work/theirs"
done
least() { sort -n "$1" | head -1; }
"$ours" 0 0 0 "$calls" < /dev/null | head -1
echo "$(least "$work/ours") $(least "$work/theirs") $calls $events" | awk '{
    printf "successors %.1f ns a call, libz80ex %.1f ns an event\n", $1 * 1e9 / $3, $2 * 1e9 / $4
    printf "%.2f million calls a second, %.2f million at 50 million events\n", $3 / $1 / 1e6, $3 / $1 / 1e6 * 50e6 * $2 / $4 }'
