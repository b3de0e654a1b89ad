#!/usr/bin/env bash
# Times the checked step, the known step and `galcert run` beside Debian's libz80ex (apt-get install libz80ex-dev) on five ROMs
# (bench/roms.py), by processor time, in turns: bench/run.sh [EVENTS] [PROGRAM], 20,000,000 events and ./galcert where none are named.
# First all must leave the same registers, but for bits 5 and 3 of F, and the same RAM. Prints nanoseconds an event, from the least of
# fifteen rounds less the least of fifteen with one event, and the parts of libz80ex's time.
set -euo pipefail
here=$(cd "$(dirname "$0")" && pwd)
events=${1:-20000000}
program=$(realpath "${2:-$here/../galcert}")
work=$(mktemp -d)
trap 'rm -rf "$work"' EXIT
cc -O2 -o "$work/libz80ex" "$here/libz80ex.c" -lz80ex
(cd "$here/../crates/benchmarks" && ../../tools/rt run > /dev/null < /dev/null)
steps=$here/../crates/benchmarks/out/benchmarks
python3 "$here/roms.py" "$work"
cd "$work"

# So many events of a ROM by one of the four.
checked() { "$steps" 0 0 0 0 0 "$2" 0 0 0 0 0 "$1.rom" "$1.cert" < /dev/null; }
known() { "$steps" 0 0 0 0 0 0 "$2" 0 0 0 0 "$1.rom" "$1.cert" < /dev/null; }
run() { "$program" run "$1.rom" "$1.cert" input "$2"; }
libz80ex() { ./libz80ex "$1.rom" "$2"; }

# The registers, without bits 5 and 3 of F, and the sums of the RAMs.
board() {
    "$@" | while read -r line first rest; do
        case $line in
            regs) printf '%04X %s\n' $((0x$first & 0xFFD7)) "$rest" ;;
            sum) echo "$first $rest" ;;
        esac
    done
}

# The processor time of a command, in seconds.
TIMEFORMAT=%U
seconds() { { time "$@" > /dev/null; } 2>&1; }
least() { sort -n "$1" | sed -n 1p; }

for rom in six mixed fill nops random; do
    wanted=$(board libz80ex $rom 100003)
    for way in checked known run; do
        [ "$(board $way $rom 100003)" = "$wanted" ] || { echo "$rom: $way and libz80ex differ" >&2; exit 1; }
    done
    for _ in {1..15}; do
        for way in libz80ex checked known run; do
            seconds $way $rom "$events" >> $way.$rom
            seconds $way $rom 1 >> $way.$rom.none
        done
    done
    for way in libz80ex checked known run; do
        echo "$(least $way.$rom) $(least $way.$rom.none)"
    done | awk -v rom=$rom -v events="$events" '
        { each[NR] = ($1 - $2) * 1e9 / (events - 1) }
        END {
            printf "%-7s libz80ex %.1f ns", rom, each[1]
            printf "; step_checked %.1f ns, %.2f of it", each[2], each[2] / each[1]
            printf "; step_known %.1f ns, %.2f", each[3], each[3] / each[1]
            printf "; galcert run %.1f ns, %.2f\n", each[4], each[4] / each[1]
        }'
done
