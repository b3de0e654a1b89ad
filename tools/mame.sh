#!/usr/bin/env bash
# Compares galcert with MAME's Galaxian driver, on this project's programs (docs/MAME.md):
#   tools/mame.sh [FRAMES]                         everything below; FRAMES of each program are traced, 60 if none are named
#   tools/mame.sh trace ROM CERT FRAMES [EVERY]    traces a program, and compares a state every EVERY frames
#   tools/mame.sh fast ROM CERT FRAMES             runs a program; compares its NMIs, and the state at the last
#   tools/mame.sh costs [FILE]                     measures the T-states of each code; FILE gets the tables
#   tools/mame.sh shots ROM CERT FOLDER FRAME..    takes screenshots
# The status is 0 if all is alike, 1 if something differs, 2 for a command line out of form, 3 if a program is missing.
# Environment: GALCERT, the program (./galcert); DELAY, KEYS and KICK (docs/MAME.md); WORK, a folder that is kept.
set -euo pipefail
root=$(cd "$(dirname "$0")/.." && pwd)
export HERE=$root/tools/mame SDL_VIDEODRIVER=dummy
fast_frames=2500

usage() { sed -n '2,7s/^# \?//p' "$0" >&2; exit 2; }
missing() { echo "tools/mame.sh: no $1 ($2)" >&2; exit 3; }
mame=$(PATH=$PATH:/usr/games command -v mame) || missing mame "apt-get install mame z80asm"
command -v z80asm > /dev/null || missing z80asm "apt-get install mame z80asm"
galcert=$(realpath -e "${GALCERT:-$root/galcert}" 2> /dev/null) || missing "${GALCERT:-$root/galcert}" make

if [ -n "${WORK:-}" ]; then
    mkdir -p "$WORK"
    top=$(realpath "$WORK")
else
    top=$(mktemp -d)
    trap 'rm -rf "$top"' EXIT
fi

# Makes the folder of a run, and in it the set of the board that the certificate names. The raised board has its NMI enable
# at B001 and Moon Cresta at B000, so a tap sends the writes on.
prepare() {
    local way=$1 rom=$2 cert=$3
    work=$top/$way-$(basename "$rom" .rom) set=zerotimed
    export RAM=0x4000 FORWARD='' DUMP=$work/dump TRACE=$work/trace
    if grep -q '^map raised' "$cert"; then
        set=mooncrsb RAM=0x8000 FORWARD=b001,b000
    fi
    rm -rf "$work"
    mkdir -p "$work"
    python3 "$HERE/make_set.py" "$set" "$rom" "$work/roms"
}

# Runs MAME with a script. MAME 0.251 may end with a segmentation fault after all is done, so its status says nothing; the
# last line of DUMP does.
play() {
    local script=$1
    shift
    (HOME=$work timeout 1800 "$mame" "$set" -rompath "$work/roms" -cfg_directory "$work" -nvram_directory "$work" \
        -video none -sound none -nothrottle -skip_gameinfo "$@" -autoboot_script "$HERE/$script" > "$work/log" 2>&1 ||
        true) 2> /dev/null
}
ended() {
    [ "$(tail -n 1 "$DUMP" 2> /dev/null)" = done ] && return
    tail -n 3 "$work/log" >&2
    echo "MAME did not come to the end of its run; a fast one ends with an NMI" >&2
    return 1
}

# Runs MAME with its debugger, and beside it a command that reads the trace. Where that ends early, the rest is dropped.
traced() {
    local status=0
    mkfifo "$TRACE"
    play trace.lua -debug -debugger none &
    local player=$!
    "$@" < /dev/null || status=1
    while kill -0 $player 2> /dev/null; do timeout 1 cat "$TRACE" > /dev/null || true; done
    [ $status = 0 ] && ended
}

# trace ROM CERT FRAMES [EVERY [AT]]
trace() {
    prepare trace "$1" "$2"
    export FRAMES=$3 EVERY=${4:-1000000}
    # shellcheck disable=SC2086
    traced python3 "$HERE/follow.py" "$1" "$2" "$work" ${5:-} || return 1
    python3 "$HERE/compare.py" "$galcert" "$1" "$2" "$work"
}

# fast ROM CERT FRAMES
fast() {
    prepare fast "$1" "$2"
    export FRAMES=$3
    play fast.lua -seconds_to_run $(($3 / 60 + 10))
    ended || return 1
    python3 "$HERE/fast.py" "$galcert" "$1" "$2" "$work"
}

# costs FILE
costs() {
    local rom=$top/costs.rom
    python3 "$HERE/costs.py" make "$rom"
    prepare trace "$rom" /dev/null
    FRAMES=6 EVERY=6 KICK=1 traced python3 "$HERE/costs.py" judge "$TRACE" "$1"
}

# shots ROM CERT FOLDER FRAME..
shots() {
    prepare shots "$1" "$2"
    export NAME SHOTS="${*:4}"
    NAME=$(basename "$1" .rom)
    mkdir -p "$3"
    play shots.lua -snapshot_directory "$(realpath "$3")" -snapsize 448x512 -nosnapbilinear
}

# Makes a program of tools/mame/programs and its certificate, in $top.
program() {
    local name=$1 source=$HERE/programs/$1 verdict
    if [ -e "$source.py" ]; then
        python3 "$source.py" "$top/$name.rom" "$top/$name.toml"
    else
        z80asm -o "$top/$name.rom" "$source.asm"
        cp "$source".{toml,cert} "$top" 2> /dev/null || true
    fi
    [ -e "$source.cert" ] ||
        verdict=$("$galcert" check "$top/$name.rom" "$top/$name.toml" --cert "$top/$name.cert") ||
        echo "$name: $verdict" >&2
}

# One more phase at which a program may begin.
delay=0
another_phase() { delay=$(((delay + 18637) % 50000)); }

all() {
    local frames=$1 wrong=0 cert rom name at
    for cert in "$root"/examples/*/*.cert; do
        rom=${cert%.cert}.rom
        another_phase
        # nothing in the six bytes reads the watchdog
        KEYS=$(python3 "$HERE/keys.py" 1 "$frames") DELAY=$delay KICK=$([[ $rom != */six.rom ]] || echo 1) \
            trace "$rom" "$cert" "$frames" 20 || wrong=1
    done
    for name in all_codes halt restart toggle once windows; do
        another_phase
        at=$(program $name)
        DELAY=$delay KICK=1 trace "$top/$name.rom" "$top/$name.cert" "$frames" 20 "$at" || wrong=1
    done
    echo "$(cat "$top"/*/codes | sort -u | wc -l) of the 698 documented codes were executed"
    for cert in "$root"/examples/*/*.cert; do
        grep -q '^proc nmi' "$cert" || continue
        another_phase
        DELAY=$delay fast "${cert%.cert}.rom" "$cert" $fast_frames || wrong=1
    done
    costs "$top/tables" || wrong=1
    [[ $(< "$root/docs/INSTRUCTIONS.md") == *"$(< "$top/tables")"* ]] ||
        { echo "docs/INSTRUCTIONS.md has other tables of T-states: tools/mame.sh costs FILE writes them"; wrong=1; }
    [ $wrong = 0 ] && echo "all alike" || echo "NOT ALL ALIKE"
    return $wrong
}

case ${1:-60} in
    trace) [ $# -ge 4 ] && [ $# -le 5 ] || usage; shift; trace "$@" ;;
    fast) [ $# -eq 4 ] || usage; shift; fast "$@" ;;
    costs) [ $# -le 2 ] || usage; costs "${2:-/dev/stdout}" ;;
    shots) [ $# -ge 5 ] || usage; shift; shots "$@" ;;
    *[!0-9]*) usage ;;
    *) [ $# -le 1 ] || usage; all "${1:-60}" ;;
esac
