#!/bin/sh
# Compares single steps at random states with what Debian's libz80ex (apt-get install libz80ex-dev) makes of them:
# bench/steps.sh [COUNT] [SEED], a million where no count is given. The first call proves what crates/benchmarks stands on, which
# takes minutes; after it 5,000,000 steps took 71 seconds. The steps go through a file of 126 bytes a step, since a pipe is read
# byte by byte.
set -eu
here=$(cd "$(dirname "$0")" && pwd)
work=$(mktemp -d)
trap 'rm -rf "$work"' EXIT
cc -O2 -o "$work/steps" "$here/steps.c" -lz80ex
(cd "$here/../crates/benchmarks" && ../../tools/rt run > /dev/null < /dev/null)
"$work/steps" "${1:-1000000}" "${2:-1}" > "$work/lines"
"$here/../crates/benchmarks/out/benchmarks" < "$work/lines"
