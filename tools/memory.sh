#!/bin/sh
# Refuses memory once, at the first growth, then at the second, and so on, in the tests of a crate whose path contains "memory".
#
# usage: tools/memory.sh CRATE [FIRST]        starts at growth FIRST, by default 1
#
# Such a test makes its call and prints a line that begins with "refused" if the call ran out of memory. Then it makes the
# call again. The script ends at the first growth at which no test prints such a line: the calls ask for fewer growths. The
# last line says how many growths were refused. The status is 0 only if each test passed at each growth. A growth takes
# half a minute.
set -u
cd "$(dirname "$0")/.." || exit 2
if [ $# -lt 1 ] || [ ! -d "crates/$1/src" ]; then
    echo "usage: tools/memory.sh CRATE [FIRST]" >&2
    exit 2
fi
crate=$1
first=${2:-1}
cd "crates/$crate" || exit 2

said=$(mktemp) || exit 2
trap 'rm -f "$said"' EXIT
trap 'exit 130' INT
trap 'exit 143' TERM

number=$first
while :; do
    ../../tools/rt try --test --seconds 60 --fail-alloc "$number" -- memory >"$said" 2>&1
    if ! grep -q '^test result: ok\. [1-9]' "$said"; then
        cat "$said" >&2
        echo "memory: $crate fails where growth $number is refused" >&2
        exit 1
    fi
    told=$(grep '^ *refused' "$said" | sed 's/^ *//' | sort | uniq -c | sed 's/^ *//' | paste -sd ';')
    [ -n "$told" ] || break
    echo "growth $number: $told"
    number=$((number + 1))
done
echo "$((number - first)) growths refused, each test passed at each of them"
