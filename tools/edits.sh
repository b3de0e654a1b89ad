#!/bin/sh
# Tries the edits of crates/*/more-edits/: the check must refuse each, as it must those of must-fail/.
#
# usage: tools/edits.sh [CRATE..]        with no name: every crate that has more-edits
#
# It works in a copy of the repository and leaves the repository as it is. In the copy, a crate's more-edits stand in the
# place of its must-fail edits. The last line is 'N refused, M not'. The status is 0 only if all were refused.
set -u
cd "$(dirname "$0")/.." || exit 2
top=$PWD

if [ $# -eq 0 ]; then
    for folder in crates/*/more-edits; do
        [ -d "$folder" ] && set -- "$@" "$(basename "$(dirname "$folder")")"
    done
fi
for crate; do
    if ! ls "crates/$crate/more-edits" 2>/dev/null | grep -q '\.edit$'; then
        echo "edits: $crate has no more-edits" >&2
        exit 2
    fi
done

copy=$(mktemp -d) || exit 2
trap 'rm -rf "$copy"' EXIT
trap 'exit 130' INT
trap 'exit 143' TERM

refused=0
not=0
for crate; do
    # The sources as they stand, and what earlier checks left of them.
    rm -rf "$copy/repository"
    mkdir "$copy/repository"
    git ls-files -z --cached --others --exclude-standard |
        tar --null --files-from=- --ignore-failed-read -cf - 2>/dev/null |
        tar -xf - -C "$copy/repository"
    for below in $(tools/crates.py below "$crate"); do
        [ -d "crates/$below/out" ] && cp -a "crates/$below/out" "$copy/repository/crates/$below/"
    done
    cd "$copy/repository" || exit 2
    git init -q .
    rm -rf "crates/$crate/must-fail"
    mv "crates/$crate/more-edits" "crates/$crate/must-fail"
    edits=$(ls "crates/$crate/must-fail" | grep -c '\.edit$')
    # An edit of a crate that is not proved without it would seem to be refused.
    if (cd "crates/$crate" && "$top/tools/rt" check) >"$copy/said" 2>&1; then
        "$top/tools/rt" must-fail "$crate" 2>&1 | tee "$copy/said"
    else
        echo "edits: $crate itself is not proved" | tee "$copy/said" >&2
    fi
    good=$(grep -c ': refused, as it must be' "$copy/said")
    refused=$((refused + good))
    not=$((not + edits - good))
    cd "$top" || exit 2
done
echo "$refused refused, $not not"
[ "$not" -eq 0 ]
