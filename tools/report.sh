#!/bin/bash
# Checks a report, and makes its pictures: tools/report.sh PROGRAM ROM CERT [SYMBOLS [FOLDER [dark]]]
#
# The page has to pass `tidy -e` without errors or warnings, and its numbers have to agree with those of `verify`, `longest`
# and `list`, and with the two files (tools/report.py). With a FOLDER, headless Chromium takes the first screen at 1280 by 900 and at 390 by 844,
# made smaller by pngquant, as FOLDER/report.png and FOLDER/report-phone.png; with `dark` in the dark scheme. Those in docs/ are
# light, of tests/raid under its old name, raid2.
set -eu
program=$(realpath "$1"); rom=$2; cert=$3; symbols=${4:-}; folder=${5:-}
scheme=1
[ "${6:-}" != dark ] || scheme=0
here=$(dirname "$(realpath "$0")")
work=$(mktemp -d)
trap 'rm -rf "$work"' EXIT
options=()
[ -z "$symbols" ] || options=(--symbols "$symbols")
"$program" report "$rom" "$cert" "${options[@]}" > "$work/report.html"
"$program" verify "$rom" "$cert" > "$work/table"
"$program" longest "$rom" "$cert" > "$work/longest"
"$program" list "$rom" "$cert" > "$work/list"
tidy -q -e -utf8 "$work/report.html" 2> "$work/tidy" || { cat "$work/tidy"; exit 1; }
[ ! -s "$work/tidy" ] || { cat "$work/tidy"; exit 1; }
python3 "$here/report.py" "$work/report.html" "$work/table" "$work/longest" "$work/list" "$rom" "$cert"
[ -n "$folder" ] || exit 0
shot() { # NAME WIDTH HEIGHT
    chromium --headless --no-sandbox --disable-gpu --hide-scrollbars --window-size="$2,$3" \
        --blink-settings=preferredColorScheme="$scheme" --screenshot="$work/$1.png" "file://$work/report.html" \
        > "$work/chromium" 2>&1 || { cat "$work/chromium"; exit 1; }
    pngquant --force --output "$folder/$1.png" 256 "$work/$1.png"
}
shot report 1280 900
shot report-phone 390 844
