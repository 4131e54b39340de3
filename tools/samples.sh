#!/usr/bin/env bash
# Runs ./dewmycel on every sample and compares: the listing with NAME.listing, also that of the text that `show` makes of the sheet; what
# each of its panels takes with NAME.walks; and where there is a picture NAME.svg, that it is drawn from the listing.
set -u
cd "$(dirname "$0")/.." || exit 1

walks() {
    local panel
    for panel in $(sed -n 's/^panel  *\([A-Za-z0-9_]*\) *=.*/\1/p' "$1"); do
        echo "panel $panel"
        ./dewmycel walk "$1" "$panel"
    done
}

room=$(mktemp -d) || exit 1
trap 'rm -rf "$room"' EXIT
count=0 wrong=0
for text in samples/*.txt; do
    count=$((count + 1))
    ./dewmycel list "$text" | cmp - "${text%.txt}.listing" || wrong=$((wrong + 1))
    ./dewmycel show "$text" >"$room/shown.txt"
    ./dewmycel list "$room/shown.txt" | cmp - "${text%.txt}.listing" || wrong=$((wrong + 1))
    walks "$text" | cmp - "${text%.txt}.walks" || wrong=$((wrong + 1))
    [ ! -e "${text%.txt}.svg" ] || python3 tools/picture.py "${text%.txt}.listing" | cmp - "${text%.txt}.svg" || wrong=$((wrong + 1))
done
echo "$count samples, $wrong differ"
[ "$wrong" -eq 0 ]
