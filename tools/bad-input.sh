#!/usr/bin/env bash
# What each program says of bad input: one clear line and nothing else. Shows the line, from whichever of the two outputs it came, and
# ends with status 1 if one of them is not one line.
set -u
cd "$(dirname "$0")/.." || exit 1
. tools/kit.sh
for program in lister walker test_listings test_vectors; do have_program "$program" || exit 1; done

room=$(mktemp -d) || exit 1
trap 'rm -rf "$room"' EXIT
mkdir "$room/folder"
: >"$room/empty"
echo 'no sheet, no panel' >"$room/words"
cp crates/walker/data/station.sheet "$room/sheet"
cp crates/walker/data/calibrate.panel "$room/panel"
head -c 100000000 /dev/zero >"$room/long"

wrong=0
# What a case is, then the words of the command.
try() {
    local name=$1 said
    shift
    said=$("$@" 2>&1 | sed "s|$room/||g"; echo .)
    said=${said%.}
    if [ "$(printf %s "$said" | wc -l)" -ne 1 ] || [ "$(printf %s "$said" | tail -c 1 | wc -l)" -ne 1 ]; then
        wrong=1
        name="NOT ONE LINE: $name"
    fi
    printf '%-60s %s\n' "$name" "${said%?}"
}
lister_on() { run_program lister <"$1"; }

try 'lister, an empty file' lister_on "$room/empty"
try 'lister, a folder' lister_on "$room/folder"
try 'lister, words' lister_on "$room/words"
try 'lister, 100 MB' lister_on "$room/long"
try 'lister, 100 MB through a pipe' eval 'cat "$room/long" 2>/dev/null | run_program lister'
try 'lister, no input at all' eval 'run_program lister <&-'

try 'walker, no argument' run_program walker
try 'walker, one argument' run_program walker "$room/sheet"
try 'walker, no argument, 100 MB on standard input' eval 'run_program walker <"$room/long"'
for bad in missing folder empty words long; do
    try "walker, the sheet: $bad" run_program walker "$room/$bad" "$room/panel"
    try "walker, the panel: $bad" run_program walker "$room/sheet" "$room/$bad"
done
try 'walker, a name of no letters' run_program walker '' "$room/panel"

try 'test_listings, no argument' run_program test_listings
try 'test_listings, missing' run_program test_listings "$room/missing"
try 'test_listings, a folder' run_program test_listings "$room/folder"
try 'test_vectors, no argument' run_program test_vectors
for bad in missing folder empty words long; do
    try "test_vectors, $bad" run_program test_vectors "$room/$bad"
done

try 'dewmycel, no command' ./dewmycel
try 'dewmycel, a command that is none' ./dewmycel draw
try 'dewmycel list, no file' ./dewmycel list
try 'dewmycel walk, one file' ./dewmycel walk "$room/sheet"
try 'dewmycel show, no file' ./dewmycel show
for bad in missing folder empty words long; do
    try "dewmycel list, $bad" ./dewmycel list "$room/$bad"
    try "dewmycel walk, the panel: $bad" ./dewmycel walk "$room/sheet" "$room/$bad"
    try "dewmycel show, $bad" ./dewmycel show "$room/$bad"
done
printf 'subject list int\nclause [1, ..\n' >"$room/cut.txt"
cp "$room/empty" "$room/empty.txt"
ln -s "$room/long" "$room/long.txt"
printf 'subject list int\r\nclause _\r\n' >"$room/lines.txt"
printf 'subject int\nclause ' >"$room/deep.txt"
printf '%0100000d' 0 | tr 0 '[' >>"$room/deep.txt"
sed 's/Empty | Fault(int)/Fault(int) | Empty/' samples/line.txt >"$room/other.txt"
for bad in cut empty long lines deep; do
    try "dewmycel list, a text: $bad" ./dewmycel list "$room/$bad.txt"
done
try 'dewmycel walk, a panel that the text has not' ./dewmycel walk samples/line.txt absent
try 'dewmycel walk, a text of several panels' ./dewmycel walk samples/line.txt samples/line.txt
try 'dewmycel walk, a panel of other types' ./dewmycel walk samples/line.txt "$room/other.txt:new"
exit "$wrong"
