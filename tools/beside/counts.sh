#!/usr/bin/env bash
# Instruction counts: counts.sh FOLDER [SHEETS [SEED]] has valgrind's callgrind count the library's instructions on so many sheets a family, 100
# where it is not said: of a build by function, and of a walk. What else runs on the machine does not change them. FOLDER is that of the Rust
# sources, as for build.sh. For x86-64 only.
set -eu

if [ $# -lt 1 ] || [ $# -gt 3 ]; then
    echo "usage: counts.sh FOLDER [SHEETS [SEED]]" >&2
    exit 2
fi
if [ "$(uname -m)" != x86_64 ]; then
    echo "counts.sh: this is $(uname -m): the library is for x86-64, and valgrind counts the instructions of the processor that it runs on" >&2
    exit 1
fi
if ! command -v valgrind >/dev/null; then
    become=""
    [ "$(id -u)" = 0 ] || become=sudo
    $become apt-get update -q >&2
    $become apt-get install -q -y --no-install-recommends valgrind >&2
fi
here=$(cd "$(dirname "$0")" && pwd)
. "$here/with-library.sh"
build_with_library speed "$1"
sheets=${2:-100} seed=${3:-2026}
room=$(mktemp -d)
trap 'rm -rf "$room"' EXIT
"${beside[@]}" families "$seed" "$sheets" "$room"

# The C library clears and copies long runs by one instruction that repeats; valgrind counts each repetition. It is told to take vectors.
export GLIBC_TUNABLES=glibc.cpu.x86_rep_stosb_threshold=1048576:glibc.cpu.x86_rep_movsb_threshold=1048576

# Leaves the counts of call $1, seen as function $2, on family $3 in $room/out, and how often it was made in $calls.
count() {
    calls=$(valgrind -q --tool=callgrind --toggle-collect="$2" --callgrind-out-file="$room/out" "${beside[@]}" once "$1" "$room/$3" 2>"$room/said") ||
        { cat "$room/said" >&2; exit 1; }
}
total() { sed -n 's/^totals: //p' "$room/out"; }

echo "$sheets sheets a family, seed $seed"
count clear dewmycel_build small
echo
echo "both buffers made zero: $(($(total) / calls)) instructions where they are zero already, in dewmycel_build itself"
for family in small medium large; do
    echo
    count build dewmycel_build "$family"
    echo "build, $family: $(python3 "$here/counts.py" "$room/out" "$calls")"
done
echo
echo "Walks, instructions a walk; the columns are those of bench.sh."
echo "family     walks    whole     tree    panel   bare  itself   plain  ratio  indexed  ratio  trusting  ratio"
for family in small medium large; do
    sums=""
    for call in walk:dewmycel_walk tree:dewmycel_walk panel:dewmycel_text bare:dewmycel_text plain:'*plain::asking*' indexed:'*plain::indexed*' trusting:'*plain::trusting*'; do
        count "${call%%:*}" "${call#*:}" "$family"
        sums="$sums $(total)"
    done
    echo "$family $calls $sums" | awk '{
        for (i = 3; i <= 9; i++) $i /= $2
        itself = $3 - $4 - $5 + $6
        printf "%-8s %7d %8.0f %8.0f %8.0f %6.1f %7.1f %7.1f %6.2f %8.1f %6.2f %9.1f %6.2f\n", $1, $2, $3, $4, $5, $6, itself, $7, itself / $7, $8, itself / $8, $9, itself / $9
    }'
done
