#!/usr/bin/env bash
# Measures the stack of the deepest build: builds the library and tools/stack/stack.c for x86-64 and runs it.
set -eu
here=$(cd "$(dirname "$0")" && pwd)
root=$(cd "$here/../.." && pwd)
"$root/tools/staticlib.sh"
compiler=cc emulator=""
if [ "$(uname -m)" != x86_64 ]; then
    "$root/tools/x86-64.sh"
    compiler=x86_64-linux-gnu-gcc emulator=qemu-x86_64
fi
room=$(mktemp -d)
trap 'rm -rf "$room"' EXIT
$compiler -O2 -I"$root/include" -o "$room/stack" "$here/stack.c" "$root/target/staticlib/libdewmycel.a" -lpthread
for columns in ${1:-2 50 100 191}; do
    $emulator "$room/stack" "$columns"
done
