#!/usr/bin/env bash
# Builds the library, the C program of examples/c and the Rust program of rust/dewmycel, and runs both on a sample: they print the same.
# Then runs the tests of rust/dewmycel.
# The library is for x86-64; on another processor the tools for x86-64 are installed where they are missing, and the programs run emulated.
set -eu
here=$(cd "$(dirname "$0")" && pwd)
root=$(cd "$here/.." && pwd)
text=${1:-$root/samples/line.txt}
panel=${2:-calibrate}

"$root/tools/staticlib.sh"
export DEWMYCEL_LIB=$root/target/staticlib
room=$(mktemp -d)
trap 'rm -rf "$room"' EXIT
python3 "$root/tools/sheets/sheets.py" sheet "$text" "$room/sheet"
python3 "$root/tools/sheets/sheets.py" panel "$text" "$panel" "$room/panel"

target=x86_64-unknown-linux-gnu compiler=cc emulator=""
if [ "$(uname -m)" != x86_64 ]; then
    "$root/tools/x86-64.sh"
    compiler=x86_64-linux-gnu-gcc emulator=qemu-x86_64
    export RUSTC=/usr/bin/rustc CARGO_TARGET_X86_64_UNKNOWN_LINUX_GNU_LINKER=$compiler CARGO_TARGET_X86_64_UNKNOWN_LINUX_GNU_RUNNER=$emulator
fi

echo "C:"
$compiler -std=c11 -Wall -Wextra -Werror -O2 -I"$root/include" -o "$room/walk_panel" "$here/c/walk_panel.c" "$DEWMYCEL_LIB/libdewmycel.a"
$emulator "$room/walk_panel" "$room/sheet" "$room/panel" | tee "$room/by_c"
echo "Rust:"
(cd "$root/rust/dewmycel" && cargo build --quiet --release --offline --target "$target" --example walk_panel)
$emulator "$root/rust/dewmycel/target/$target/release/examples/walk_panel" "$room/sheet" "$room/panel" | tee "$room/by_rust"
cmp "$room/by_c" "$room/by_rust" && echo "the same"
(cd "$root/rust/dewmycel" && cargo test --quiet --release --offline --target "$target" --test stuck)
