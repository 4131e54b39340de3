#!/usr/bin/env bash
# Builds the archive of the crate dewmycel_c, which exports the four calls, and leaves it as target/staticlib/libdewmycel.a.
set -eu
root=$(cd "$(dirname "$0")/.." && pwd)
said=$(cd "$root/crates/dewmycel_c" && rt lib 2>&1) || { echo "$said" >&2; exit 1; }
mkdir -p "$root/target/staticlib"
cp "$root/crates/dewmycel_c/out/libdewmycel_c.a" "$root/target/staticlib/libdewmycel.a"
