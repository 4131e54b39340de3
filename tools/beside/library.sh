#!/usr/bin/env bash
# The proved library beside the Rust: library.sh FOLDER WORDS.. builds `beside` with libdewmycel.a in it and runs it with these words, as in
# `library.sh FOLDER compare 1000 7`. FOLDER is that of the Rust sources, as for build.sh. On another processor than x86-64 it runs emulated.
set -eu

if [ $# -lt 2 ]; then
    echo "usage: library.sh FOLDER WORDS.." >&2
    exit 2
fi
. "$(dirname "$0")/with-library.sh"
build_with_library release "$1"
shift
exec "${beside[@]}" "$@"
