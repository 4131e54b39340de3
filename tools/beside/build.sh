#!/usr/bin/env bash
# Builds `beside`. The argument, or else the variable AIKEN_SRC, names the folder of the Rust
# sources: the one that holds gen_uplc/decision_tree.rs, or one with crates/aiken-lang/src in it.
# What is missing of the two real crates is installed from Debian 12's packages first.
set -eu

where=""
if [ "${1:-}" = --where ]; then
    # only says where they are, and installs what is missing
    where=yes
    shift
fi
sources=${1:-${AIKEN_SRC:-}}
if [ -z "$sources" ]; then
    echo "build.sh: say where the Rust sources are: build.sh FOLDER, or AIKEN_SRC=FOLDER build.sh" >&2
    exit 2
fi
for folder in "$sources" "$sources/crates/aiken-lang/src"; do
    if [ -f "$folder/gen_uplc/decision_tree.rs" ] && [ -f "$folder/gen_uplc/interner.rs" ]; then
        AIKEN_SRC=$(cd "$folder" && pwd)
        found=yes
        break
    fi
done
if [ -z "${found:-}" ]; then
    echo "build.sh: no gen_uplc/decision_tree.rs and interner.rs under $sources" >&2
    exit 2
fi
export AIKEN_SRC

cd "$(dirname "$0")"
if ! [ -d /usr/share/cargo/registry/itertools-0.10.3 ] || ! [ -d /usr/share/cargo/registry/indexmap-1.9.2 ]; then
    become=""
    [ "$(id -u)" = 0 ] || become=sudo
    $become apt-get update -q >&2
    $become apt-get install -q -y --no-install-recommends librust-itertools-dev librust-indexmap-dev >&2
fi
if [ -n "$where" ]; then
    echo "$AIKEN_SRC"
    exit 0
fi

# The two crates are older than the compiler: its advice about them is left out.
RUSTFLAGS="${RUSTFLAGS:-} --cap-lints=allow" cargo build --release --offline --quiet
echo "built $PWD/target/release/beside"
