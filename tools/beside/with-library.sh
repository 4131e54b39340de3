# Sourced by library.sh, bench.sh and counts.sh. build_with_library PROFILE FOLDER builds the static library and `beside` with it in it, for
# x86-64, and leaves in $beside how it is run. FOLDER is that of the Rust sources, as for build.sh. On another processor than x86-64 what is
# needed to build for x86-64 and to run it emulated is installed from Debian 12's packages first.

build_with_library() {
    local profile=$1 sources here root target=x86_64-unknown-linux-gnu
    here=$(cd "$(dirname "${BASH_SOURCE[0]}")" && pwd)
    root=$(cd "$here/../.." && pwd)
    sources=$(cd "$2" && pwd)
    AIKEN_SRC=$("$here/build.sh" --where "$sources")
    export AIKEN_SRC
    "$root/tools/staticlib.sh" || return 1
    export DEWMYCEL_LIB=$root/target/staticlib
    export RUSTFLAGS="${RUSTFLAGS:-} --cap-lints=allow"
    beside=("$here/target/$target/$profile/beside")
    if [ "$(uname -m)" != x86_64 ]; then
        "$root/tools/x86-64.sh"
        export RUSTC=/usr/bin/rustc CARGO_TARGET_X86_64_UNKNOWN_LINUX_GNU_LINKER=x86_64-linux-gnu-gcc
        beside=(qemu-x86_64 "${beside[@]}")
    fi
    (cd "$here" && cargo build --profile "$profile" --offline --quiet --features library --target "$target")
}
