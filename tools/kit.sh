# Sourced by ./dewmycel and tools/bad-input.sh, at the repository's root: builds a proved program where it is missing, and runs it.
# Programs are for x86-64; on another processor qemu runs them.

have_rt() {
    command -v rt >/dev/null && return 0
    echo "${0##*/}: there is no rt: the Rattle kit's bin/ has to stand in PATH" >&2
    return 1
}

# Builds program $1 where it is missing or older than the sources.
have_program() {
    local bin=target/bin/$1 log=target/$1.log out=crates/$1/out/$1
    if [ -x "$bin" ] && [ -z "$(find crates -name out -prune -o -name '*.rt' -newer "$bin" -print -quit)" ]; then
        return 0
    fi
    have_rt || return 1
    echo "${0##*/}: proving and building $1, which takes some minutes the first time" >&2
    mkdir -p target/bin
    rm -f "$out"
    # rt proves and builds what it runs: here on nothing, which each program answers by a line.
    (cd "crates/$1" && rt run) >"$log" 2>&1 </dev/null
    if [ ! -x "$out" ]; then
        echo "${0##*/}: $1 is not proved: $log says why" >&2
        return 1
    fi
    cp "$out" "$bin"
}

# Runs program $1 with the other words.
run_program() {
    local program=target/bin/$1
    shift
    if [ "$(uname -m)" = x86_64 ]; then
        "$program" "$@"
    else
        tools/x86-64.sh && qemu-x86_64 "$program" "$@"
    fi
}
