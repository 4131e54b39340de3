#!/usr/bin/env bash
# Times: bench.sh FOLDER [SHEETS [SEED]] builds the static library and `beside` with the Rust as it is released, and runs the benchmark on so
# many sheets a family, 300 where it is not said, three times: what differs between the runs is not the library's. FOLDER is that of the Rust sources, as for build.sh.
set -eu

if [ $# -lt 1 ] || [ $# -gt 3 ]; then
    echo "usage: bench.sh FOLDER [SHEETS [SEED]]" >&2
    exit 2
fi
. "$(dirname "$0")/with-library.sh"
build_with_library speed "$1"
if [ "$(uname -m)" = x86_64 ]; then
    echo "processor: $(sed -n 's/^model name[^:]*: //p' /proc/cpuinfo | head -n 1)"
else
    echo "processor: $(uname -m), so both sides run emulated: these times and their ratios are not those of an x86-64 processor"
fi
sheets=${2:-300} seed=${3:-2026}
"${beside[@]}" bench "$sheets" "$seed"
for run in 2 3; do
    echo
    echo "run $run"
    "${beside[@]}" bench "$sheets" "$seed" again
done
