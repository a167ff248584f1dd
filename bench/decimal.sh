#!/bin/sh
# Times each call of ds2_decimal beside the same work on whole numbers of 128 bits, in nanoseconds
# an operation over 64 pairs of operands. Builds the program first where it is not built.
set -eu

top=$(cd "$(dirname "$0")/.." && pwd)
crate=$top/crates/ds2_bench
if [ ! -x "$crate/out/ds2_bench" ]; then
    (cd "$crate" && rt run >/dev/null)
fi
"$crate/out/ds2_bench" time | sed 's/ (-\{0,1\}[0-9]*)$//'
