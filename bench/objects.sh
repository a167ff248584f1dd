#!/bin/sh
# Times ds2_object decoding and encoding objects of 250,000, 500,000 and 1,000,000 instructions, and objects whose second program has
# hash objects of 4,000, 8,000 and 16,000 tables that the first makes, in nanoseconds a byte, the least of five turns. Builds the program
# first where it is not built. Prints the peak memory too. Needs Python 3, and GNU time (Debian's package time) for the peak memory.
set -eu

top=$(cd "$(dirname "$0")/.." && pwd)
crate=$top/crates/ds2_layer_cases
ours=$crate/out/ds2_layer_cases
if [ ! -x "$ours" ]; then
    (cd "$crate" && rt run <stdin >/dev/null 2>&1)
fi
work=$(mktemp -d)
trap 'rm -rf "$work"' EXIT
python3 "$top/bench/object_cases.py" --times >"$work/objects"
/usr/bin/time -f 'peak memory %M KB' "$ours" <"$work/objects"
