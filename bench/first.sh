#!/bin/sh
# Times `ds2 run` on 1,000,000 rows of two BIGINT columns, beside mawk doing the same work.
#
# usage: bench/first.sh [ROWS]
#
# Needs mawk (Debian's package mawk) and GNU time (Debian's package time) for the peak memory.
# Prints the wall time of each in seconds, the best of five runs in turn, their ratio, and the peak
# memory of ds2. The two outputs are compared.
set -eu

rows=${1:-1000000}
top=$(cd "$(dirname "$0")/.." && pwd)
work=$(mktemp -d)
trap 'rm -rf "$work"' EXIT
cd "$work"
"$top/ds2" --build

mawk -v n="$rows" 'BEGIN {
    print "a bigint,b bigint"
    s = 1
    for (i = 1; i <= n; i++) {
        s = (s * 16807) % 2147483647
        a = s % 1000000000
        s = (s * 16807) % 2147483647
        printf "%d,%d\n", a, s % 1000000000
    }
}' >t.csv

run() { # NAME SOURCE AWK
    name=$1
    printf '%s\n' "$2" >job.ds2
    awk_program=$3
    best_ds2=999999
    best_mawk=999999
    for turn in 1 2 3 4 5; do
        from=$(date +%s%N)
        "$top/crates/ds2/out/ds2" run job.ds2 >log
        to=$(date +%s%N)
        time_ds2=$(((to - from) / 1000000))
        [ "$time_ds2" -lt "$best_ds2" ] && best_ds2=$time_ds2
        from=$(date +%s%N)
        mawk -F, "$awk_program" t.csv >mawk.csv
        to=$(date +%s%N)
        time_mawk=$(((to - from) / 1000000))
        [ "$time_mawk" -lt "$best_mawk" ] && best_mawk=$time_mawk
    done
    tail -n +2 out.csv | cmp - mawk.csv
    peak=$(/usr/bin/time -f %M "$top/crates/ds2/out/ds2" run job.ds2 2>&1 >/dev/null | tail -n 1 || echo '?')
    mawk -v name="$name" -v rows="$rows" -v d="$best_ds2" -v m="$best_mawk" -v peak="$peak" 'BEGIN {
        printf "%s: %d rows, ds2 %.3f s, mawk %.3f s, ratio %.2f, peak memory of ds2 %d KB\n", name, rows, d / 1000, m / 1000, d / m, peak
    }'
}

run sum 'data out(overwrite=yes); dcl bigint x; method run(); set t; x = a + b; end; enddata;' \
    'NR>1{print $1+$2","$1","$2}'
run condition 'data out(overwrite=yes); dcl bigint x; method run(); set t; if a > b then x = a - b; else x = b - a; end; enddata;' \
    'NR>1{if($1>$2)x=$1-$2;else x=$2-$1;print x","$1","$2}'
