#!/bin/sh
# Times `ds2 run` on rows that it reads in BY order: a table whose rows stand in order, the same in reverse, and in no order, read by
# `set` with `by`, and merged with one of half as many rows. Then it copies the sorted table without `by`, for what order costs.
#
# usage: bench/order.sh [ROWS] [count]
#
# Prints the wall time of each in seconds, the best of five runs. With the word `count` it prints instructions a row in its place, by
# callgrind, which needs valgrind; the difference of a run over ROWS and one over half of them.
set -eu

rows=${1:-1000000}
what=${2:-time}
top=$(cd "$(dirname "$0")/.." && pwd)
ours=$top/crates/ds2/out/ds2
work=$(mktemp -d)
trap 'rm -rf "$work"' EXIT
cd "$work"

table() { # NAME ROWS ORDER: keys from 1 to ROWS
    awk -v n="$2" -v order="$3" 'BEGIN {
        for (i = 1; i <= n; i++) key[i] = order == "reverse" ? n + 1 - i : i
        s = 1
        if (order == "none") for (i = n; i > 1; i--) {
            s = (s * 16807) % 2147483647
            j = 1 + s % i; k = key[i]; key[i] = key[j]; key[j] = k
        }
        print "k bigint,'"$1"' bigint"
        for (i = 1; i <= n; i++) printf "%d,%d\n", key[i], i
    }' >"$1.csv"
}

job() { # STATEMENT
    printf 'data out(overwrite=yes); method run(); %s end; enddata;\n' "$1" >job.ds2
}

tables() { # ROWS ORDER
    table t "$1" "$2"
    table u $(($1 / 2)) "$2"
}

best() {
    "$ours" run job.ds2 >/dev/null
    least=999999
    for turn in 1 2 3 4 5; do
        from=$(date +%s%N)
        "$ours" run job.ds2 >/dev/null
        to=$(date +%s%N)
        took=$(((to - from) / 1000000))
        [ "$took" -lt "$least" ] && least=$took
    done
    awk -v ms="$least" 'BEGIN { printf "%.3f s", ms / 1000 }'
}

instructions() {
    valgrind --tool=callgrind --callgrind-out-file=/dev/null "$ours" run job.ds2 2>&1 >/dev/null | awk '/Collected/ { print $4 }'
}

show() { # TITLE ORDER STATEMENT
    job "$3"
    if [ "$what" = count ]; then
        tables "$rows" "$2"
        many=$(instructions)
        tables $((rows / 2)) "$2"
        few=$(instructions)
        echo "$1: $(((many - few) / (rows - rows / 2))) instructions a row of t"
    else
        tables "$rows" "$2"
        echo "$1: $(best)"
    fi
}

for order in order reverse none; do
    show "set, $order" "$order" 'set t; by k;'
    show "merge, $order" "$order" 'merge t u; by k;'
done
show "set without by" order 'set t;'
