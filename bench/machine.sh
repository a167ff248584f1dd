#!/bin/sh
# Times the machine by `ds2 run` on a loop over BIGINT values and on one over decimals of 15 digits, in nanoseconds an instruction: what
# 2,000,000 turns take longer than 1,000,000, the best of five runs each. With the word `count` it counts the processor's instructions
# for each of the machine's, by valgrind, over 20,000 and 10,000 turns. What a row costs, first.sh and instructions.sh tell.
set -eu

top=$(cd "$(dirname "$0")/.." && pwd)
ours=$top/crates/ds2/out/ds2
work=$(mktemp -d)
trap 'rm -rf "$work"' EXIT
cd "$work"
"$top/ds2" --build

# job KIND TURNS: a number is added to a sum in each turn, or an amount added and taken away again, twice.
job() {
    if [ "$1" = integers ]; then
        body='total = total + turn;'
    else
        body='amount = amount + 1234567890123.45n - 1234567890123.45n + 1234567890123.45n - 1234567890123.45n;'
    fi
    echo "data _null_; dcl bigint turn total; dcl decimal(15,2) amount; method run(); total = 0; amount = 1234567890123.45n;"
    echo "do turn = 1 to $2; $body end; end; enddata;"
}

# cost SOURCE: what a run costs, in nanoseconds or in instructions of the processor.
cost() {
    if [ "$what" = count ]; then
        valgrind --tool=callgrind --callgrind-out-file=/dev/null "$ours" run "$1" 2>&1 >log | awk '/Collected/ { print $NF }'
        return
    fi
    from=$(date +%s%N)
    "$ours" run "$1" >log
    to=$(date +%s%N)
    echo $((to - from))
}

# executed SOURCE: how many instructions of the machine a run executes.
executed() {
    "$ours" run "$1" | sed -n 's/^NOTE: \([0-9]*\) instructions\.$/\1/p'
}

what=${1:-time}
if [ "$what" = count ]; then
    unit='instructions of the processor' rounds=1 turns=10000
else
    unit=ns rounds='1 2 3 4 5' turns=1000000
fi
for kind in integers decimals; do
    job "$kind" "$turns" >few.ds2
    job "$kind" $((2 * turns)) >many.ds2
    more=$(($(executed many.ds2) - $(executed few.ds2)))
    for round in $rounds; do
        echo "$(cost few.ds2) $(cost many.ds2)"
    done | awk -v kind="$kind" -v more="$more" -v turns="$turns" -v unit="$unit" '
        NR == 1 || $1 < few { few = $1 }
        NR == 1 || $2 < many { many = $2 }
        END { printf "%s: %.2f %s an instruction, of which a turn has %d\n", kind, (many - few) / more, unit, more / turns }'
done
