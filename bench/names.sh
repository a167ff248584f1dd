#!/bin/sh
# Times what `ds2 run` does with data programs of 64, 128 and 256 KB before a row is read, with 250, 500 and 1,000 globals and as many
# names in one method; then with columns of four tables in place of the globals; then with as many globals, each handed to a method, beside
# calls of a method that mentions them all.
#
# Each program is run with four ends: a word with which no source goes on, an unknown name, a text for a number, and none of them. So the
# command ends behind the tree, behind the names, behind the types, and behind the code and its run; what an end takes longer than
# the one before it is the time of one step. Prints nanoseconds a token, the best of five rounds of ten runs each;
# with the word `count` instructions of the processor a token (valgrind's callgrind), which are the same in each round.
set -eu

top=$(cd "$(dirname "$0")/.." && pwd)
work=$(mktemp -d)
trap 'rm -rf "$work"' EXIT
cd "$work"
"$top/ds2" --build

# program BYTES NAMES KIND END: the source, with a variable and a parameter beside the names. How many tokens stand before its end goes
# into the file `tokens`.
program() {
    awk -v bytes="$(($1 - 200))" -v count="$2" -v kind="$3" -v end="$4" '
    function names(letter, count,    i, all) { all = ""; for (i = 0; i < count; i++) all = all " " letter i; return all }
    function end_with(set) {
        if (end == "tree") print "\nend; method run();" set " add(sum); end; end;"
        if (end == "names") print "\nend; method run();" set " add(nothing); end; enddata;"
        if (end == "types") print "\nend; method run();" set " sum = \047x\047; end; enddata;"
        if (end == "code") print "\nend; method run();" set " add(sum); end; enddata;"
        print tokens >"tokens"
    }
    BEGIN {
        if (kind == "handed") {
            text = "data _null_; dcl bigint sum" names("g", count) "; method add(in_out bigint total); total = total + 1; end; method all();"
            for (i = 0; i < count; i++) text = text " g" i " = 1;"
            text = text " end; method never();"
            for (i = 0; i < count; i++) text = text " add(g" i ");"
            printf "%s", text; tokens = 35 + 10 * count
            for (written = length(text); written < bytes; written += 7) { printf "\nall();"; tokens += 4 }
            end_with("")
            exit
        }
        text = "data _null_; dcl bigint sum" (kind == "globals" ? names("g", count) : "")
        text = text "; method add(in_out bigint total); dcl bigint" names("l", count) ";"
        tokens = 17 + (kind == "globals" ? 2 : 1) * count
        printf "%s", text; written = length(text)
        for (turn = 0; written < bytes; turn++) {
            g = turn % count; l = (turn * 7) % count
            text = "\nl" l " = g" g " + total * abs(l" l ");\nif g" g " > l" l " then put g" g " total=;"
            printf "%s", text; written += length(text); tokens += 21
        }
        end_with(kind == "globals" ? "" : " set t0 t1 t2 t3;")
    }'
}

# tables NAMES: four tables, which have a quarter of the columns each, and no row.
tables() {
    for number in 0 1 2 3; do
        awk -v from="$(($1 * number / 4))" -v to="$(($1 * (number + 1) / 4))" 'BEGIN {
            for (i = from; i < to; i++) printf "%sg%d bigint", (i > from ? "," : ""), i
            print ""
        }' >"t$number.csv"
    done
}

# nanoseconds END: ten runs of the program with this end.
nanoseconds() {
    from=$(date +%s%N)
    for turn in 1 2 3 4 5 6 7 8 9 10; do
        "$top/crates/ds2/out/ds2" run "$1.ds2" >log || true
    done
    to=$(date +%s%N)
    echo $((to - from))
}

# instructions END: those of one run of the program with this end.
instructions() {
    valgrind --tool=callgrind --callgrind-out-file=/dev/null "$top/crates/ds2/out/ds2" run "$1.ds2" 2>&1 >log | awk '/Collected/ { print $NF }'
}

# rounds: for each end what a round costs.
rounds() {
    if [ "$1" = count ]; then
        for end in tree names types code; do
            echo "$end $(instructions "$end")"
        done
    else
        for round in 1 2 3 4 5; do
            for end in tree names types code; do
                echo "$end $(nanoseconds "$end")"
            done
        done
    fi
}

what=${1:-time}
unit=nanoseconds
runs=10
if [ "$what" = count ]; then
    unit=instructions
    runs=1
fi
for kind in globals columns handed; do
    for size in '65536 249' '131072 499' '262144 999'; do
        tables "${size#* }"
        for end in tree names types code; do
            program ${size% *} "${size#* }" "$kind" "$end" >"$end.ds2"
            "$top/crates/ds2/out/ds2" run "$end.ds2" >"$end.log" || true
        done
        grep -q 'refused: Unexpected' tree.log
        grep -q 'refused: UnknownName' names.log
        grep -q 'refused: TypeClash' types.log
        grep -q '^NOTE: [0-9]* instructions\.$' code.log
        rounds "$what" | awk -v kind="$kind" -v count="${size#* }" -v tokens="$(cat tokens)" -v unit="$unit" -v runs="$runs" '
            !($1 in least) || $2 < least[$1] { least[$1] = $2 }
            function each(cost) { return cost / runs / tokens }
            END {
                printf "%d names, %s, %d tokens: tree %.0f, names %.0f, types %.0f, code %.0f %s a token\n", count, kind, tokens,
                    each(least["tree"]), each(least["names"] - least["tree"]), each(least["types"] - least["names"]), each(least["code"] - least["types"]), unit
            }'
    done
done
