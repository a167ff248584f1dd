#!/bin/sh
# Times how `ds2 check` reads the tokens of sources of 64 KB and of 256 KB, in nanoseconds a byte, the best of five rounds of ten runs
# each; with the word `count` instructions of the processor a byte (valgrind's callgrind).
#
# A source that begins with a word with which none does is refused at that word when all its tokens are there. What it takes longer
# than this word alone is the reading of its text and of its tokens.
set -eu

top=$(cd "$(dirname "$0")/.." && pwd)
ours=$top/crates/ds2/out/ds2
work=$(mktemp -d)
trap 'rm -rf "$work"' EXIT
cd "$work"
"$top/ds2" --build

# source KILOBYTES: the same statements again and again, behind a word with which no source begins.
source() {
    awk -v bytes="$(($1 * 1024))" '
        { piece = piece $0 "\n" }
        END {
            print "enddata"
            for (written = 8; written + length(piece) <= bytes; written += length(piece)) printf "%s", piece
        }' <<'END'
data totals(keep=(region total) overwrite=yes);
    /* one row a region */
    dcl double_entry decimal(18, 2) total;
    dcl varchar(32) region_name;
    method run();
        dcl bigint i;
        set sales(in=has_sales) regions;
        by region;
        if first.region then total = 0.00n;
        do i = 1 to 12;
            total = total + amount * 1.25n - "Rebate in %";
            if total >= 100000 and not has_sales then leave;
        end;
        if last.region then do;
            region_name = trim(region) || ', it''s closed';
            output totals;
        end;
    end;
enddata;
run;
END
}

# cost SOURCE: what its check costs, ten runs of it or the instructions of one.
cost() {
    if [ "$what" = count ]; then
        valgrind --tool=callgrind --callgrind-out-file=/dev/null "$ours" check "$1" 2>&1 >/dev/null | awk '/Collected/ { print $NF }'
        return
    fi
    from=$(date +%s%N)
    for turn in 1 2 3 4 5 6 7 8 9 10; do
        "$ours" check "$1" >/dev/null || true
    done
    to=$(date +%s%N)
    echo $((to - from))
}

what=${1:-time}
if [ "$what" = count ]; then
    unit=instructions rounds=1 runs=1
else
    unit=ns rounds='1 2 3 4 5' runs=10
fi
source 0 >word.ds2
for kilobytes in 64 256; do
    source "$kilobytes" >source.ds2
    "$ours" check source.ds2 | grep -q 'refused: Unexpected at 1:1\.'
    for round in $rounds; do
        echo "$(cost word.ds2) $(cost source.ds2)"
    done | awk -v kilobytes="$kilobytes" -v bytes="$(wc -c <source.ds2)" -v unit="$unit" -v runs="$runs" '
        NR == 1 || $1 < word { word = $1 }
        NR == 1 || $2 < whole { whole = $2 }
        END { printf "%d KB: %.1f %s a byte\n", kilobytes, (whole - word) / runs / bytes, unit }'
done
