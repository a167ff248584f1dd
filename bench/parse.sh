#!/bin/sh
# Times how `ds2 check` parses sources of 64, 128 and 256 KB, one block of statements and declarations one behind the other, in
# nanoseconds a token, the best of five rounds of ten runs each; with the word `count` instructions of the processor a token (valgrind's
# callgrind). Prints the peak memory of a check of each; GNU time (Debian's package time) is needed for it.
#
# A source that ends too early is refused behind its last token; one with the same tokens that begins with a word with which none does
# is refused at that word, when its tokens are there. The difference is the time of the parser.
set -eu

top=$(cd "$(dirname "$0")/.." && pwd)
ours=$top/crates/ds2/out/ds2
work=$(mktemp -d)
trap 'rm -rf "$work"' EXIT
cd "$work"
"$top/ds2" --build

# source KIND KILOBYTES: a source without its end. How many tokens it has goes into the file `tokens`.
source() {
    awk -v kind="$1" -v bytes="$(($2 * 1024))" '
        BEGIN {
            text = "data totals;\n"
            tokens = 3
            if (kind == "statements") {
                text = text "method run();\ndo;\n"
                tokens += 7
                piece = "total = total + amount * 1.25n - rebate(region, 3);\nif total >= 100000 and not closed then put \047closed\047 region=;\n" \
                    "else if total < 0 then total = -(total - h.find());\nelse count = count + 1;\n"
                each = 54
            } else {
                piece = "dcl decimal(18, 2) total amount rebate;\ndcl bigint count closed;\ndcl varchar(32) region;\n" \
                    "dcl package hash h([region], [amount rebate], 8, \047rebates\047);\n"
                each = 42
            }
            printf "%s", text
            for (written = length(text); written + length(piece) <= bytes; written += length(piece)) { printf "%s", piece; tokens += each }
            print tokens >"tokens"
        }'
}

# cost SOURCE: what its check costs, ten runs of it or the instructions of one.
cost() {
    if [ "$what" = count ]; then
        valgrind --tool=callgrind --callgrind-out-file=/dev/null "$ours" check "$1" 2>&1 >/dev/null | awk '/Collected/ { print $NF }'
        return
    fi
    from=$(date +%s%N)
    for turn in 1 2 3 4 5 6 7 8 9 10; do
        "$ours" check "$1" >/dev/null || true
    done
    to=$(date +%s%N)
    echo $((to - from))
}

what=${1:-time}
if [ "$what" = count ]; then
    unit=instructions rounds=1 runs=1
else
    unit=ns rounds='1 2 3 4 5' runs=10
fi
for kind in statements declarations; do
    for kilobytes in 64 128 256; do
        source "$kind" "$kilobytes" >early.ds2
        { printf 'enddata '; tail -c +6 early.ds2; } >word.ds2
        "$ours" check early.ds2 | grep -q 'refused: Unexpected'
        "$ours" check word.ds2 | grep -q 'refused: Unexpected at 1:1\.'
        peak=$(/usr/bin/time -f %M "$ours" check early.ds2 2>&1 >/dev/null | tail -n 1 || echo '?')
        for round in $rounds; do
            echo "$(cost word.ds2) $(cost early.ds2)"
        done | awk -v kind="$kind" -v kilobytes="$kilobytes" -v tokens="$(cat tokens)" -v unit="$unit" -v runs="$runs" -v peak="$peak" '
            NR == 1 || $1 < word { word = $1 }
            NR == 1 || $2 < whole { whole = $2 }
            END { printf "%s, %d KB: %.0f %s a token, peak memory %s KB\n", kind, kilobytes, (whole - word) / runs / tokens, unit, peak }'
    done
done
