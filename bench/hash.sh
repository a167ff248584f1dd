#!/bin/sh
# Times a hash object of 1,000 items and one of 1,000,000 by `ds2 run`, under keys of one BIGINT: nanoseconds a call of add, find and
# remove, the best of five runs each, the machine's way to the call among them. Removing keeps the order of the items behind, so it is
# timed at both ends: the last item, behind which nothing moves, and the first hundred, behind which all do. The object of 1,000 items is
# filled a thousand times.
#
# A job fills the object, and behind that it goes over the numbers of its items; a second job calls there too, and the difference of
# their times is that of the calls.
set -eu

top=$(cd "$(dirname "$0")/.." && pwd)
ours=$top/crates/ds2/out/ds2
work=$(mktemp -d)
trap 'rm -rf "$work"' EXIT
cd "$work"
"$top/ds2" --build

# job ITEMS FILL FROM TO STEP CALL: so many items, each key another one, and behind them a loop over their numbers with a call.
job() {
    echo "data _null_; dcl bigint round i k; dcl package hash h([k],[k]);"
    echo "method key(); k = mod(i * 2654435769, 4294967296); end;"
    echo "method run(); do round = 1 to $((1000000 / $1)); do i = 1 to $1; key(); $2 end;"
    echo "do i = $3 to $4 by $5; key(); $6 end; h.clear(); end; end; enddata;"
}

# least SOURCE: the least nanoseconds of five runs.
least() {
    "$ours" run "$1" --budget 1000000000 >log
    for turn in 1 2 3 4 5; do
        from=$(date +%s%N)
        "$ours" run "$1" --budget 1000000000 >log
        to=$(date +%s%N)
        echo $((to - from))
    done | sort -n | head -n 1
}

# each WITHOUT WITH CALLS: nanoseconds a call.
each() {
    echo $((($2 - $1) / $3))
}

for items in 1000 1000000; do
    rounds=$((1000000 / items))
    job "$items" '' 1 0 1 '' >empty.ds2
    job "$items" 'h.add();' 1 0 1 '' >add.ds2
    job "$items" 'h.add();' 1 "$items" 1 '' >walked.ds2
    job "$items" 'h.add();' 1 "$items" 1 'h.find();' >find.ds2
    job "$items" 'h.add();' "$items" 1 -1 'h.remove();' >last.ds2
    job "$items" 'h.add();' 1 100 1 'h.remove();' >first.ds2
    empty=$(least empty.ds2)
    add=$(least add.ds2)
    walked=$(least walked.ds2)
    find=$(least find.ds2)
    last=$(least last.ds2)
    first=$(least first.ds2)
    echo "$items items: add $(each "$empty" "$add" 1000000) ns, find $(each "$walked" "$find" 1000000) ns," \
        "remove the first $(each "$add" "$first" $((100 * rounds))) ns, the last $(each "$walked" "$last" 1000000) ns"
done
