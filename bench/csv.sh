#!/bin/sh
# Times `ds2 run` copying a table of four columns of mixed types row by row, beside Python's csv module copying the file record by
# record, and mawk copying it field by field.
#
# usage: bench/csv.sh [ROWS]
#
# At most 1,000,000 rows, which have as many cells as a table may have. Needs mawk (Debian's package mawk), Python 3 and GNU time
# (Debian's package time) for the peak memory. Prints the wall time of each in seconds, the best of five runs in turn, their ratios,
# the time of a job that reads the same table and writes no row of it, and the peak memory. The outputs are compared.
set -eu

rows=${1:-1000000}
top=$(cd "$(dirname "$0")/.." && pwd)
ours=$top/crates/ds2/out/ds2
work=$(mktemp -d)
trap 'rm -rf "$work"' EXIT
cd "$work"
"$top/ds2" --build
echo 'data copy(overwrite=yes); method run(); set t; end; enddata;' >copy.ds2
echo 'data none(overwrite=yes); method run(); set t; if null(id) then output; end; enddata;' >none.ds2

mawk -v n="$rows" 'BEGIN {
    print "id,name,amount,city"
    names = split("Garcia|Lee|Müller|Novák|Ångström|\"O\"\"Neil\"|\"Smith, John\"", name, "|")
    cities = split("Berlin|New York|Oslo|São Paulo|Łódź", city, "|")
    s = 1
    for (i = 1; i <= n; i++) {
        s = (s * 16807) % 2147483647
        id = s % 1000000000
        s = (s * 16807) % 2147483647
        who = name[s % names + 1]
        s = (s * 16807) % 2147483647
        amount = s % 9999900 + 100
        s = (s * 16807) % 2147483647
        printf "%d,%s,%d.%02d,%s\n", id, who, int(amount / 100), amount % 100, city[s % cities + 1]
    }
}' >t.csv

best() { # OLD NEW
    if [ "$2" -lt "$1" ]; then echo "$2"; else echo "$1"; fi
}

milliseconds() { # COMMAND..
    from=$(date +%s%N)
    "$@"
    to=$(date +%s%N)
    echo $(((to - from) / 1000000))
}

copy_ours() { "$ours" run copy.ds2 >log; }
read_ours() { "$ours" run none.ds2 >log; }
copy_python() {
    python3 -c '
import csv
with open("t.csv", newline="", encoding="utf-8") as source, open("python.csv", "w", newline="", encoding="utf-8") as copy:
    csv.writer(copy, lineterminator="\n").writerows(csv.reader(source))
'
}
copy_mawk() { mawk -F, -v OFS=, '{$1=$1; print}' t.csv >mawk.csv; }

time_ours=999999
time_python=999999
time_mawk=999999
time_read=999999
for turn in 1 2 3 4 5; do
    time_ours=$(best "$time_ours" "$(milliseconds copy_ours)")
    time_read=$(best "$time_read" "$(milliseconds read_ours)")
    time_python=$(best "$time_python" "$(milliseconds copy_python)")
    time_mawk=$(best "$time_mawk" "$(milliseconds copy_mawk)")
done
cmp t.csv python.csv
cmp t.csv mawk.csv
head -n 1 copy.csv
tail -n +2 t.csv >rows.csv
tail -n +2 copy.csv | cmp - rows.csv
peak=$(/usr/bin/time -f %M "$ours" run copy.ds2 2>&1 >/dev/null | tail -n 1 || echo '?')
mawk -v rows="$rows" -v bytes="$(wc -c <t.csv)" -v o="$time_ours" -v p="$time_python" -v m="$time_mawk" -v r="$time_read" \
    -v peak="$peak" 'BEGIN {
    printf "%d rows, %.1f MB\n", rows, bytes / 1000000
    printf "ds2 %.3f s, %.3f s without writing, peak memory %d KB\n", o / 1000, r / 1000, peak
    printf "python csv %.3f s, ratio %.2f\n", p / 1000, o / p
    printf "mawk %.3f s, ratio %.2f\n", m / 1000, o / m
}'
