#!/bin/sh
# Counts the processor's instructions that a row of the jobs of bench/jobs costs, by callgrind: the difference of two runs, over 60,000
# and over 10,000 rows, for each row more.
#
# usage: bench/instructions.sh [PROGRAM]
#
# Needs Python 3 and valgrind. Prints a line for each job of JOBS (all of them where it is not set); a row of `merge` is one of its first table, a row of `billing` an order. With a folder's name in KEEP the profiles stay there.
# The thread programs of `totals` and `totals50k` run on THREADS workers, one where it is not set; the instructions of all of them count.
set -eu

top=$(cd "$(dirname "$0")/.." && pwd)
program=${1:-$top/crates/ds2/out/ds2}
case $program in
/*) ;;
*) program=$(pwd)/$program ;;
esac
work=$(mktemp -d)
trap 'rm -rf "$work"' EXIT
keep=${KEEP:-$work}

count() { # JOB ROWS
    folder=$work/$1-$2
    mkdir "$folder"
    python3 "$top/bench/jobs/$1/gen.py" "$2" "$folder"
    cp "$top/bench/jobs/$1/job.ds2" "$folder"
    (cd "$folder" && valgrind --tool=callgrind --callgrind-out-file="$keep/$1-$2.callgrind" "$program" run job.ds2 --threads "${THREADS:-1}" >log 2>said)
    sed -n 's/^==.*Collected : //p' "$folder/said"
}

for job in ${JOBS:-first arith merge billing totals totals50k}; do
    few=$(count "$job" 10000)
    many=$(count "$job" 60000)
    echo "$job: $(((many - few) / 50000)) instructions a row"
done
