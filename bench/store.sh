#!/bin/sh
# Runs the program over real folders in which reading or writing goes wrong, and looks at the status, the log and what is on the disk.
#
# usage: bench/store.sh [PROGRAM]
#
# PROGRAM is the built program, that of this repository where not given. Needs no kit. What the machine does not let one try (a small file system,
# another user, a limit) is told on a line and skipped. The last line tells how many cases passed and failed; status 1 where one failed.
set -u

top=$(cd "$(dirname "$0")/.." && pwd)
program=${1-$top/crates/ds2/out/ds2}
case $program in
/*) ;;
*) program=$(pwd)/$program ;;
esac
[ -x "$program" ] || {
    echo "no program $program"
    exit 1
}
work=$(mktemp -d)
mounted=
trap 'cd /; [ -z "$mounted" ] || umount "$mounted"; rm -rf "$work"' EXIT
chmod 755 "$work"
passed=0
failed=0
other_user=

copy='data out; method run(); set t; end; enddata;'
over='data out(overwrite=yes); method run(); set t; end; enddata;'
self='data t(overwrite=yes); method run(); set t; end; enddata;'

# begin NAME SOURCE: a new folder with the source and the table of two rows
begin() {
    name=$1
    was_right=yes
    mkdir "$work/$name" && cd "$work/$name" || exit 1
    echo "$2" >job.ds2
    printf 'a bigint\n1\n2\n' >t.csv
}

# what was not as it should be
wrong() {
    was_right=no
    echo "$name: $*"
}

# counts the case
end() {
    if [ "$was_right" = yes ]; then
        passed=$((passed + 1))
    else
        failed=$((failed + 1))
    fi
    cd "$work" || exit 1
}

skip() {
    echo "skipped: $*"
}

# runs the job; a run that takes longer than ten seconds ends with status 124
run() {
    status=0
    timeout 10 "$program" run job.ds2 >"$work/log" 2>"$work/said" || status=$?
}

wants_status() {
    [ "$status" = "$1" ] || wrong "status $status in place of $1: $(cat "$work/log")"
}

# wants_log TEXT: the log is just this line
wants_log() {
    [ "$(cat "$work/log")" = "$1" ] || wrong "log $(cat "$work/log")"
}

# wants_file NAME TEXT: a regular file that has just this text
wants_file() {
    [ -f "$1" ] && [ ! -L "$1" ] || wrong "$1 is no file"
    [ "$(cat "$1")" = "$2" ] || wrong "$1 holds $(head -c 100 "$1")"
}

# no new file that did not take its name is left
wants_no_leftover() {
    for left in .[!.]*; do
        [ ! -e "$left" ] || wrong "left over: $left"
    done
}

table='a bigint
1
2'

# a table of some 300,000 bytes
large_table() {
    awk 'BEGIN { print "a bigint"; for (i = 0; i < 30000; i++) print 100000000 + i }' >t.csv
}

writes_a_table() {
    begin writes_a_table "$copy"
    run
    wants_status 0
    wants_file out.csv "$table"
    wants_no_leftover
    run
    wants_status 5
    wants_log 'ERROR: Output out.csv exists.'
    end
}

# A limit whose signal is ignored makes the write fail; one that ends the run leaves a file of another name.
limit_on_file_size() {
    begin limit_is_a_write_fault "$over"
    echo old >out.csv
    large_table
    status=0
    (
        trap '' XFSZ
        ulimit -f 64
        exec "$program" run job.ds2 >"$work/log"
    ) || status=$?
    wants_status 8
    wants_log 'ERROR: Write fault on out.csv.'
    wants_file out.csv old
    wants_no_leftover
    end

    begin limit_ends_the_run "$self"
    large_table
    cp t.csv before
    status=0
    (
        ulimit -f 64
        exec "$program" run job.ds2 >"$work/log" 2>/dev/null
    ) 2>/dev/null || status=$?
    [ "$status" != 0 ] || wrong "status 0"
    cmp -s t.csv before || wrong "the table was changed"
    [ -e .t.csv.1 ] || [ "$status" = 8 ] || wrong "no file of the run that was ended"
    run
    wants_status 0
    cmp -s t.csv before || wrong "the table was not written again"
    end
}

full_file_system() {
    begin full "$self"
    mkdir small
    if ! mount -t tmpfs -o size=400k tmpfs small 2>/dev/null; then
        skip "a full file system: none may be mounted"
        cd "$work" || exit 1
        return
    fi
    mounted=$PWD/small
    cp job.ds2 small
    cd small || exit 1
    large_table
    cp t.csv "$work/before"
    run
    wants_status 8
    wants_log 'ERROR: Write fault on t.csv.'
    cmp -s t.csv "$work/before" || wrong "the only copy was lost"
    wants_no_leftover
    cd "$work" && umount "$mounted" && mounted=
    end
}

links() {
    begin link_as_input "$copy"
    mv t.csv elsewhere
    ln -s elsewhere t.csv
    run
    wants_status 0
    wants_file out.csv "$table"
    end

    begin link_is_there "$copy"
    echo kept >target
    ln -s target out.csv
    run
    wants_status 5
    wants_file target kept
    end

    begin link_is_replaced "$over"
    echo kept >target
    ln -s target out.csv
    ln -s target job.dso
    run
    wants_status 0
    wants_file out.csv "$table"
    wants_file target kept
    [ ! -L job.dso ] || wrong "job.dso is a link still"
    end

    begin dangling_link "$copy"
    ln -s ../outside.csv out.csv
    run
    wants_status 5
    [ ! -e ../outside.csv ] || wrong "a file was made outside"
    echo "$over" >job.ds2
    run
    wants_status 0
    wants_file out.csv "$table"
    [ ! -e ../outside.csv ] || wrong "a file was made outside"
    end

    begin dangling_input "$copy"
    rm t.csv
    ln -s nowhere t.csv
    run
    wants_status 4
    wants_log 'ERROR: File t.csv refused: Absent.'
    end

    begin link_loop "$copy"
    rm t.csv
    ln -s t.csv t.csv
    run
    wants_status 7
    wants_log 'ERROR: Read fault on t.csv.'
    end

    begin link_loop_as_output "$over"
    ln -s out.csv out.csv
    run
    wants_status 0
    wants_file out.csv "$table"
    end
}

# no_table NAME COMMAND..: what the command makes under the name of a table is a read fault at once, and is not replaced as an output
no_table() {
    kind=$1
    shift
    begin "$kind"_as_input "$copy"
    rm t.csv
    "$@" t.csv
    run
    wants_status 7
    wants_log 'ERROR: Read fault on t.csv.'
    end

    begin "$kind"_as_output "$over"
    "$@" out.csv
    run
    wants_status 8
    wants_log 'ERROR: Write fault on out.csv.'
    [ ! -f out.csv ] || wrong "it was replaced"
    wants_no_leftover
    end
}

# A link to a device is replaced as any link is, so a device of its own is needed.
device() {
    begin device_as_input "$copy"
    rm t.csv
    ln -s /dev/zero t.csv
    run
    wants_status 7
    wants_log 'ERROR: Read fault on t.csv.'
    end

    begin device_as_output "$over"
    if mknod out.csv c 1 3 2>/dev/null; then
        run
        wants_status 8
        wants_log 'ERROR: Write fault on out.csv.'
        [ -c out.csv ] || wrong "it was replaced"
        end
    else
        skip "a device as an output: none may be made"
        cd "$work" || exit 1
    fi
}

# as_other COMMAND..: runs it as somebody whom permissions bind
as_other() {
    if [ "$other_user" = self ]; then
        "$@"
    else
        setpriv --reuid=65534 --regid=65534 --clear-groups "$@"
    fi
}

# run_as_other: the job, run by that somebody
run_as_other() {
    status=0
    as_other timeout 10 "$other_program" run job.ds2 >"$work/log" 2>"$work/said" || status=$?
}

# Root may read and write everything, so its place is taken by another user, who gets a copy of the program.
find_other_user() {
    other_program=$program
    if [ "$(id -u)" != 0 ]; then
        other_user=self
    elif setpriv --reuid=65534 --regid=65534 --clear-groups true 2>/dev/null; then
        other_user=nobody
        cp "$program" "$work/program" && chmod 755 "$work/program"
        other_program=$work/program
        as_other test -x "$other_program" || other_user=
    fi
}

# belongs FILE..: to that somebody
belongs() {
    [ "$other_user" = self ] || chown 65534:65534 "$@"
}

permissions() {
    find_other_user
    if [ -z "$other_user" ]; then
        skip "permissions: they do not bind this user, and there is no other"
        return
    fi
    begin unreadable_input "$copy"
    belongs . job.ds2 t.csv
    chmod 000 t.csv
    run_as_other
    wants_status 7
    wants_log 'ERROR: Read fault on t.csv.'
    chmod 600 t.csv
    end

    begin unwritable_output "$over"
    echo kept >out.csv
    belongs . job.ds2 t.csv out.csv
    chmod 444 out.csv
    run_as_other
    wants_status 8
    wants_log 'ERROR: Write fault on out.csv.'
    wants_file out.csv kept
    wants_no_leftover
    end

    begin unwritable_folder "$copy"
    belongs . job.ds2 t.csv
    chmod 555 .
    run_as_other
    wants_status 8
    wants_log 'ERROR: Write fault on job.dso.'
    chmod 755 .
    wants_no_leftover
    end

    begin folder_that_is_not_read "$copy"
    belongs . job.ds2 t.csv
    chmod 333 .
    run_as_other
    wants_status 0
    chmod 755 .
    wants_file out.csv "$table"
    end
}

modes() {
    begin mode_is_kept "$over"
    echo old >out.csv
    chmod 600 out.csv
    (
        umask 000
        run
        [ "$status" = 0 ]
    ) || wrong "no status 0"
    wants_file out.csv "$table"
    [ "$(stat -c %a out.csv)" = 600 ] || wrong "mode $(stat -c %a out.csv)"
    chmod 664 out.csv
    (
        umask 077
        run
    )
    [ "$(stat -c %a out.csv)" = 664 ] || wrong "mode $(stat -c %a out.csv)"
    end

    begin mode_of_a_new_file "$copy"
    (
        umask 027
        run
    )
    [ "$(stat -c %a out.csv)" = 640 ] || wrong "mode $(stat -c %a out.csv)"
    end
}

leftovers() {
    begin leftover_of_a_killed_run "$over"
    echo torn >.out.csv.1
    echo torn >.job.dso.1
    run
    wants_status 0
    wants_file out.csv "$table"
    wants_file .out.csv.1 torn
    [ ! -e .out.csv.2 ] || wrong "left over: .out.csv.2"
    end

    begin every_number_is_taken "$over"
    echo kept >out.csv
    number=1
    while [ "$number" -le 1000 ]; do
        : >".out.csv.$number"
        number=$((number + 1))
    done
    run
    wants_status 8
    wants_log 'ERROR: Write fault on out.csv.'
    wants_file out.csv kept
    end
}

output_over_its_input() {
    begin output_over_its_input "$self"
    run
    wants_status 0
    wants_file t.csv "$table"
    wants_no_leftover
    end

    begin made_anew "data out; method run(); set t; end; enddata; $over"
    run
    wants_status 0
    wants_file out.csv "$table"
    wants_no_leftover
    end
}

# two_runs OPTION: two sources that make the same table, run at once, twenty times
two_runs() {
    round=0
    while [ "$round" -lt 20 ]; do
        round=$((round + 1))
        rm -f out.csv
        "$program" run one.ds2 >one.log &
        "$program" run two.ds2 >two.log
        second=$?
        wait $!
        first=$?
        for status in "$first" "$second"; do
            case $status in
            0 | "$1" | "$2") ;;
            *) wrong "status $status" ;;
            esac
        done
        [ "$first" = 0 ] || [ "$second" = 0 ] || wrong "neither run made the table"
        cmp -s out.csv t.csv || cmp -s out.csv u.csv || wrong "a table of neither run"
        wants_no_leftover
    done
}

# Where the table of the one came between the question and the write of the other, that one ends with a write fault.
runs_at_once() {
    begin two_runs_at_once "$copy"
    large_table
    awk 'BEGIN { print "a bigint"; for (i = 0; i < 40000; i++) print 200000000 + i }' >u.csv
    cp job.ds2 one.ds2
    echo 'data out; method run(); set u; end; enddata;' >two.ds2
    two_runs 5 8
    end

    begin two_runs_at_once_over_each_other "$copy"
    large_table
    awk 'BEGIN { print "a bigint"; for (i = 0; i < 40000; i++) print 200000000 + i }' >u.csv
    echo "$over" >one.ds2
    echo 'data out(overwrite=yes); method run(); set u; end; enddata;' >two.ds2
    two_runs 0 0
    end
}

writes_a_table
limit_on_file_size
full_file_system
links
no_table folder mkdir
no_table pipe mkfifo
device
permissions
modes
leftovers
output_over_its_input
runs_at_once
echo "$passed passed, $failed failed"
[ "$failed" = 0 ]
