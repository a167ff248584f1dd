#!/bin/sh
# Runs the jobs of a page with the built program, and compares their tables and logs with those that the page shows.
#
# usage: docs/jobs.sh PROGRAM [PAGE ..]     without a page: LANGUAGE.md, COMMANDS.md and LOCALITY.md beside this script
#
# A comment above a block says what the block is; a page as it is read does not show it:
#   <!-- job NAME WORDS.. -->         a source, run by `run job.ds2 WORDS..` in a folder of its own
#   <!-- again NAME OF: STEPS -->     no block: a job with the files of the job OF, for which STEPS are done in place of the run
#   <!-- example NAME OF: STEPS -->   likewise with the files of examples/OF
#   <!-- source -->                   the source of a job that is done again, where it is not that of OF
#   <!-- reads FILE -->               a file that lies in this folder
#   <!-- writes FILE -->              a file that the run makes there, byte for byte
#   <!-- log STATUS -->               the log, and the exit status where it is not 0
#   <!-- silent STATUS -->            no block: there is no log
#   <!-- verdict THREAD: VERDICT -->  a source with this thread program, of which `check` says the verdict; the page has it in a text of its own
# A step is a command of the program (`check job.ds2`), or one of: `remove FILE`, `move FILE NAME`, `folder FILE` (makes one in the place of the file),
# `cut FILE` (takes the last byte off), `unprinted WORDS..` (a command whose log goes to a full device), `explained WORDS..` (a command with its
# explanation behind the log). Steps are parted by `;`, and the log is that of the last
# one; several lists of steps are parted by `|`, and each is done in a folder of its own and gives this log.
# Each section of LANGUAGE.md has a job or names one of examples/. Each job has a log, and a run makes no other file than its object and those that
# the page shows; the jobs done again may make what those do that they are made of.

usage="usage: docs/jobs.sh PROGRAM [PAGE ..]"
program=${1:?$usage}
shift
here=$(dirname "$0")
explain=$(cd "$here/../explain" && pwd)
[ "$#" -gt 0 ] || set -- "$here/LANGUAGE.md" "$here/COMMANDS.md" "$here/LOCALITY.md"
case $program in
/*) ;;
*) program=$(pwd)/$program ;;
esac
work=$(mktemp -d) || exit 1
trap 'rm -rf "$work"' EXIT
failed=0

fail() {
    echo "docs/jobs.sh: $page: $*"
    failed=1
}

end_section() {
    case $page in
    *LANGUAGE.md) [ "$has_job" = yes ] || fail "the section '$section' has no job" ;;
    esac
}

make_job() {
    job=$1
    has_job=yes
    [ ! -e "$jobs/$job" ] || fail "the job $job stands twice"
    mkdir -p "$jobs/$job/run" "$jobs/$job/wanted"
}

# What a comment says that the next block is.
read_mark() {
    [ -z "$target" ] || fail "no block follows ${target#"$jobs/"}"
    case $1 in
    job)
        make_job "$2"
        target=$jobs/$job/run/job.ds2
        shift 2
        echo "run job.ds2 $*" >"$jobs/$job/steps"
        ;;
    again)
        other=${3%:}
        make_job "$2"
        [ -d "$jobs/$other/run" ] || fail "there is no job $other"
        cp -R "$jobs/$other/run/." "$jobs/$job/run"
        shift 3
        echo "$*" >"$jobs/$job/steps"
        : >"$jobs/$job/is_again"
        ;;
    example)
        make_job "$2"
        for file in "$here/../examples/${3%:}"/*; do
            [ -d "$file" ] || cp "$file" "$jobs/$job/run"
        done
        shift 3
        echo "$*" >"$jobs/$job/steps"
        : >"$jobs/$job/is_again"
        ;;
    source) target=$jobs/$job/run/job.ds2 ;;
    reads) target=$jobs/$job/run/$2 ;;
    writes) target=$jobs/$job/wanted/$2 ;;
    log)
        target=$jobs/$job/log
        echo "${2:-0}" >"$jobs/$job/status"
        ;;
    silent)
        : >"$jobs/$job/log"
        echo "${2:-0}" >"$jobs/$job/status"
        ;;
    verdict)
        count_of_verdicts=$((count_of_verdicts + 1))
        make_job "verdict$count_of_verdicts"
        target=$jobs/$job/run/job.ds2
        : >"$jobs/$job/is_again"
        thread=${2%:}
        shift 2
        grep -qF "\`$*\`" "$page" || fail "the text lacks the verdict $*"
        printf 'NOTE: Thread %s, %s.\n' "$thread" "$*" >"$jobs/$job/log"
        echo 0 >"$jobs/$job/status"
        echo 'check job.ds2' >"$jobs/$job/steps"
        printf 'region,prod,cust,amt\nN,A,C1,1.50\n' >"$jobs/$job/run/sales.csv"
        ;;
    *) fail "a comment says '$1'" ;;
    esac
}

read_page() {
    section=
    has_job=yes
    job=
    target=
    is_open=no
    count_of_verdicts=0
    while IFS= read -r line; do
        case $line in
        '```'*)
            if [ "$is_open" = yes ]; then
                is_open=no
                target=
            else
                is_open=yes
                [ -z "$target" ] || : >"$target"
            fi
            ;;
        *)
            if [ "$is_open" = yes ]; then
                [ -z "$target" ] || printf '%s\n' "$line" >>"$target"
                continue
            fi
            case $line in
            '## '*)
                end_section
                section=${line#'## '}
                has_job=no
                ;;
            '<!-- '*' -->')
                line=${line#'<!-- '}
                # The words of a mark have no characters that a shell reads as more than themselves.
                read_mark ${line%' -->'}
                ;;
            *'`examples/'*) has_job=yes ;;
            esac
            ;;
        esac
    done <"$page"
    end_section
}

# Does one step in the folder of a job.
do_step() {
    case $1 in
    remove) rm -f "$2" ;;
    move) mv "$2" "$3" ;;
    folder) rm -f "$2" && mkdir "$2" ;;
    cut) head -c "$(($(wc -c <"$2") - 1))" "$2" >"$2.cut" && mv "$2.cut" "$2" ;;
    unprinted)
        shift
        "$program" "$@" >/dev/full
        ;;
    explained)
        shift
        . "$explain/run.sh"
        (run_explained "$program" "$explain/explain.sh" "$@") 2>&1
        ;;
    *) "$program" "$@" ;;
    esac
}

# Does a list of steps: the log and the status are those of the last one.
do_steps() {
    steps=$1
    while [ -n "$steps" ]; do
        step=${steps%%;*}
        case $steps in
        *';'*) steps=${steps#*;} ;;
        *) steps= ;;
        esac
        (cd "$folder/try" && do_step $step) >"$folder/said" </dev/null
        ended=$?
    done
}

check_run() {
    name=${folder##*/}
    [ "$ended" -eq "$(cat "$folder/status")" ] || fail "the job $name ended with status $ended"
    cmp -s "$folder/said" "$folder/log" || fail "the job $name has another log: $(cat "$folder/said")"
    for file in "$folder/wanted"/*; do
        made=${file##*/}
        [ "$made" = '*' ] || cmp -s "$folder/try/$made" "$file" || fail "the job $name writes another $made: $(cat "$folder/try/$made" 2>/dev/null)"
    done
    [ -e "$folder/is_again" ] && return
    for file in "$folder/try"/*; do
        made=${file##*/}
        [ "$made" = job.dso ] || [ -e "$folder/wanted/$made" ] || [ -e "$folder/run/$made" ] || fail "the job $name makes $made, which the page lacks"
    done
}

run_job() {
    folder=$1
    [ -f "$folder/status" ] || {
        fail "the job ${folder##*/} has no log"
        return
    }
    lists=$(cat "$folder/steps")
    while [ -n "$lists" ]; do
        list=${lists%%|*}
        case $lists in
        *'|'*) lists=${lists#*|} ;;
        *) lists= ;;
        esac
        rm -rf "$folder/try"
        cp -R "$folder/run" "$folder/try"
        do_steps "$list"
        check_run
    done
}

for page in "$@"; do
    jobs=$work/${page##*/}
    mkdir -p "$jobs"
    read_page
    count=0
    for each in "$jobs"/*/; do
        [ -d "$each" ] || continue
        run_job "${each%/}"
        count=$((count + 1))
    done
    [ "$failed" -eq 0 ] && echo "docs/jobs.sh: $count jobs of $page run as it says"
done
exit "$failed"
