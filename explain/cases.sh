#!/bin/sh
# Runs the cases of cases.txt: each is a command that is refused, and what is printed behind its log. Prints each explanation, and then
# how many were as they should be.
#
# usage: explain/cases.sh PROGRAM
#
# A case begins with `--- NAME`, the name of the sentence that it ends with. What is run stands in the lines up to `=`, with \n for the end
# of a line, and \t and \\ likewise; what is printed to standard error stands behind it.
#   source TEXT       job.ds2
#   global TEXT       job.ds2: the declarations of a data program that copies s.csv
#   statement TEXT    job.ds2: a statement behind its `set`
#   table TEXT        t.csv, of which job.ds2 makes a copy
#   file NAME TEXT    one more file
#   folder NAME       a folder
#   first WORDS       a command that is run before
#   cut NAME BYTES    this file keeps so many bytes; with 0 it is taken away
#   words WORDS       the command, where it is not `run job.ds2`
#   through           the command is run by run.sh, as the script `ds2` runs it
#   told STATUS LINE  nothing is run: the status and the last line of the log
# Each sentence has a case, and each kind of the pages LANGUAGE.md and COMMANDS.md has a sentence.

program=${1:?usage: explain/cases.sh PROGRAM}
here=$(cd "$(dirname "$0")" && pwd) || exit 1
case $program in
/*) ;;
*) program=$(pwd)/$program ;;
esac
[ -x "$program" ] || {
    echo "explain/cases.sh: there is no program $program"
    exit 1
}
work=$(mktemp -d) || exit 1
trap 'rm -rf "$work"' EXIT
passed=0
failed=0
table='k,v,amt,c\n1,2,1.50,ab\n1,3,2.25,\\\\N\n'

fail() {
    failed=$((failed + 1))
    echo "FAILED: $*"
}

pass() {
    passed=$((passed + 1))
}

begin_case() {
    name=$1
    rm -rf "$work/run"
    mkdir "$work/run"
    : >"$work/wanted"
    words='run job.ds2'
    told=
    is_through=no
    printf "$table" >"$work/run/s.csv"
}

# One line of what is run.
prepare() {
    form=${1%% *}
    text=${1#* }
    file=${text%% *}
    case $form in
    source) printf '%b' "$text" >"$work/run/job.ds2" ;;
    global) printf 'data out;\n%b\nmethod run();\nset s;\nend;\nenddata;\n' "$text" >"$work/run/job.ds2" ;;
    statement)
        printf 'data out;\ndcl bigint n;\ndcl decimal(10,2) x;\ndcl varchar(20) t;\ndcl package hash h([k],[v]);\nretain n;\nmethod init();\nn = 0;\nend;\nmethod run();\nset s; by k;\n%b\nend;\nenddata;\n' "$text" >"$work/run/job.ds2"
        ;;
    table)
        printf 'data out;\nmethod run();\nset t;\nend;\nenddata;\n' >"$work/run/job.ds2"
        printf '%b' "$text" >"$work/run/t.csv"
        ;;
    file) printf '%b' "${text#* }" >"$work/run/$file" ;;
    folder) mkdir "$work/run/$file" ;;
    first) (cd "$work/run" && "$program" $text </dev/null >/dev/null 2>&1) ;;
    cut)
        head -c "${text#* }" "$work/run/$file" >"$work/cut"
        rm "$work/run/$file"
        [ "${text#* }" = 0 ] || mv "$work/cut" "$work/run/$file"
        ;;
    words) words=$text ;;
    through) is_through=yes ;;
    told) told=$text ;;
    *) fail "$name: the case says '$form'" ;;
    esac
}

# Runs the command through run_explained: log, status and files are those of the command alone.
run_through() {
    cp -R "$work/run" "$work/alone"
    (cd "$work/alone" && "$program" $words </dev/null) >"$work/log"
    status=$?
    (cd "$work/run" && . "$here/run.sh" && run_explained "$program" "$here/explain.sh" $words) >"$work/explained" 2>"$work/said"
    ended=$?
    [ "$ended" -eq "$status" ] || fail "$name: explained, the status is $ended and not $status"
    cmp -s "$work/log" "$work/explained" || fail "$name: explained, the log is $(cat "$work/explained")"
    diff -r "$work/alone" "$work/run" >/dev/null || fail "$name: explained, the command leaves other files"
    rm -rf "$work/alone"
}

end_case() {
    [ -n "$name" ] || return 0
    if [ "$is_through" = yes ]; then
        run_through
    else
        if [ -z "$told" ]; then
            told=$(
                cd "$work/run" || exit
                "$program" $words </dev/null >"$work/log"
                status=$?
                last=
                while IFS= read -r line; do last=$line; done <"$work/log"
                echo "$status $last"
            )
        fi
        (cd "$work/run" && sh "$here/explain.sh" "$program" "${told%% *}" "${told#* }" $words) >"$work/said" 2>&1
    fi
    echo "--- $name"
    cat "$work/said"
    if cmp -s "$work/said" "$work/wanted"; then
        pass
    else
        fail "$name: another text is due:"
        cat "$work/wanted"
    fi
    { echo "--- $name"; cat "$work/said"; } >>"$work/all"
}

name=
is_wanted=no
while IFS= read -r line; do
    case $line in
    '--- '*)
        end_case
        begin_case "${line#--- }"
        is_wanted=no
        ;;
    '=') is_wanted=yes ;;
    *)
        if [ "$is_wanted" = yes ]; then
            printf '%s\n' "$line" >>"$work/wanted"
        else
            prepare "$line"
        fi
        ;;
    esac
done <"$here/cases.txt"
end_case

# Each sentence has a case, and each case ends with its own.
awk -F '\t' '
    FNR == NR { if ($1 in sentences) print "the sentence " $1 " stands twice"; sentences[$1] = $2; next }
    function end_case() {
        if (name == "") return
        if (!(name in sentences)) { print "there is no sentence " name; return }
        wanted = name
        sub(/\/.*/, "", wanted)
        wanted = wanted ": " sentences[name]
        # A sentence with the name of a file in it is compared with the text of its case alone.
        if (wanted !~ /@/ && last != wanted) print "the case " name " ends with another sentence"
        has_case[name] = 1
    }
    /^--- / { end_case(); name = substr($0, 5); next }
    { last = $0 }
    END {
        end_case()
        for (name in sentences) if (!(name in has_case)) print "the sentence " name " has no case"
    }' "$here/sentences.txt" "$work/all" >"$work/wrong"
while IFS= read -r line; do fail "$line"; done <"$work/wrong"
cut -f 1 "$here/sentences.txt" >"$work/keys"

# The kinds of the pages: the first cells of tables of kinds, and the names of statuses.
kinds_of_pages() {
    awk -F '|' '
        /^\|/ {
            if (is_rule == 0) { form = ""; if ($2 ~ /^ kind $/) form = "kind"; if ($2 ~ /^ status $/ && $3 ~ /^ name $/) form = "status" }
            is_rule = 1
            text = (form == "kind") ? $2 : (form == "status" && $2 !~ /status/) ? "`" $3 "`" : ""
            gsub(/ at byte B/, "", text)
            while (match(text, /`[ ]?[A-Z][A-Za-z0-9]+[ ]?`/)) {
                word = substr(text, RSTART + 1, RLENGTH - 2)
                gsub(/ /, "", word)
                print word
                text = substr(text, RSTART + RLENGTH)
            }
            next
        }
        { is_rule = 0 }' "$here/../docs/LANGUAGE.md" "$here/../docs/COMMANDS.md" | sort -u
}
# The statuses whose lines have a kind are explained by the kind.
kinds_of_pages | grep -vxE 'Done|Source|File|Fault|Object' >"$work/kinds"
sed 's/\/.*//' "$work/keys" | sort -u >"$work/told_kinds"
if cmp -s "$work/kinds" "$work/told_kinds"; then
    pass
else
    fail "the kinds of the pages (<) are not those of the sentences (>):"
    diff "$work/kinds" "$work/told_kinds"
fi

echo "explain/cases.sh: $passed passed, $failed failed"
[ "$failed" -eq 0 ]
