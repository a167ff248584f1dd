#!/bin/sh
# Explains how a command has ended: prints the place with what stands there, and a sentence or two on what to do.
#
# usage: explain/explain.sh PROGRAM STATUS LASTLINE WORDS..
#
# STATUS and LASTLINE are the exit status and the last line of the log of `PROGRAM WORDS..`, which has ended in the current folder. Nothing
# else of the log is looked at, and no file of the folder is changed. The sentences are those of sentences.txt. PROGRAM, an absolute path, is
# run in a folder of its own where it is to tell the types of a table's columns.

LC_ALL=C
export LC_ALL
program=${1:?usage: explain/explain.sh PROGRAM STATUS LASTLINE WORDS..}
status=${2:?usage: explain/explain.sh PROGRAM STATUS LASTLINE WORDS..}
line=${3-}
[ "$#" -lt 3 ] && shift "$#" || shift 3
here=$(cd "$(dirname "$0")" && pwd) || exit 0
tab=$(printf '\t')

# Prints the sentence of a name, or that of its kind, with the file for @FILE and its name without the ending for @TABLE.
say() {
    awk -v wanted="$1" -v name="${2-}" '
        BEGIN { FS = "\t"; kind = wanted; sub(/\/.*/, "", kind); table = name; sub(/\.[^.]*$/, "", table) }
        $1 == wanted { own = $2 }
        $1 == kind { general = $2 }
        END {
            if (own == "") own = general
            if (own == "") exit
            gsub(/@FILE/, name, own)
            gsub(/@TABLE/, table, own)
            print kind ": " own
        }' "$here/sentences.txt"
}

# The types of a table's columns: the header of a copy of it, made in a folder of its own.
types_of() {
    [ -f "$1.csv" ] && [ -r "$1.csv" ] || return 1
    copies=$(mktemp -d 2>/dev/null) || return 1
    ln -s "$(pwd)/$1.csv" "$copies/t.csv" &&
        echo 'data copy; method run(); set t; if 0 then output; end; enddata;' >"$copies/job.ds2" &&
        (cd "$copies" && "$program" run job.ds2 >/dev/null 2>&1) && cat "$copies/copy.csv"
    ended=$?
    rm -rf "$copies"
    return "$ended"
}

# Prints what place.awk or cell.awk has found, and what the tables are that it asks for.
print_found() {
    key=
    declared=
    tables=
    while IFS=$tab read -r mark first second; do
        case $mark in
        T) tables="$tables $first" ;;
        D) declared="$declared$first $second
" ;;
        K) key=$first ;;
        esac
    done <<FOUND
$1
FOUND
    printf '%s\n' "$1" | sed -n "s/^P$tab//p"
    for table in $tables; do
        header=$(types_of "$table") || continue
        printf 'The columns of %s.csv: %s\n' "$table" "$header"
        tell_declared "$header"
    done
}

# Which of the columns of a header are declared, and how.
tell_declared() {
    printf '%s' "$declared" | awk -v header="$1" '
        BEGIN {
            gsub(/"/, "", header)
            gsub(/,[0-9]/, "&", header)
            many = split(header, parts, ",")
            for (i = 1; i <= many; i++) {
                # The comma within decimal(p,s) is none between columns.
                if (parts[i] ~ /\([0-9]+$/) { parts[i + 1] = parts[i] "," parts[i + 1]; continue }
                at = length(parts[i])
                while (at > 0 && substr(parts[i], at, 1) != " ") at--
                types[substr(parts[i], 1, at - 1)] = substr(parts[i], at + 1)
            }
        }
        {
            at = length($0)
            while (at > 0 && substr($0, at, 1) != " ") at--
            name = substr($0, 1, at - 1)
            if (name in types && types[name] != substr($0, at + 1))
                print "  " name " is " types[name] " there, and is declared " substr($0, at + 1)
        }'
}

explain_place() {
    kind=$1
    source=$2
    if [ -f "$source" ] && [ -r "$source" ]; then
        print_found "$(awk -v kind="$kind" -v row="$3" -v column="$4" -v name="$source" -f "$here/place.awk" "$source")"
    else
        key=$kind
    fi
    say "$key"
}

explain_file() {
    name=$1
    kind=$2
    key=$kind
    case $kind in
    BadRecord | BadCell | BadHeader | BadType | DuplicateColumn)
        if [ -f "$name" ] && [ -r "$name" ]; then
            print_found "$(awk -v kind="$kind" -v row="$3" -v column="$4" -v name="$name" -v ended="$(tail -c 1 "$name" | wc -l)" -f "$here/cell.awk" "$name")"
        fi
        ;;
    Absent)
        for other in *; do
            [ "$other" != "$name" ] && [ "$(printf '%s' "$other" | tr 'A-Z' 'a-z')" = "$name" ] && echo "There is \`$other\`: rename it, since names of files are in lower case."
        done
        case $name in
        *.csv) key=Absent/table ;;
        esac
        ;;
    OtherSchema)
        header=$(types_of "${name%.csv}") && printf 'The columns of %s: %s\n' "$name" "$header"
        ;;
    esac
    say "$key" "$name"
}

# The source of the command's words: for an object the one that it bears the name of.
case ${1-} in
exec)
    source=${2-}
    source=${source%.dso}.ds2
    ;;
*) source=${2-} ;;
esac

number() {
    printf '%s' "$1" | tr -cd '0-9'
}

# The words of the last line; a name in it has no blank.
line=${line%.}
set -f
set -- $line
set +f
case $status in
2) say Usage ;;
3) [ "$#" -ge 6 ] && explain_place "$4" "$source" "${6%%:*}" "${6#*:}" ;;
4)
    [ "$#" -ge 5 ] || exit 0
    row=0
    column=0
    case "$*" in
    *' at row '*' column '*) row=$(number "$8") column=$(number "${10}") ;;
    *' at row '*) row=$(number "$8") ;;
    *' at column '*) column=$(number "$8") ;;
    esac
    explain_file "$3" "$5" "$row" "$column"
    ;;
5)
    if [ -e "${3-}" ] || [ -L "${3-}" ]; then
        say Exists "${3-}"
    else
        say Exists/made "${3-}"
    fi
    ;;
6) [ "$#" -ge 4 ] && explain_place "$2" "$source" "${4%%:*}" "${4#*:}" ;;
7)
    if [ -e "${5-}" ] && [ ! -f "${5-}" ]; then
        say Read/folder "${5-}"
    else
        say Read "${5-}"
    fi
    ;;
8) say Write "${5-}" ;;
9) say Log ;;
10) [ "$#" -ge 4 ] && say "$4" "$source" ;;
11) say Memory ;;
esac
exit 0
