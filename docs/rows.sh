#!/bin/sh
# Runs the rows of docs/FROM-SAS.md: each form of SAS is refused as its row says, and what is to be written in its place runs.
#
# usage: docs/rows.sh PROGRAM [PAGE]
#
# A comment above a block says what the block is; a page as it is read does not show it:
#   <!-- reads FILE -->   a file that lies in the folder of each run
#   <!-- frame -->        a source; the forms of the tables that follow stand in the place of its line of three dots
# A row has the form, its refusal as "`KIND` at COLUMN, `WORD`", and what is to be written: the first text between backticks, or a sentence
# that begins with "none".

program=${1:?usage: docs/rows.sh PROGRAM [PAGE]}
page=${2:-$(dirname "$0")/FROM-SAS.md}
case $program in
/*) ;;
*) program=$(pwd)/$program ;;
esac
work=$(mktemp -d) || exit 1
trap 'rm -rf "$work"' EXIT
mkdir "$work/run" "$work/rows"
failed=0
count=0

fail() {
    echo "docs/rows.sh: $*"
    failed=1
}

# Writes the tables, of each row N the source formN.ds2, and hereN.ds2 where something is to be written in its place, and its lines into rows/N:
# the form, whether the word of the row stands at its place, and the line of the log.
awk -v work="$work" '
    function spelled(cell) {
        if (!match(cell, /`[^`]*`/)) return ""
        cell = substr(cell, RSTART + 1, RLENGTH - 2)
        gsub(/\\\|/, "|", cell)
        return cell
    }
    function put_source(form, file,    i) {
        for (i = 1; i <= frame_lines; i++) print (i == at ? form : frame[i]) >file
        close(file)
    }
    /^```/ {
        if (is_open) { is_open = 0; mark = ""; if (target != "") close(target); target = "" }
        else {
            is_open = 1
            if (mark ~ /^reads /) target = work "/run/" substr(mark, 7)
            if (mark == "frame") { frame_lines = 0; at = 0 }
        }
        next
    }
    is_open {
        if (target != "") print >target
        if (mark == "frame") { frame[++frame_lines] = $0; if ($0 ~ /^[ ]*\.\.\.$/) at = frame_lines }
        next
    }
    /^<!-- .* -->$/ { mark = substr($0, 6, length($0) - 9); next }
    /^\| `/ {
        row = substr($0, 3, length($0) - 4)
        gsub(/\\\|/, "\001", row)
        many = split(row, cells, / \| /)
        for (i = 1; i <= many; i++) gsub(/\001/, "\\|", cells[i])
        rows++
        form = spelled(cells[1])
        put_source(form, work "/run/form" rows ".ds2")
        kind = spelled(cells[2])
        place = cells[2]
        sub(/^[^,]* at /, "", place)
        word = place
        sub(/^[0-9]*, /, "", word)
        word = spelled(word)
        sub(/,.*/, "", place)
        is_right = (many == 3 && at && kind != "" && word != "" && substr(form, place, length(word)) == word)
        file = work "/rows/" rows
        print form >file
        print (is_right ? "yes" : "no") >file
        print "ERROR: Source refused: " kind " at " at ":" place "." >file
        close(file)
        if (cells[3] !~ /^none/) put_source(spelled(cells[3]), work "/run/here" rows ".ds2")
    }' "$page"

# Few processes are begun for a row: what is refused makes no file, and so the rows share a folder.
cd "$work/run" || exit 1
while [ -f "../rows/$((count + 1))" ]; do
    count=$((count + 1))
    {
        IFS= read -r name
        IFS= read -r is_right
        IFS= read -r wanted
    } <"../rows/$count"
    [ "$is_right" = yes ] || fail "the row of '$name' has another form, or another word stands at its place"
    said=$("$program" run "form$count.ds2" </dev/null)
    ended=$?
    { [ "$ended" -eq 3 ] && [ "$said" = "$wanted" ]; } || fail "'$name' ends with status $ended and: $said"
    [ -f "here$count.ds2" ] || continue
    said=$("$program" run "here$count.ds2" </dev/null)
    ended=$?
    [ "$ended" -eq 0 ] || fail "what is to be written for '$name' ends with status $ended and: $said"
    rm -f out.csv
done
[ "$count" -gt 0 ] || fail "$page has no rows"
[ "$failed" -eq 0 ] && echo "docs/rows.sh: $count rows of $page are as they say"
exit "$failed"
