# Tells a cell, or a record, of a table: records and cells are read as the program reads them.
#
# awk -v kind=KIND -v row=ROW -v column=COLUMN -v name=FILE -v ended=1 -f cell.awk FILE
#
# ENDED is 0 where no line feed stands at the end of the file. ROW counts the records below the header and is 0 for the header itself. Lines are printed as those of place.awk, with the letters P and K.
# A line feed, a carriage return and both end a record; empty lines are none. A cell that begins with a quote goes on to the next quote that is
# not doubled; what stands behind that one, up to the end of the cell, belongs to it as it stands.

function shown(text) {
    if (length(text) > 80) {
        text = substr(text, 1, 80)
        # No part of a character is left at the end.
        sub(/[\300-\377]?[\200-\277]*$/, "", text)
        text = text ".."
    }
    gsub(/\302[\200-\237]/, "?", text)
    gsub(/[\001-\010\012-\037\177]/, "?", text)
    return text
}

# A record is as long as its quotes ask for: counts the quotes that open and close cells of a line, from within a cell or not.
function is_left_open(text, within,    at) {
    if (!within && text !~ /"/) return 0
    while (1) {
        if (!within) {
            # Only a quote at the beginning of a cell opens one.
            if (substr(text, 1, 1) == "\"") {
                text = substr(text, 2)
                within = 1
                continue
            }
            at = index(text, ",")
            if (!at) return 0
            text = substr(text, at + 1)
            continue
        }
        at = index(text, "\"")
        if (!at) return 1
        text = substr(text, at + 1)
        if (substr(text, 1, 1) == "\"") {
            text = substr(text, 2)
            continue
        }
        within = 0
        at = index(text, ",")
        if (!at) return 0
        text = substr(text, at + 1)
    }
}

# Reads the cells of a record into an array, and tells how many there are.
function cells_of(text, cells,    count, at, cell) {
    count = 0
    while (1) {
        cell = ""
        if (substr(text, 1, 1) == "\"") {
            text = substr(text, 2)
            while (1) {
                at = index(text, "\"")
                if (!at) { cell = cell text; text = ""; break }
                cell = cell substr(text, 1, at - 1)
                text = substr(text, at + 1)
                if (substr(text, 1, 1) != "\"") break
                cell = cell "\""
                text = substr(text, 2)
            }
        }
        at = index(text, ",")
        if (!at) { cells[++count] = cell text; return count }
        cells[++count] = cell substr(text, 1, at - 1)
        text = substr(text, at + 1)
    }
}

# A piece of the file without a line feed in it: one record, a part of one, or several that a carriage return ends.
function take_piece(piece,    at) {
    while (!is_done) {
        at = index(piece, "\r")
        take_line(at ? substr(piece, 1, at - 1) : piece, at ? "\r" : "\n")
        if (!at) return
        piece = substr(piece, at + 1)
        # The line feed behind a carriage return ends nothing more.
        if (piece == "") { if (is_open) record = record "\n"; return }
        returns++
    }
}

function take_line(text, ending) {
    if (!is_open && text == "") return
    if (!is_open) begins_at = NR + returns
    is_open = is_left_open(text, is_open)
    record = record text (is_open ? ending : "")
    if (!is_open) end_record()
}

function end_record() {
    if (count_of_records == 0) width = cells_of(record, header)
    if (count_of_records == row + 0) {
        found = record
        found_at = begins_at
        is_done = 1
    }
    count_of_records++
    record = ""
}

BEGIN { RS = "\n" }
NR == 1 && substr($0, 1, 3) == "\357\273\277" { $0 = substr($0, 4) }
{
    take_piece($0)
    if (is_done) exit
}

function type_of(text) {
    sub(/^[ \t]+/, "", text)
    sub(/[ \t]+$/, "", text)
    if (tolower(text) ~ /[^ ] (bigint|decimal\([0-9]+,[0-9]+\)|char\([0-9]+\)|varchar\([0-9]+\))$/) {
        sub(/^.* /, "", text)
        return tolower(text)
    }
    return ""
}

function name_of(text) {
    sub(/^[ \t]+/, "", text)
    sub(/[ \t]+$/, "", text)
    if (type_of(text) != "") sub(/ [^ ]*$/, "", text)
    return text
}

function characters(text) {
    gsub(/[\200-\277]/, "", text)
    return length(text)
}

function bad_cell(cell, type) {
    if (type == "" || type ~ /char/) return "long"
    if (is_missing(cell)) return "missing"
    if (cell ~ /^[ \t]+/ || cell ~ /[ \t]+$/) return "blank"
    if (cell ~ /^[-+]?0[0-9]/ || cell ~ /^\+/) return "zero"
    if (cell ~ /^-?[0-9]+$/ && type == "bigint") return "big"
    if (cell ~ /^-?[0-9]+(\.[0-9]+)?$/) return type == "bigint" ? "point" : "digits"
    return ""
}

function is_missing(cell) {
    return index(" . na n/a nan null none - # ", " " tolower(cell) " ") > 0
}

END {
    if (!is_done && is_open) {
        # A quote that is never closed goes on to the end of the file.
        if (!ended) sub(/\n$/, "", record)
        is_open = 0
        end_record()
    }
    if (!is_done) { print "K\t" kind; exit }
    key = ""
    count = cells_of(found, cells)
    where = "line " found_at " of " name
    if (column + 0 > 0) {
        if (row + 0 == 0) print "P\t" where ", column " column ": the header cell is `" shown(cells[column + 0]) "`."
        else {
            type = type_of(header[column + 0])
            print "P\t" where ", row " row ", column `" shown(name_of(header[column + 0])) "`" (type == "" ? "" : " of type " type) ": the cell is `" shown(cells[column + 0]) "`, " \
                (characters(cells[column + 0]) == 1 ? "1 character" : characters(cells[column + 0]) " characters") "."
            key = bad_cell(cells[column + 0], type)
        }
    } else {
        print "P\t" where ", row " row " has " count (count == 1 ? " cell" : " cells") ", and the header " width ":"
        print "P\t    " shown(found)
        for (i = 1; i <= width; i++) if (tolower(header[i]) ~ /[ \t]decimal\([0-9]+$/ || tolower(header[i]) ~ /[ \t]numeric\([0-9]+$/) key = "header"
        if (key == "" && count > width && found ~ /[0-9],[0-9]/) key = "comma"
        if (key == "" && found ~ /;/ && found !~ /,/) key = "semicolon"
    }
    print "K\t" kind (key == "" ? "" : "/" key)
}
