# Finds what stands at a place of a source, and which sentence fits it best.
#
# awk -v kind=KIND -v row=LINE -v column=COLUMN -v name=FILE -f place.awk FILE
#
# Each line that is printed begins with a letter and a tab:
#   P  a line to print: the source's line, and the caret below it
#   T  a table, in lower case, whose columns and types are to be told
#   D  a declared variable and its type
#   K  the name of the sentence
# Bytes are counted as characters where they are no continuation of one; the locale is to be C.

function characters(text) {
    gsub(/[\200-\277]/, "", text)
    return length(text)
}

# The first characters of a text, which may end within the text.
function first_characters(text, many,    at, count, byte) {
    at = 1
    count = 0
    while (at <= length(text)) {
        byte = substr(text, at, 1)
        if (byte !~ /[\200-\277]/ && ++count > many) break
        at++
    }
    return substr(text, 1, at - 1)
}

# What a terminal takes for a command is shown as a question mark.
function shown(text) {
    gsub(/\302[\200-\237]/, "?", text)
    gsub(/[\001-\010\013-\037\177]/, "?", text)
    return text
}

function blanks_below(text) {
    gsub(/[\200-\277]/, "", text)
    gsub(/[^\t]/, " ", text)
    return text
}

function add_token(form, text) {
    many++
    forms[many] = form
    texts[many] = text
    words[many] = (form == "word") ? tolower(text) : text
    lines[many] = line_now
    columns[many] = column_now
}

# Reads on in a line of the source: open_form says what an earlier line has left open.
function read_tokens(text,    size, window, rest, form) {
    column_now = 1
    while (text != "" || window != "") {
        # A window on the line keeps what is copied for each token small.
        if (length(window) < 9000) {
            size = 20000 - length(window)
            window = window substr(text, 1, size)
            text = substr(text, size + 1)
        }
        if (open_form == "comment") {
            size = index(window, "*/")
            if (size) { open_form = ""; size++ } else size = length(window) - (text != "" ? 1 : 0)
        } else if (open_form != "") {
            size = index(window, open_form == "text" ? "'" : "\"")
            if (size) open_form = ""
            else size = length(window)
            texts[many] = texts[many] substr(window, 1, size)
            # A quote that is doubled goes on with the text.
            if (open_form == "" && forms[many] == "text" && substr(window, size + 1, 1) == "'") {
                texts[many] = texts[many] "'"
                size++
                open_form = "text"
            }
            words[many] = texts[many]
        } else {
            form = ""
            if (match(window, /^[ \t\r]+/)) form = "gap"
            else if (substr(window, 1, 2) == "/*") { form = "gap"; RLENGTH = 2; open_form = "comment" }
            else if (match(window, /^[A-Za-z_][A-Za-z0-9_]*/)) form = "word"
            else if (match(window, /^[0-9]+(\.[0-9]*)?[nN]?/)) form = "number"
            else if (match(window, /^'/)) { form = "text"; open_form = "text" }
            else if (match(window, /^"/)) { form = "quoted"; open_form = "quoted" }
            else if (match(window, /^(\^=|~=|<=|>=|\|\|)/)) form = "mark"
            else { form = "mark"; match(window, /^([\300-\377][\200-\277]*|.)/) }
            size = RLENGTH
            if (form != "gap") add_token(form, substr(window, 1, size))
        }
        if (size < 1) size = 1
        column_now += characters(substr(window, 1, size))
        window = substr(window, size + 1)
    }
    if (open_form == "text" || open_form == "quoted") texts[many] = texts[many] "\n"
}

NR == 1 && substr($0, 1, 3) == "\357\273\277" { $0 = substr($0, 4) }
{
    line_now = NR
    source[NR] = $0
    read_tokens($0)
}

function show_line(number, at,    text, first, before) {
    text = source[number]
    sub(/\r$/, "", text)
    before = first_characters(text, at - 1)
    # Of a long line the part around the place is shown.
    first = 1
    if (characters(before) > 80) first = length(first_characters(text, at - 61)) + 1
    if (first > 1) {
        text = ".." substr(text, first)
        before = ".." substr(before, first)
    }
    if (characters(text) > characters(before) + 60) text = first_characters(text, characters(before) + 50) ".."
    print "P\t    " shown(text)
    print "P\t    " blanks_below(before) "^"
}

function is_in(word, list) {
    return index(" " list " ", " " word " ") > 0
}

# Finds the token at the place, the statement in which it stands, and the unit and method around it.
function find_place(    i, is_head) {
    at = many + 1
    for (i = 1; i <= many; i++)
        if (lines[i] > row + 0 || (lines[i] == row + 0 && columns[i] >= column + 0)) { at = i; break }
    start = 1
    part = 1
    level = 0
    unit = ""
    earlier = ""
    is_head = 1
    for (i = 1; i < at; i++) {
        if (is_head) {
            if (level == 0 && is_in(words[i], "data thread package")) unit = words[i]
            if (level == 0 && is_in(words[i], "enddata endthread endpackage")) unit = ""
            if (is_in(words[i], "method do select")) level++
            if (words[i] == "end" && level > 0) level--
        }
        is_head = 0
        if (forms[i] == "mark" && texts[i] == ";") {
            earlier = words[start]
            start = i + 1
            part = i + 1
            is_head = 1
        } else if (is_in(words[i], "then else otherwise")) {
            part = i + 1
            is_head = 1
        } else if (texts[i] == ")" && words[part] == "when") is_head = 1
    }
    word = (at <= many) ? words[at] : ""
    before = (at > 1) ? words[at - 1] : ""
    head = (start < at) ? words[start] : word
    inner = (part < at) ? words[part] : word
    after = (at < many) ? words[at + 1] : ""
}

function statement_has(wanted,    i) {
    for (i = start; i < at; i++) if (words[i] == wanted) return 1
    return 0
}

function is_comparison(text) {
    return is_in(text, "= ^= ~= < <= > >= eq ne lt le gt ge")
}

# whether a value is due at the place
function wants_value() {
    return is_comparison(before) || is_in(before, "( , + - * / || & | ^ ~ and or not then when to by return while until if")
}

function unexpected() {
    if (at > many) return "end"
    if (is_in(head, "dcl declare")) {
        if (is_in(before, "dcl declare")) return "type"
        if (statement_has("package")) {
            if (statement_has("hash") || statement_has("hiter")) return "hash"
            return ""
        }
        if (is_in(before, "char varchar decimal numeric")) return "length"
        if (statement_has("having")) return "format"
        if (word == "=") return "initial"
        if (word == "[") return "array"
        if (word == ",") return "comma"
        if (before == "bigint" || before == ")") return "reserved"
    }
    if (before == "returns" || before == "in_out" || (is_in(head, "method thread") && is_in(before, "( ,") && at > start + 1)) return "type"
    if (is_in(before, "char varchar decimal numeric") && is_in(head, "method thread")) return "length"
    if (is_in(head, "format informat label attrib") && at <= start + 2 || statement_has("having")) return "format"
    if (head == "where") return "where"
    if (head == "stop" || inner == "stop") return "stop"
    if (head == "delete" || inner == "delete") return "delete"
    if (is_in(head, "call goto go link array vararray length rename update modify forward infile input cards datalines") && at <= start + 1 \
        || is_in(inner, "call goto go link") && at == part + 1)
        return is_in(head, "array vararray") ? "array" : "statement"
    if (word == ";" && inner == "if" && !statement_has("then")) return "if"
    if (head == "data" && unit != "" || head == "thread" || head == "package") {
        if (word == "/") return "slash"
        if (word == ".") return "libref"
        if (word == "," && !statement_has("(")) return "comma"
        if (head == "data") return statement_has("(") ? "option" : ""
    }
    if (before == "*" && word == "*") return "power"
    if (word == "in") return "in"
    if (before == "<" && word == ">" || before == ">" && word == "<") return "angle"
    if (level > 0 && at == part + 1 && is_in(word, "+ -") && forms[part] != "mark") return "sum"
    if (is_in(head, "set merge")) {
        if (word == ".") return "libref"
        if (word == ",") return "comma"
        if (statement_has("(") || word == "=" || is_in(word, "key end")) return "input"
    }
    if (head == "output" || inner == "output") return word == "(" ? "option" : ""
    if (word == "." && wants_value() || word == "." && before == "retain") return "missing"
    if (head == "retain" && at > start + 1 && word != ",") return "retain"
    if (is_in(head, "retain keep drop by set merge") && word == ",") return "comma"
    if (word == "&" && wants_value()) return "macro"
    if (before == "_new_") return "new"
    if (is_comparison(word) && chains()) return "chain"
    if (word == "=" && at == part + 3 && words[part + 1] == ".") return "point"
    if (is_in(word, "is between like contains mod xor eqt")) return word == "is" ? "is" : "operator"
    if (forms[at - 1] == "text" && is_in(word, "d t dt b x n") && columns[at - 1] + characters(texts[at - 1]) == columns[at]) return "date"
    if (forms[at - 1] == "number" && word ~ /^e[0-9]*$/) return "exponent"
    if (word == "[") return "array"
    if (before == "when") return "when"
    if (head == "method" && word == ";" && at == start + 2) return "method"
    if (before == "proc" || head == "proc") return "proc"
    if (is_in(inner, "do") && (word == "," || is_in(word, "while until"))) return "do"
    if (inner == "put") return "put"
    if (earlier == "merge" && at == start) return "merge"
    if (at == part && level > 0) {
        if (is_in(word, "set merge")) return "set"
        if (is_in(word, "dcl declare")) return "dcl"
        if (is_in(word, "retain keep drop")) return "outside"
        if (word == "by") return "by"
        if (is_in(word, "method enddata endthread endpackage data thread package proc")) return "open"
        if (is_in(word, "run quit")) return "run"
    }
    if (is_in(before, "run quit") && at == part + 1 && word == ";") return "run"
    if (word == "else") return before == ";" ? "else" : ""
    if (at == start && level == 0) {
        if (unit == "") return "unit"
        if (is_in(word, "data thread package proc run quit")) return "run"
        return word == "end" ? "closed" : "global"
    }
    return ""
}

# whether a comparison stands before the place in its expression
function chains(    i, depth) {
    depth = 0
    for (i = at - 1; i >= part; i--) {
        if (texts[i] == ")") depth++
        else if (texts[i] == "(") { if (depth-- == 0) return 0 }
        else if (depth == 0 && is_in(words[i], "and or & | if when until while , not then")) return 0
        else if (depth == 0 && is_comparison(words[i]) && !(i == part + 1)) return 1
    }
    return 0
}

function bad_character(    text) {
    text = substr(source[row + 0], length(first_characters(source[row + 0], column - 1)) + 1)
    if (text ~ /^%/) return "macro"
    if (text ~ /^!/) return "mark"
    if (text ~ /^:/) return "colon"
    if (text ~ /^[{]/) return "brace"
    if (text ~ /^\$/) return "dollar"
    if (text ~ /^\302\240/) return "blank"
    if (text ~ /^\342\200[\230-\237]/) return "quote"
    return ""
}

# what the instance of a name is: hash, hiter, package or thread
function instance_of(wanted,    i) {
    for (i = 1; i + 2 <= many; i++)
        if (is_in(words[i], "dcl declare")) {
            if (words[i + 1] == "thread" && words[i + 3] == wanted) return "thread"
            if (words[i + 1] == "package" && words[i + 3] == wanted) return is_in(words[i + 2], "hash hiter") ? words[i + 2] : "package"
        }
    return ""
}

function unknown_method(    instance) {
    if (before == ".") {
        instance = instance_of(words[at - 2])
        return is_in(instance, "hash hiter") ? instance : "instance"
    }
    if (is_in(word, "init run term")) return "system"
    if (is_in(word, "missing nmiss sum mean n")) return (word == "missing" || word == "nmiss") ? "missing" : "sum"
    if (is_in(word, "round int rounde")) return "round"
    if (is_in(word, "put input putn putc inputn inputc")) return "convert"
    if (is_in(word, "cat cats catt catx strip left right upcase lowcase compress index find scan tranwrd")) return "text"
    return ""
}

function unknown_name(    text) {
    if (at > many) return ""
    if (forms[at] == "quoted") return "quoted"
    if (forms[at] == "text") {
        if (statement_has("hiter")) return "iterator"
        text = tolower(substr(texts[at], 2, length(texts[at]) - 2))
        if (!made_before(text)) print "T\t" text
        return "table"
    }
    if (is_in(word, "first last") && after == ".") return "flag"
    if (word ~ /^_.*_$/) return "automatic"
    if (head == "by") return "by"
    if (inner == "output") return "output"
    if (is_in(head, "dcl declare")) return is_in(words[start + 1], "package thread") ? "unit" : ""
    return ""
}

# Tells the tables of a reading statement up to the place, and the variables that the unit declares.
function tell_tables(first,    i, depth) {
    depth = 0
    for (i = first; i <= at; i++) {
        if (texts[i] == "(") depth++
        else if (texts[i] == ")") depth--
        else if (depth == 0 && forms[i] == "word") print "T\t" words[i]
    }
}

function tell_declared(    i, first, type) {
    first = 1
    for (i = 1; i < at; i++) if (is_in(words[i], "enddata endthread endpackage")) first = i + 1
    for (i = first; i < at; i++) {
        if (words[i] == "method") return
        if (!is_in(words[i], "dcl declare") || is_in(words[i + 1], "package thread")) continue
        type = words[++i]
        if (texts[i + 1] == "(")
            do type = type texts[++i]; while (texts[i] != ")" && i < at)
        while (texts[++i] != ";" && i < at) {
            if (forms[i] == "quoted") print "D\t" tolower(substr(texts[i], 2, length(texts[i]) - 2)) "\t" type
            else print "D\t" words[i] "\t" type
        }
    }
}

function made_before(wanted,    i, j) {
    for (i = 1; i < start; i++)
        if (words[i] == "data" && (i == 1 || texts[i - 1] == ";"))
            for (j = i + 1; j < at && texts[j] != ";"; j++)
                if (words[j] == wanted && texts[j + 1] != "=") return 1
    return 0
}

function type_clash(    text) {
    if (at > many) return ""
    if (is_in(head, "set merge")) {
        if (before == "from") return "rows"
        if (!made_before(word)) {
            tell_tables(start + 1)
            tell_declared()
        }
        return "table"
    }
    if (is_in(head, "dcl declare") && statement_has("hash") && forms[at] == "text") {
        text = tolower(substr(texts[at], 2, length(texts[at]) - 2))
        if (!made_before(text)) {
            print "T\t" text
            tell_declared()
        }
        return "table"
    }
    if (is_in(head, "dcl declare")) return "argument"
    if (word == "null") return after == "(" ? "function" : "null"
    if (word == "return") return "return"
    if (forms[at] == "mark" && is_in(word, "+ - * /")) return "arithmetic"
    if (word == "||") return "join"
    if (is_comparison(word)) return "comparison"
    if (inner == "do") return "do"
    if (inner == "when" || before == "when") return "when"
    if (at == part && after == "=") return "target"
    if (after == "(" && forms[at] == "word") return "function"
    return is_in(before, "( ,") ? "argument" : ""
}

function at_end() {
    return at > many && is_in(kind, "Unexpected")
}

END {
    find_place()
    if (at_end()) {
        # The line of the last word, with the caret behind it.
        row = many ? lines[many] : 1
        column = many ? columns[many] + characters(texts[many]) : 1
        print "P\t" name " ends behind line " row ":"
    } else if (row + 0 <= NR) print "P\tline " row " of " name ", column " column ":"
    # A source that has changed since may lack the line.
    if (row + 0 <= NR) show_line(row + 0, column + 0)
    if (kind == "Unexpected") {
        key = unexpected()
        # One that has a name of its own says more than the word before it.
        if (at <= many && at > 1) print "P\tNo source goes on with `" shown(texts[at]) "` behind `" shown(texts[at - 1]) "` here."
    } else if (kind == "BadCharacter") key = bad_character()
    else if (kind == "UnknownMethod") key = unknown_method()
    else if (kind == "UnknownName") key = unknown_name()
    else if (kind == "TypeClash") key = type_clash()
    else key = ""
    print "K\t" kind (key == "" ? "" : "/" key)
}
