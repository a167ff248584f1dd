#!/usr/bin/env python3
"""Works out the answers of the trees of ds2_layer_cases anew, from the grammar as it is written below, and compares them with its stdout.

usage: bench/parse_cases.py [--write]

An Earley parser reads each source of that section of its stdin. It keeps every way in which the tokens so far may go on, so the
first token that leaves none is the place of Unexpected, whatever a parser would have chosen; the end of the text is the place
where ways are left and none is complete. Read again with the levels counted, the first token that leaves no way within 64 levels
is the place of TooDeep where without a limit some way goes on. What is refused before there are tokens is taken as it stands there.
With --write it writes stdout.
"""
import itertools
import re
import sys

import layer_cases

# `^rule` opens a level. A statement is `closed` where no `else` can still be added to it.
GRAMMAR = r"""
source  = { "proc" "ds2" ";" | "run" ";" | "quit" ";" | package | thread | data } .
package = "package" pname ";" { global } "endpackage" ";" .
thread  = "thread" name [ "(" [ param { "," param } ] ")" ] ";" { global } "endthread" ";" .
data    = "data" outp { outp } ";" { global } "enddata" ";" .
outp    = table [ "(" { option } ")" ] .
option  = ( "keep" | "drop" ) "=" "(" name { name } ")" | "overwrite" "=" ( "yes" | "no" )
        | "rename" "=" "(" name "=" name { name "=" name } ")" .
global  = declare | ( "retain" | "keep" | "drop" ) name { name } ";" | method .
declare = variables
        | dcl "package" pname name [ "(" [ const { "," const } ] ")" ] ";"
        | dcl "package" "hash" name "(" vars "," vars [ "," integer [ "," tabletext ] ] ")" ";"
        | dcl "package" "hiter" name "(" text ")" ";"
        | dcl "thread" name name ";" .
variables = dcl type name { name } ";" .
dcl     = "dcl" | "declare" .
vars    = "[" name { [ "," ] name } "]" .
const   = [ "-" ] integer | [ "-" ] decimal | text | "null" .
type    = "bigint" | ( "decimal" | "numeric" ) "(" integer [ "," integer ] ")"
        | ( "char" | "varchar" ) "(" integer ")" .
method  = "method" name "(" [ param { "," param } ] ")" [ "returns" type ] ";"
          { variables } [ reading ] { stmt } "end" ";" .
param   = [ "in_out" ] type name .
reading = "set" input { input } ";" [ by ] | "set" "from" name [ "threads" "=" integer ] ";"
        | "merge" input { input } [ "/" "retain" ] ";" by .
input   = table [ "(" "in" "=" name ")" ] .
by      = "by" [ "descending" ] name { [ "descending" ] name } ";" .
stmt    = simple | if .
closed  = simple | closedif .
if      = "if" expr "then" ^stmt | "if" expr "then" ^closed "else" ( if | ^simple ) .
closedif = "if" expr "then" ^closed "else" ( closedif | ^simple ) .
simple  = empty | assign | call ";" | leave | continue | return | output | put | select | do .
empty   = ";" .
assign  = name "=" expr ";" .
leave   = "leave" ";" .
continue = "continue" ";" .
return  = "return" [ expr ] ";" .
output  = "output" { table } ";" .
put     = "put" { item } ";" .
select  = "select" [ selector ] ";" { when } [ otherwise ] "end" ";" .
selector = "(" expr ")" .
when    = "when" "(" expr { "," expr } ")" ^stmt .
otherwise = "otherwise" ^stmt .
do      = "do" [ counted | tested ] ";" { ^stmt } "end" ";" .
counted = name "=" expr "to" expr [ "by" expr ] .
tested  = ( "while" | "until" ) "(" expr ")" .
item    = text | name [ "=" ] | name "." word .
expr    = conj { ( "or" | "|" ) conj } .
conj    = neg { ( "and" | "&" ) neg } .
neg     = ^negation | comp .
negation = ( "not" | "^" | "~" ) neg .
comp    = cat [ cmp cat ] .
cmp     = "=" | "eq" | "^=" | "~=" | "ne" | "<" | "lt" | "<=" | "le" | ">" | "gt" | ">=" | "ge" .
cat     = sum { "||" sum } .
sum     = prod { ( "+" | "-" ) prod } .
prod    = unary { ( "*" | "/" ) unary } .
unary   = ^sign | prim .
sign    = ( "-" | "+" ) unary .
prim    = integer | decimal | text | "null" | name | member | call | ^paren .
member  = name "." word .
paren   = "(" expr ")" .
call    = ( name | "null" ) ^args | member ^args .
args    = "(" [ expr { "," expr } ] ")" .
"""
RESERVED = set(
    """and bigint by char continue data dcl decimal declare descending do drop else end enddata endpackage endthread eq from ge gt
    if in_out keep le leave lt merge method ne not null numeric or otherwise output package put retain return returns select set
    then thread to until varchar when while""".split()
)
CLASSES = {"name", "pname", "table", "word", "integer", "decimal", "text", "tabletext"}
MOST_LEVELS = 64
sys.setrecursionlimit(100_000)
LEXEME = re.compile(
    r"""(?P<gap>(?:[ \t\r\n]|/\*.*?\*/)+)|(?P<word>[A-Za-z_]\w*)|(?P<quoted>"[^"]*")|(?P<text>'(?:[^']|'')*')
    |(?P<decimal>\d+(?:\.\d*)?[nN])|(?P<integer>\d+)|(?P<mark>\^=|~=|<=|>=|\|\||[;,()\[\]=<>+\-*/|&^~.])""",
    re.VERBOSE | re.DOTALL | re.ASCII,
)


class Token:
    """A token: its kind, its spelling and its place."""

    def __init__(self, kind, spelling, place):
        self.kind, self.spelling, self.place = kind, spelling, place

    def is_name(self):
        return self.kind == "quoted" or self.is_table()

    def is_table(self):
        return self.kind == "word" and self.spelling.lower() not in RESERVED

    def fits(self, terminal):
        """Whether the token is of a class, or is the keyword or mark itself."""
        if terminal[0] == '"':
            return self.kind in ("word", "mark") and self.spelling.lower() == terminal[1:-1]
        if terminal == "pname":
            return self.is_name() and self.spelling.strip('"').lower() not in ("hash", "hiter")
        if terminal == "tabletext":
            value = self.spelling[1:-1]
            return self.kind == "text" and re.fullmatch(r"[A-Za-z_]\w{0,63}", value, re.ASCII) and value.lower() not in RESERVED
        if terminal in ("name", "table"):
            return self.is_name() if terminal == "name" else self.is_table()
        return self.kind == terminal


def is_refused(match, following):
    """Whether a text is refused at what looks like a token, by the limits and forms of tokens that the cases come to."""
    kind, spelling = match.lastgroup, match.group()
    if kind == "integer":
        return following == "." or int(spelling) >= 2**63
    if kind == "mark":
        return spelling + following == "/*"
    if kind == "quoted":
        return not 1 <= len(spelling) - 2 <= 64 or spelling[1] in " \t\r\n" or re.search(r"[\t\r\n]| \"$", spelling) is not None
    return kind == "word" and len(spelling) > 64


def tokens(text):
    """The tokens of a text and the place of its end; None where it has none."""
    found, at, line, column = [], 0, 1, 1
    while at < len(text):
        match = LEXEME.match(text, at)
        if not match or is_refused(match, text[match.end() : match.end() + 1]):
            return None
        if match.lastgroup != "gap":
            found.append(Token(match.lastgroup, match.group(), (line, column)))
        for c in match.group():
            line, column = (line + 1, 1) if c == "\n" else (line, column + 1)
        at = match.end()
    return found, (line, column)


class Grammar:
    """Rules without brackets: for each symbol its alternatives. A symbol in small letters is a rule of the text above."""

    def __init__(self, text):
        self.rules = {}
        for rule in re.findall(r"(\w+)\s*=\s((?:\"[^\"]*\"|[^\".])*)\.\s", text):
            self.parts = re.findall(r'"[^"]*"|\^?\w+|[{}\[\]()|]', rule[1])
            self.rules[rule[0]] = self.alternatives(None)

    def alternatives(self, closing):
        """What stands up to a closing bracket, as a list of alternatives."""
        rows = [[]]
        while self.parts:
            part = self.parts.pop(0)
            if part == closing:
                break
            if part == "|":
                rows.append([])
            elif part in "{[(":
                inner = self.alternatives({"{": "}", "[": "]", "(": ")"}[part])
                name = f"#{len(self.rules)}"
                self.rules[name] = []
                if part == "{":
                    self.rules[name] = [()] + [(name, *row) for row in inner]
                else:
                    self.rules[name] = inner + ([()] if part == "[" else [])
                rows[-1].append(name)
            else:
                rows[-1].append(part)
        return [tuple(row) for row in rows]


RULES = Grammar(GRAMMAR).rules


def symbol_at(part, level, counted):
    """The symbol and its level; None where it opens a level too many."""
    if part[0] == "^":
        return (part[1:], level + 1 if counted else level) if level < MOST_LEVELS else None
    return part, level


def earley(found, counted):
    """Reads tokens: the tree, or the index of the first token that leaves no way to go on, or their number."""
    start = ("source", 0)
    chart = [dict() for _ in range(len(found) + 1)]
    waiting = [dict() for _ in range(len(found) + 1)]
    for row in RULES["source"]:
        chart[0][(start, row, 0, 0)] = None
    for k in range(len(found) + 1):
        agenda, predicted = list(chart[k]), set()

        def add(item, back):
            if item not in chart[k]:
                chart[k][item] = back
                agenda.append(item)

        while agenda:
            item = agenda.pop()
            head, row, dot, origin = item
            if dot == len(row):
                for other in waiting[origin].get(head, []):
                    add((other[0], other[1], other[2] + 1, other[3]), (other, origin, item))
                continue
            part = row[dot]
            if part[0] == '"' or part in CLASSES:
                if k < len(found) and found[k].fits(part):
                    chart[k + 1].setdefault((head, row, dot + 1, origin), (item, k, found[k]))
                continue
            symbol = symbol_at(part, head[1], counted)
            if symbol is None:
                continue
            waiting[k].setdefault(symbol, []).append(item)
            if symbol not in predicted:
                predicted.add(symbol)
                for alternative in RULES[symbol[0]]:
                    add((symbol, alternative, 0, k), None)
            for done in [i for i in chart[k] if i[0] == symbol and i[3] == k and i[2] == len(i[1])]:
                add((head, row, dot + 1, origin), (item, k, done))
        if k < len(found) and not chart[k + 1]:
            return None, k
    for row in RULES["source"]:
        item = (start, row, len(row), 0)
        if item in chart[-1]:
            return tree(chart, item, len(found)), len(found)
    return None, len(found)


def tree(chart, item, k):
    """A rule's name and its parts: tokens and trees."""
    parts = []
    while item[2] > 0:
        before, at, part = chart[k][item]
        if isinstance(part, Token):
            parts.append([part])
        else:
            inner = tree(chart, part, k)
            parts.append(inner[1] if inner[0][0] == "#" else [inner])
        item, k = before, at
    return item[0][0], [p for group in reversed(parts) for p in group]


# ---- how a tree is said


def is_mark(part, spelling):
    return isinstance(part, Token) and part.kind == "mark" and part.spelling == spelling


def word(part):
    return part.spelling.lower() if isinstance(part, Token) and part.kind == "word" else None


def joined(parts):
    return " ".join(said(p) for p in parts)


def said_of_if(parts):
    """`(if a s else-if b s else s)`."""
    text = f"if {said(parts[1])} {said(parts[3])}"
    if len(parts) > 4:
        last = parts[5]
        text += f" else-{said_of_if(last[1])}" if last[0] in ("if", "closedif") else f" else {said(last)}"
    return text


def said_of_method(parts):
    reading = [p for p in parts if isinstance(p, tuple) and p[0] == "reading"]
    text = "(method" + " dcl" * sum(1 for p in parts if isinstance(p, tuple) and p[0] == "variables")
    for p in reading:
        by = any(isinstance(q, tuple) and q[0] == "by" for q in p[1])
        text += " merge" if word(p[1][0]) == "merge" else " set-from" if word(p[1][1]) == "from" else " set-by" if by else " set"
    return text + "".join(" " + said(p) for p in parts if isinstance(p, tuple) and p[0] == "stmt") + ")"


def said_of_statement(name, parts):
    if name in ("if", "closedif"):
        return f"({said_of_if(parts)})"
    if name == "assign":
        return f"({said(parts[0])} := {said(parts[2])})"
    if name in ("empty", "leave", "continue"):
        return f"({name})"
    if name in ("return", "output", "put"):
        return "(" + " ".join([name] + [said(p) for p in parts[1:-1]]) + ")"
    if name == "select":
        return "(" + " ".join(["select"] + [said(p) for p in parts[1:-2] if not is_mark(p, ";")]) + ")"
    if name == "when":
        return f"when {', '.join(said(p) for p in parts[2:-2] if not is_mark(p, ','))} {said(parts[-1])}"
    if name == "otherwise":
        return f"otherwise {said(parts[1])}"
    if name == "do":
        return "(" + " ".join(["do"] + [said(p) for p in parts[1:-2] if not is_mark(p, ";")]) + ")"
    if name == "counted":
        return joined(parts) + ":"
    return f"{said(parts[0])} {said(parts[2])}:"  # tested


def said(node):
    """The short form of a tree."""
    if isinstance(node, Token):
        return node.spelling
    name, parts = node
    if name == "source":
        return " ".join(said(p) if isinstance(p, tuple) else word(p) for p in parts if not is_mark(p, ";") and word(p) != "ds2")
    if name in ("package", "thread", "data"):
        return "(" + " ".join([name] + [said(p) for p in parts if isinstance(p, tuple) and p[0] == "global"]) + ")"
    if name == "global":
        return "dcl" if isinstance(parts[0], tuple) and parts[0][0] == "declare" else said(parts[0])
    if name == "method":
        return said_of_method(parts)
    if name in ("stmt", "closed", "simple", "selector"):
        return said(parts[1] if is_mark(parts[0], "(") else parts[0])
    if name in ("expr", "conj", "comp", "cat", "sum", "prod", "negation", "sign"):
        return said(parts[0]) if len(parts) == 1 else f"({joined(parts)})"
    if name == "paren":
        return f"[{said(parts[1])}]"
    if name == "args":
        return "(" + ", ".join(said(p) for p in parts[1:-1] if not is_mark(p, ",")) + ")"
    if name in ("neg", "unary", "prim", "cmp", "call", "member", "item"):
        return "".join(said(p) for p in parts)
    return said_of_statement(name, parts)


# ---- the cases


def unescaped(line):
    """The text of a line with its escapes."""
    repeated = lambda m: m.group(2) * int(m.group(1))
    line = re.sub(r"\\\{(\d+):([^}]*)\}", repeated, line)
    return re.sub(r"\\(.)", lambda m: {"n": "\n", "r": "\r", "t": "\t", "m": "\ufeff"}[m.group(1)], line)


def answer(text):
    """The answer to a source; None where it has no tokens."""
    lexed = tokens(text.removeprefix("\ufeff"))
    if lexed is None:
        return None
    found, end = lexed
    places = [t.place for t in found] + [end]
    read, at = earley(found, True)
    if read:
        return f"accepted: {said(read)}".rstrip()
    kind = "Unexpected" if at == len(found) or earley(found, False)[1] == at else "TooDeep"
    return "{} at {}:{}".format(kind, *places[at])


def cases(lines):
    """Each line with what stands in front of it; None for a line that is no source."""
    front = ""
    for line in lines:
        front = "" if line.startswith("#") else line[2:] if line.startswith(": ") else front
        yield line, None if not line or line[0] == "#" or line.startswith(": ") else front


def main():
    lines = layer_cases.read("stdin", "trees").splitlines()
    stands = layer_cases.read("stdout", "trees").splitlines()
    told = {(front, line): answer for (line, front), answer in zip(cases(stands), stands[1:])}
    out, count, untold = [], 0, 0
    for line, front in cases(lines):
        out.append(line)
        if front is not None:
            wanted = answer(unescaped(front + line))
            count += 1
            untold += wanted is None
            out.append(f"    {wanted}" if wanted else told.get((front, line), "    ?"))
    if "--write" in sys.argv[1:]:
        layer_cases.write("stdout", "trees", "\n".join(out) + "\n")
    differ = [(i + 1, a, b) for i, (a, b) in enumerate(itertools.zip_longest(stands, out)) if a != b]
    for number, a, b in differ:
        print(f"line {number}: {a} stands there, and {b} is due")
    print(f"{count} sources, {untold} of them refused before there are tokens, {len(differ)} lines differ")
    sys.exit(1 if differ else 0)


if __name__ == "__main__":
    main()
