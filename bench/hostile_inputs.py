"""Hostile sources, tables and objects for bench/hostile.py, each made anew for a size.

A size is the bytes of a source or an object, or how many rows or items there are. An input is a name, its whole size, a function that gives its files for
a size, the commands that run one behind the other in a folder with these files, each with the statuses that it may end with, a power: how many
factors a doubling of the size doubles, where the rules want a product of them, and, where the input is a hard one of its kind, a function that gives the
files of a plain one.
"""
from collections import namedtuple
import itertools

from object_cases import text, u8, u16, u32

Input = namedtuple("Input", "name whole make commands power plain", defaults=(1, None))
INPUTS = []
SOURCE_LIMIT = 262_144
CHECK, RUN, EXEC = ("check", "job.ds2"), ("run", "job.ds2"), ("exec", "job.dso")


def source(name, make, tables=None, statuses=(0,)):
    """Adds a source, beside tables. It is run too, and its object, unless it is refused."""
    words = [CHECK] if 3 in statuses else [CHECK, RUN, EXEC]
    INPUTS.append(Input(name, SOURCE_LIMIT, lambda size: {"job.ds2": make(size), **(tables or {})}, [(each, statuses) for each in words]))


def refused(name, make, statuses=(3,)):
    """Adds a source that is refused; a small one perhaps not."""
    source(f"refused: {name}", make, statuses=statuses)


def table(name, whole, job, make, status=0, plain=None):
    """Adds tables of so many rows, and a job that reads them."""
    plain_files = plain and (lambda size: {"job.ds2": job, **plain(size)})
    INPUTS.append(Input(name, whole, lambda size: {"job.ds2": job, **make(size)}, [(RUN, (status,))], plain=plain_files))


def job(name, whole, make):
    """Adds a job that makes so many rows or items itself."""
    INPUTS.append(Input(name, whole, lambda size: {"job.ds2": make(size)}, [(RUN, (0,))]))


def stored(name, whole, make, status=0, power=1):
    """Adds an object."""
    INPUTS.append(Input(f"object: {name}", whole, lambda size: {"job.dso": make(size)}, [(EXEC, (status,))], power))


# ---- texts


def filled(size, head, piece, tail="", share=1):
    """A head, pieces, and a tail, which at the whole size are at most a share of the longest source. Half the size has half the pieces. A piece may be
    made of its number, and the tail of how many there are."""
    piece_of = piece if callable(piece) else lambda number: piece
    tail_of = tail if callable(tail) else lambda count: tail
    room = (SOURCE_LIMIT * share - len(head.encode()) - len(tail_of(9_999_999).encode())) * size / SOURCE_LIMIT
    parts = [head]
    for number in itertools.count():
        part = piece_of(number)
        room -= len(part.encode())
        if room < 0:
            return "".join(parts) + tail_of(number)
        parts.append(part)


def names(letter, count):
    return " ".join(f"{letter}{number}" for number in range(count))


def header(letter, count):
    return ",".join(f"{letter}{number} bigint" for number in range(count)) + "\n"


def handed(words, letter, count):
    return ", ".join(f"{words} {letter}{number}".strip() for number in range(count))


def each_of(letter, count, statement):
    return "".join(statement.format(f"{letter}{number}") for number in range(count))


# Nearly as many names as a unit may have, and as many beside 16 BY variables and their flags.
MOST, MOST_BY = 990, 940
DATA = "data _null_; dcl bigint a b c;"
DATA_END = " end; end; enddata;"
THREAD = "thread t; dcl bigint x; retain x;"
READER = " endthread; data _null_; dcl thread t r; method run(); set from r; end; enddata;"
THREAD_END = " end; end;" + READER


def body(size, piece, declared="", opening="", closing=""):
    """A program with pieces in `run`, which are not carried out."""
    return filled(size, f"{DATA} {declared} method run(); if a = 1 then do; {opening}\n", piece, closing + DATA_END)


def thread(size, piece, declared="", opening="", closing="", reading=""):
    """A thread program with pieces in `run`, which are not carried out. It is not local at any grain."""
    return filled(size, f"{THREAD} {declared} method run(); {reading} if x = 1 then do; {opening}\n", piece, closing + THREAD_END)


def thread_by(*parts, **more):
    """The same with 16 BY variables, so that it has 16 grains."""
    return thread(*parts, **more, reading=READ_BYS)


def over_names(of, size, piece, declared="dcl bigint {};", **parts):
    """Pieces of two names each, of which half the size has half as many."""
    count = max(2, (MOST_BY if of is thread_by else MOST) * size // SOURCE_LIMIT)
    return of(size, lambda n: piece.format(n % count, n * 7 % count, n), declared.format(names("v", count)), **parts)


def deep(of, size, opening, inner, closing, declared="", depth=60):
    """Pieces that are each so many levels deep."""
    return of(size, opening * depth + inner + closing * depth + "\n", declared)


def chain(size, head, statements, last, tail, share=1):
    """Methods whose statements name later ones, and two behind them."""
    behind = lambda n: f"method m{n}(); {last} end; method m{n + 1}(); end; {tail}"
    return filled(size, head, lambda n: f"method m{n}(); {statements.format(n + 1, n + 2)} end;\n", behind, share)


def each_called(size, head, piece, call, tail):
    """Methods in the half of a source, and calls of each in the other."""
    declared = filled(size, head, piece, share=1 / 2)
    count = declared.count("method")
    return declared + filled(size, " method run(); ", lambda n: call(n % count), tail, share=1 / 2)


# ---- thread programs


def threaded(name, make):
    """Adds a source with a thread program, beside a table of 16 BY variables."""
    source(f"thread: {name}", make, {"b.csv": header("b", 16)})


def begun(reading=""):
    return f"method run(); {reading} if x = 2 then m0(); end;{READER}"


READ_BYS = f"set b; by {names('b', 16)};"
RETAINED = "dcl bigint {0}; retain {0};"
HASH_OF_128 = f"dcl bigint {names('k', 64)} {names('d', 64)}; dcl package hash h([{names('k', 64)}], [{names('d', 64)}]); dcl package hiter i('h');"
OF_60 = each_of("q", 60, "dcl package p {};")
LARGE_PACKAGE = f"package p; dcl bigint {names('v', MOST)};"

threaded("methods that each call the next one", lambda size: chain(size, THREAD, "m{0}();", "x = 1;", begun()))
threaded("methods that each call the one before", lambda size: filled(
    size, f"{THREAD} method m(); x = 1; end; method m0(); m(); end;\n", lambda n: f"method m{n + 1}(); m{n}(); end;\n", lambda n: f"method run(); if x = 2 then m{n}(); end;" + READER))
threaded("methods in a cycle", lambda size: chain(size, THREAD, "m{0}();", "x = 1; m0();", begun()))
threaded("methods that call themselves", lambda size: filled(size, THREAD, lambda n: f"method m{n}(); x = x + 1; m{n}(); end;\n", begun()))
threaded("methods that call the next two", lambda size: chain(size, THREAD, "m{0}(); m{1}();", "x = 1;", begun()))
threaded("methods that call the next one and the first", lambda size: chain(size, THREAD, "m{0}(); m0();", "x = 1;", begun()))
threaded("methods that call the next one in a loop", lambda size: chain(size, THREAD, "do while (x = 1); m{0}(); end;", "x = 1;", begun()))
threaded("methods that each call the next one, by 16 BY variables", lambda size: chain(size, THREAD, "if first.b9 then x = 0; m{0}();", "x = 1;", begun(READ_BYS)))
threaded("methods over many names that each call the next one, by 16 BY variables", lambda size: chain(
    size, f"{THREAD} dcl bigint {names('v', MOST_BY)}; retain {names('v', MOST_BY)};", "m{0}(); v0 = v1;", each_of("v", MOST_BY, "{0} = {0};"), begun(READ_BYS)))
threaded("methods, each of which is called", lambda size: each_called(size, THREAD, lambda n: f"method m{n}(); x = {n}; end;\n", lambda n: f"if x = 2 then m{n}();", " end;" + READER))
threaded("assignments over many names", lambda size: over_names(thread, size, "v{0} = v{1};\n"))
threaded("assignments over many retained names", lambda size: over_names(thread, size, "v{0} = v{1};\n", RETAINED))
threaded("branches over many retained names, by 16 BY variables", lambda size: over_names(thread_by, size, "if v{1} = 1 then v{0} = 2; else v{1} = 3;\n", RETAINED))
threaded("one selection over many retained names, by 16 BY variables", lambda size: over_names(
    thread_by, size, "when ({2}) v{0} = v{1};\n", RETAINED, opening="select (x);", closing=" otherwise; end;"))
threaded("loops 60 deep, by 16 BY variables", lambda size: deep(thread_by, size, "do while (x = 1); ", "x = x + 1;", " end;"))
threaded("conditions 60 deep, by 16 BY variables", lambda size: deep(thread_by, size, "if x = 1 then do; ", "x = x + 1; ", "end; else x = 2; ", depth=30))
threaded("flags of 16 BY variables", lambda size: thread_by(size, lambda n: f"if first.b{n % 16} then x = {n}; x = x + 1;\n"))
threaded("calls of a method that mentions many names, by 16 BY variables", lambda size: thread_by(
    size, "f();", f"dcl bigint {names('v', MOST_BY)}; method f(); {each_of('v', MOST_BY, '{0} = {0} + 1;')} end;"))
threaded("calls with many in_out arguments, by 16 BY variables", lambda size: thread_by(
    size, f"f({handed('', 'v', MOST_BY)});\n", f"dcl bigint {names('v', MOST_BY)}; method f({handed('in_out bigint', 'p', MOST_BY)}); end;"))
threaded("calls of a hash object with 128 of many variables, by 16 BY variables", lambda size: thread_by(size, "h.find();h.add();i.next();", f"dcl bigint {names('v', 800)}; {HASH_OF_128}"))
threaded("calls of a hash object with 128 of many variables that each group clears, by 16 BY variables", lambda size: thread(
    size, "h.find();h.add();", f"dcl bigint {names('v', 800)}; {HASH_OF_128}", reading=f"{READ_BYS} if first.b15 then do; h.clear(); x = 0; end;"))
threaded("calls of the methods of 60 instances, by 16 BY variables", lambda size: filled(
    size, f"package p; dcl bigint n; method f(); n = n + 1; end; method g(); f(); end; endpackage; {THREAD} {OF_60} method run(); {READ_BYS} if x = 1 then do; ", lambda n: f"q{n % 60}.g();", THREAD_END))
threaded("60 instances of a package of many variables", lambda size: (
    f"package p; dcl bigint {names('v', max(2, MOST * size // SOURCE_LIMIT))}; method m(); v0 = v1; end; endpackage; {THREAD} {OF_60} method run(); if x = 1 then q0.m(); end;{READER}"))
threaded("60 instances of a package of many variables and methods", lambda size: filled(
    size, f"{LARGE_PACKAGE} method m(); v0 = 1; end;", lambda n: f"method m{n}(); v0 = v{n % MOST}; end;", f"endpackage; {THREAD} {OF_60} method run(); if x = 1 then q0.m(); end;{READER}", 1 / 6))
threaded("calls of the methods of 60 instances of many variables", lambda size: filled(
    size, f"{LARGE_PACKAGE} method m(); v989 = v988; end; endpackage; {THREAD} {OF_60} method run(); if x = 1 then do; ", lambda n: f"if x = 2 then q{n % 60}.m();", THREAD_END))
threaded("methods in a cycle, of which one calls 60 instances that mention many variables", lambda size: chain(
    size, f"{LARGE_PACKAGE} method m(); {each_of('v', MOST, '{0}={0};')} end; endpackage; {THREAD} {OF_60} ", "m{0}();", each_of("q", 60, "{0}.m();") + " m0();", begun()))
threaded("methods that each call the next one, of which the last calls 60 instances that mention many variables", lambda size: chain(
    size, f"{LARGE_PACKAGE} method m(); {each_of('v', MOST, '{0}={0};')} end; endpackage; {THREAD} {OF_60} ", "m{0}();", each_of("q", 60, "{0}.m();"), begun()))
threaded("lines that are put, by 16 BY variables", lambda size: thread_by(size, "put x;"))
source("64 thread programs of methods that each call the next one", lambda size: "".join(
    chain(size, f"thread t{n or ''}; dcl bigint x;\n", "m{0}();", "x = 1;", "method run(); if x = 1 then m0(); end; endthread;", 1 / 65) for n in range(64)) + READER.removeprefix(" endthread;"))
source("a thread program of 60 instances from which 64 programs read", lambda size: filled(
    size, "package p; dcl bigint a; method m(); ", ";", f" end; endpackage; {THREAD} {OF_60} method run(); if x = 1 then q0.m(); end;{READER}" + READER.removeprefix(" endthread;") * 63, 1 / 12))
source("a thread program from which 64 programs read", lambda size: filled(size, f"{THREAD} method run(); if x = 1 then do; ", "x=x+1;", THREAD_END + READER.removeprefix(" endthread;") * 63))

# ---- statements and expressions of data programs

source("statements without words", lambda size: body(size, ";"))
source("assignments", lambda size: body(size, "a=b;"))
source("assignments over many names", lambda size: over_names(body, size, "v{0}=v{1};"))
source("one chain of else if", lambda size: body(size, "if a then;else ", closing=";"))
source("conditions 60 deep", lambda size: deep(body, size, "if a then ", "b = 1;", " else b = 2;"))
source("blocks 60 deep", lambda size: deep(body, size, "do;", "", "end;"))
source("counted loops 60 deep", lambda size: deep(body, size, "do a = 1 to b by c;", "leave;", "end;"))
source("loops 60 deep", lambda size: deep(body, size, "do until (a);", "continue;", "end;"))
source("selections 60 deep", lambda size: deep(body, size, "select (a); when (b) ", "b = 1;", " otherwise b = 2; end;"))
source("one selection of many parts", lambda size: body(size, lambda n: f"when({n});", "", "select (a);", "otherwise; end;"))
source("one part of many tests", lambda size: body(size, lambda n: f",{n}", "", "select (a); when (a", "); otherwise; end;"))
source("one line of many items", lambda size: body(size, " a=", "", "put", ";"))
source("rows for many outputs", lambda size: filled(size, "data out (overwrite=yes); dcl bigint a; method run(); if a = 1 then output", " out", "; end; enddata;"))
source("parentheses 60 deep", lambda size: body(size, "a=" + "(" * 60 + "b" + ")" * 60 + ";\n"))
source("signs 60 deep", lambda size: body(size, "a=" + "-" * 60 + "b;\n"))
source("negations 60 deep", lambda size: body(size, "a=" + "^" * 60 + "b;\n"))
source("sums 60 deep on both sides", lambda size: body(size, "a=" + "(b+" * 60 + "b" + "+c)" * 60 + ";\n"))
source("decimal quotients 60 deep", lambda size: body(size, "d=" + "(b/" * 60 + "d" + ")" * 60 + ";\n", "dcl decimal(38,6) d;"))
source("calls 60 deep", lambda size: body(size, "a=" + "f(" * 60 + "b" + ")" * 60 + ";\n", "method f(bigint p) returns bigint; return p; end;"))
source("functions of 16 values, 60 deep", lambda size: body(size, "a=" + ("coalesce(" + "b," * 15) * 60 + "b" + ")" * 60 + ";\n"))
source("one sum", lambda size: body(size, "+b", "", "a=b", ";"))
source("one decimal sum", lambda size: body(size, "-1.5n", "dcl decimal(38,2) d;", "d=b", ";"))
source("one joined text", lambda size: body(size, "||t", "dcl varchar(9) t;", "t=t", ";"))
source("one condition of many parts", lambda size: body(size, "|b&c", "", "a=b", ";"))
source("constants, each another one", lambda size: body(size, lambda n: f"a={n};"))
source("constants that are texts of 1,024 characters", lambda size: body(size, lambda n: f"t='{n:01024}';", "dcl varchar(1024) t;"))
source("constants that are quotes", lambda size: body(size, lambda n: "t='" + "''" * (n % 1024) + "';", "dcl varchar(1024) t;"))

# ---- methods of data programs

HANDED_ON = "method f(in_out bigint p); p = 1; end; method run(); if a = 1 then do; "

source("methods", lambda size: filled(size, DATA, lambda n: f"method m{n}();end;", "enddata;"))
source("methods that return a value", lambda size: filled(size, DATA, lambda n: f"method m{n}()returns bigint;return {n};end;", "enddata;"))
source("methods, each of which is called", lambda size: each_called(size, DATA, lambda n: f"method m{n}(); a = {n}; end;\n", lambda n: f"if a then m{n}();", " end; enddata;"))
source("methods that each call the next one", lambda size: chain(size, DATA, "m{0}();", "a = 1;", "enddata;"))
source("methods in a cycle", lambda size: chain(size, DATA, "m{0}();", "m0();", "enddata;"))
source("methods that each call the next one, of which the last mentions many names that are handed over", lambda size: chain(
    size, f"data _null_; dcl bigint a {names('v', MOST)}; method all(); {each_of('v', MOST, '{}=1;')} end;", "m{0}();", "all();",
    HANDED_ON + each_of("v", MOST, "f({});") + DATA_END))
source("calls of a method that mentions many names that are handed over", lambda size: filled(
    size, f"data _null_; dcl bigint a {names('v', MOST)}; method all(); {each_of('v', MOST, '{}=1;')} end; {HANDED_ON} {each_of('v', MOST, 'f({});')}", "all();", DATA_END))
source("methods of many locals", lambda size: filled(size, DATA, lambda n: f"method m{n}(); dcl bigint {names('v', 900)}; v0 = v899; end;\n", "enddata;"))
source("calls with many arguments", lambda size: body(
    size, f"f({handed('', 'v', MOST)});\n", f"dcl bigint {names('v', MOST)}; method f({handed('bigint', 'p', MOST)}); end;"))
source("calls with many in_out arguments", lambda size: body(
    size, f"f({handed('', 'v', MOST)});\n", f"dcl bigint {names('v', MOST)}; method f({handed('in_out bigint', 'p', MOST)}); end;"))
refused("methods that each hand on a name to the next one", lambda size: filled(
    size, DATA, lambda n: f"method m{n}(in_out bigint p); m{n + 1}(p); end;\n", lambda n: f"method m{n}(in_out bigint p); p = a; end; method run(); m0(a); end; enddata;"))

# ---- names and constants of one hash, for a hasher that folds 16 bytes at a time with a fixed seed


def multiplied(a, b):
    product = a * b
    return product & 2**64 - 1 ^ product >> 64


def folded(state, data):
    """The hasher's state behind up to 3 or 8 bytes."""
    size = len(data)
    short = data[0] | data[size // 2] << 8 | data[-1] << 16 if size < 4 else int.from_bytes(data[:4], "little") | int.from_bytes(data[-4:], "little") << 32
    return multiplied(state ^ short, 0x9E3779B97F4A7C15 ^ 2 * size)


def decimal_of_one_hash(number, before=()):
    """A decimal whose lower half folds to 0 with what is written before it, whatever its upper half is."""
    state = 0x243F6A8885A308D3
    for data in [*before, b"\1", b"\0"]:
        state = folded(state, data)
    return number << 64 | (state + 16) % 2**64


def name_of_one_hash(number):
    """Its first 16 characters fold to the next 8."""
    return f"hostile_2k1rbaaassjj0n58{number:08}"


def assigned_names_of_one_hash(size):
    declared = " ".join(map(name_of_one_hash, range(MOST)))
    return body(size, lambda n: f"{name_of_one_hash(n % MOST)} = {name_of_one_hash(n * 7 % MOST)};\n", f"dcl bigint {declared};")


source("methods whose names have one hash", lambda size: filled(size, DATA, lambda n: f"method {name_of_one_hash(n)}();end;", "enddata;"))
source("methods whose names have one hash, each of which is called", lambda size: each_called(
    size, DATA, lambda n: f"method {name_of_one_hash(n)}();end;", lambda n: f"{name_of_one_hash(n)}();", " end; enddata;"))
source("assignments over names of one hash", assigned_names_of_one_hash)
source("decimal constants of one hash", lambda size: body(size, lambda n: f"d={decimal_of_one_hash(n + 10**17)}n;", "dcl decimal(38,0) d;"))

# ---- declarations, outputs and units


def listed_names(size):
    lists = [filled(size, f"{word} {name}", f" {name}", ";", 0.33) for word, name in (("keep", "a"), ("retain", "b"), ("drop", "c"))]
    return f"data out (overwrite=yes); dcl bigint a b c; {''.join(lists)} method run(); end; enddata;"


def outputs(size, option):
    count = max(2, MOST * size // SOURCE_LIMIT)
    made = " ".join(f"o{n} (overwrite=yes {option(n, count)})" for n in range(16))
    return f"data {made}; dcl bigint {names('v', count)}; method run(); if v0 = 1 then output; end; enddata;"


def programs(size, beginning, piece, tail="; end; enddata;\n", most=64):
    """Programs that are alike, at the whole size so many, each of a beginning and of pieces."""
    return filled(SOURCE_LIMIT, f"data _null_; {beginning}", piece, tail, 0.98 / 64) * max(1, most * size // SOURCE_LIMIT)


def made_tables(size):
    """Four programs that make tables, and others that read these."""
    made = "".join(f"data p{n} (overwrite=yes); dcl bigint {names(f'v{n}_', 200)}; method run(); if 1 = 0 then output; end; enddata;\n" for n in range(4))
    return made + programs(size, f"method run(); set {names('p', 4)}; if 1 = 0 then put", " v3_199=", most=60)


def readers_of_all(size):
    read = f"method run(); set {SIXTEEN}; end;"
    return "".join(f"thread t{n}; dcl bigint x; {read} endthread; data _null_; {read} enddata;\n" for n in range(max(1, 64 * size // SOURCE_LIMIT)))


TABLES = {f"t{n}.csv": header(f"c{n}_", 60) for n in range(16)}
LONG = "column_" * 8
ALIKE = {f"t{n}.csv": header(f"{LONG}{n}_", 49).strip() + "," + header(LONG, 206) for n in range(16)}
SIXTEEN = names("t", 16)
INSTANCES = f"data _null_; dcl bigint x; {OF_60} method run(); if x = 1 then q0.m(); end; enddata;\n"

source("lists of one name again and again", listed_names)
source("outputs of many columns, each renamed", lambda size: outputs(size, lambda n, count: f"rename=({' '.join(f'v{c}=r{n}_{c}' for c in range(count))})"))
source("outputs of many columns, each kept", lambda size: outputs(size, lambda n, count: f"keep=({names('v', count)})"))
source("programs of many names", lambda size: programs(size, "dcl bigint a", lambda n: f" v{n}", "; method run(); end; enddata;\n"))
source("programs that read what others made", made_tables)
source("programs and thread programs that read 16 tables of 255 columns", readers_of_all, ALIKE)
source("programs that read from a thread program of many columns of long names", lambda size: (
    f"thread t; dcl bigint {names(LONG, max(2, MOST * size // SOURCE_LIMIT))}; method run(); end; endthread;" + READER.removeprefix(" endthread;") * 64))
source("uses of the last of 960 columns", lambda size: filled(size, f"data _null_; dcl bigint a; method run(); set {SIXTEEN}; if a = 1 then do; ", "a=c15_59;", DATA_END), TABLES)
source("hash objects of 128 variables", lambda size: filled(size, "", lambda n: (
    f"data _null_; {HASH_OF_128} {each_of('g', 30, 'dcl package hash {}([' + names('k', 64) + '], [' + names('d', 64) + ']);')} method run(); if k0 = 1 then h.find(); end; enddata;\n")))
source("hash objects over tables of 255 columns", lambda size: programs(
    size, f"method run(); set t0; end;", lambda n: f"dcl package hash h{n}([{LONG}205 {LONG}204],[{LONG}203],8,'t{n % 16}');", "enddata;\n"), ALIKE)
source("calls of hash objects and iterators", lambda size: body(
    size, lambda n: f"h{n % 30}.add();i{n % 30}.next();", "".join(f"dcl package hash h{n}([a],[b]); dcl package hiter i{n}('h{n}');" for n in range(30))))
source("a package of 60 instances", lambda size: filled(size, "package p; dcl bigint a; method m(); ", "a=a+1;", f" end; endpackage; {INSTANCES}", 1 / 15))
source("a package of 60 instances in each program", lambda size: filled(size, "package p; dcl bigint a; method m(); " + "a=a+1;" * 40 + " end; endpackage;", INSTANCES, share=0.28))
source("60 instances of a package of many variables in each program", lambda size: filled(
    size, f"package p; dcl bigint {names('v', 240)}; method m(); v0 = 1; end; endpackage;", INSTANCES, share=0.28))
source("packages of many methods", lambda size: "".join(
    filled(size, f"package p{n}; dcl bigint a;", lambda m: f"method m{m}();end;", "endpackage;", 1 / 64) for n in range(62)) + "data _null_; dcl package p0 q; dcl bigint x; method run(); if x = 1 then q.m0(); end; enddata;")
source("one comment", lambda size: filled(size, "data _null_; dcl bigint a; /*", "*", "*/ enddata;"))
source("comments and gaps", lambda size: filled(size, "data _null_; dcl bigint a;", "/**/ \n", "enddata;"))
source("lines", lambda size: filled(size, "data _null_; dcl bigint a;", "\r\n", "enddata;"))
source("a comment of characters of four bytes", lambda size: filled(size, "data _null_; dcl bigint a; /*", "\U0001f600", "*/ enddata;"))

# ---- sources that are refused

IN_RUN = "data _null_; dcl bigint a; method run(); "

refused("the last word", lambda size: body(size, "a=b;").removesuffix("enddata;") + "enddat;")
refused("a number of all digits", lambda size: filled(size, IN_RUN + "a = ", "1", "; end; enddata;"))
refused("a decimal of all digits", lambda size: filled(size, IN_RUN + "a = 0.", "0", "1n; end; enddata;"))
refused("a size of all digits", lambda size: filled(size, "data _null_; dcl decimal(", "0", ") a; enddata;"))
refused("a text of all characters", lambda size: filled(size, IN_RUN + "a = '", "''", "'; end; enddata;"))
refused("a text without an end", lambda size: filled(size, IN_RUN + "a = '", "''"))
refused("a comment without an end", lambda size: filled(size, IN_RUN, "/*"))
refused("a name of all characters", lambda size: filled(size, "data _null_; dcl bigint ", "a", "; enddata;"))
refused("a name of all characters in quotes", lambda size: filled(size, 'data _null_; dcl bigint "', "a", '"; enddata;'))
refused("parentheses too deep", lambda size: filled(size, IN_RUN + "a = ", "("))
refused("signs too deep", lambda size: filled(size, IN_RUN + "a = ", "-"))
refused("blocks too deep", lambda size: filled(size, IN_RUN, "do;"))
refused("conditions too deep", lambda size: filled(size, IN_RUN, "if a then "))
refused("one name declared again and again", lambda size: filled(size, "data _null_; dcl bigint a", " a", "; enddata;"))
refused("one column renamed again and again", lambda size: filled(size, "data out(rename=(a=b", " a=b", ")); dcl bigint a; enddata;"))
refused("methods of one name", lambda size: filled(size, DATA, "method m();end;", "enddata;"))
refused("names beyond their number", lambda size: filled(size, "data _null_; dcl bigint a", lambda n: f" v{n}", "; enddata;"), (0, 3))
refused("locals beyond their number", lambda size: filled(size, DATA + " method m(); dcl bigint l", lambda n: f" v{n}", "; end; enddata;"), (0, 3))
refused("parameters beyond their number", lambda size: filled(size, DATA + " method m(bigint l", lambda n: f",bigint v{n}", "); end; enddata;"), (0, 3))
refused("tables beyond their number", lambda size: filled(size, "data _null_; method run(); set t", lambda n: f" t{n}", "; end; enddata;"))
refused("outputs beyond their number", lambda size: filled(size, "data o", lambda n: f" o{n}", "; dcl bigint a; enddata;"))
refused("instances beyond their number", lambda size: filled(size, DATA, lambda n: f"dcl package hash h{n}([a],[b]);", "enddata;"))
refused("variables of a hash object beyond their number", lambda size: filled(size, DATA + "dcl package hash h([a],[b", " b", "]); enddata;"))
refused("programs beyond their number", lambda size: filled(size, "", "data _null_; dcl bigint a; enddata;"))
refused("packages beyond their number", lambda size: filled(size, "", lambda n: f"package p{n}; endpackage;"))
refused("unknown names", lambda size: body(size, lambda n: f"u{n}=w{n};"))
refused("unknown methods", lambda size: body(size, lambda n: f"u{n}();"))
refused("texts for numbers", lambda size: body(size, "a='x'+b;"))
refused("statements in the wrong place", lambda size: body(size, "leave;"))

# ---- rows, keys and groups


def rows(head, row, count):
    return head + "\n" + "".join(row(n) + "\n" for n in range(count))


def one_table(head, row):
    return lambda count: {"t.csv": rows(head, lambda n: row(n, count), count)}


def sixteen_tables(count):
    return {f"t{n}.csv": rows(f"k bigint,v{n} bigint", lambda row: f"{count - row},{n}", count // 16) for n in range(16)}


def reads(statement):
    return f"data _null_; method run(); {statement} end; enddata;"


SET_BY = reads("set t; by k;")
GROUPS = f"{THREAD} method run(); set t; by k; if first.k then x = 0; x = x + 1; end;{READER}"

table("rows in reverse", 200_000, SET_BY, one_table("k bigint", lambda n, count: f"{count - n}"))
table("rows that rise and fall", 200_000, SET_BY, one_table("k bigint", lambda n, count: f"{n if n % 2 else count - n}"))
table("rows in no order", 200_000, SET_BY, one_table("k bigint", lambda n, count: f"{n * 2654435769 % 2**32}"))
table("rows of one key", 200_000, SET_BY, one_table("k bigint", lambda n, count: "1"))
table("rows whose keys differ in their last character", 16_000, SET_BY, one_table("k varchar(1000)", lambda n, count: f"{count - n:0990}"))
table("rows whose keys differ in blanks", 32_000, SET_BY, one_table("k varchar(1000)", lambda n, count: "x" + " " * (n % 999)))
table("rows whose keys differ in the last of 16", 50_000, reads(f"set t; by {names('k', 16)};"), one_table(header("k", 16).strip(), lambda n, count: "1," * 15 + str(count - n)))
table("rows of decimals in reverse", 100_000, SET_BY, one_table('"k decimal(38,5)"', lambda n, count: f"{10**31 - n}.{n:05}"))
table("two tables of one key merged", 200_000, reads("merge t u; by k;"), lambda count: {name: rows("k bigint", lambda n: "1", count // 2) for name in ("t.csv", "u.csv")})
table("16 tables merged, in reverse", 100_000, reads(f"merge {SIXTEEN} / retain; by k;"), sixteen_tables)
table("16 tables in BY order, in reverse", 100_000, reads(f"set {SIXTEEN}; by k;"), sixteen_tables)
table("groups of a row each", 100_000, GROUPS, one_table("k bigint", lambda n, count: f"{count - n}"))
table("one group", 200_000, GROUPS, one_table("k bigint", lambda n, count: "1"))

# ---- hash objects


def hashed(kind):
    return f"data _null_; dcl {kind} k; dcl package hash h([k],[k],8,'t'); method run(); set t; if h.find() ^= 0 then put 'lost'; end; enddata;"


def hash_job(statements, declared=""):
    return lambda count: f"data _null_; dcl bigint k i; dcl package hash h([k],[k]); dcl package hiter e('h'); {declared} method run(); do k = 1 to {count}; h.add(); end; {statements.format(count)} end; enddata;"


table("decimal keys of one hash", 32_000, hashed("decimal(38,0)"), one_table('"k decimal(38,0)"', lambda n, count: f"{decimal_of_one_hash(n, [(1).to_bytes(8, 'little')])}"))
table("keys that are a power of 2 apart", 100_000, hashed("bigint"), one_table("k bigint", lambda n, count: f"{n << 32}"))
table("keys that are a power of 10 apart", 100_000, hashed("decimal(38,0)"), one_table('"k decimal(38,0)"', lambda n, count: f"{n * 10**30}"))
table("keys of long texts", 16_000, hashed("varchar(1000)"), one_table("k varchar(1000)", lambda n, count: f"{n:0990}"))
job("a hash object that is cleared again and again", 200_000, hash_job("do k = 1 to {0}; h.clear(); h.add(); end;"))
job("a hash object whose last item is removed and added", 200_000, hash_job("k = {0}; do i = 1 to {0}; h.remove(); h.add(); end;"))
job("an iterator that goes back where its item is removed", 200_000, hash_job("do k = {0} to 1 by -1; e.last(); h.remove(); end;"))
job("60 iterators of a hash object", 50_000, hash_job("do while (e.next() = 0); end; do k = {0} to 1 by -1; h.remove(); end;", each_of("e", 60, "dcl package hiter {}('h');")))

# ---- cells and lines

COPY = "data out (overwrite=yes); method run(); set t; end; enddata;"


def digits_but_for(place, other):
    """A table of small numbers, in which the row of this place is another one."""
    return one_table("a,b,c,d", lambda n, count: other if n == place % count else "1,2,3,4")


ALL_TYPES = "x,1.5,-0,99999999999999999999"
table("types that change in the last row", 1_000_000, reads("set t;"), digits_but_for(-1, ALL_TYPES), plain=digits_but_for(0, ALL_TYPES))
table("types that change in row 1,001", 1_000_000, reads("set t;"), digits_but_for(1000, ALL_TYPES), plain=digits_but_for(0, ALL_TYPES))
table("types that change again and again", 50_000, reads("set t;"), one_table("a,b", lambda n, count: f"{'9' * (n % 30 + 1)}.{'1' * (n % 8 + 1)},{'x' * (n % 1000 + 1)}"))
table("cells of quotes", 100_000, COPY, one_table("a", lambda n, count: '"' + '""' * 30 + '"'))
table("a quote without an end", 400_000, COPY, one_table("a,b", lambda n, count: "1,2" if n else '"1,2'), 4)
table("a cell of all bytes", 4_000_000, COPY, lambda count: {"t.csv": "a\n" + "7" * count + "\n"}, 4)
table("a header cell of all bytes", 4_000_000, COPY, lambda count: {"t.csv": "a" * count + "\n"}, 4)
table("a header of commas", 4_000_000, COPY, lambda count: {"t.csv": "," * count + "\n"}, 4)
table("lines without cells", 4_000_000, COPY, lambda count: {"t.csv": "a bigint\n" + "\n" * count + "1\n"})
table("rows of 256 cells", 4_000, COPY, lambda count: {"t.csv": rows(",".join(names("c", 256).split()), lambda n: "," * 255, count)})
table("texts of 1,024 characters of four bytes", 8_000, COPY, one_table("a", lambda n, count: "\U0001f600" * 1024))
table("decimals of 38 digits", 100_000, "data _null_; dcl decimal(38,19) b; method run(); set t; b = a * 0.1n / 3; end; enddata;", one_table("a", lambda n, count: f"-{10**15 + n}.{10**18 + n}"))
job("lines that are put", 200_000, lambda count: f"data _null_; dcl bigint i; method run(); do i = 1 to {count}; put i= 'a text'; end; end; enddata;")
job("rows for 16 outputs", 20_000, lambda count: f"data {' '.join(f'o{n} (overwrite=yes)' for n in range(16))}; dcl bigint i; method run(); do i = 1 to {count}; output; end; end; enddata;")

# ---- objects

NONE = (0, b"")
BIGINT, NO_RESULT = u8(0), u8(0)
END, RET, NOWHEN, DROP, NULL, CALL, OUTPUT = u8(57), u8(48), u8(50), u8(6), u8(1) + BIGINT, u8(47) + u32(0), u8(51) + u32(0)
KEPT, READ = text("k") + BIGINT + u8(1), text("k") + BIGINT + u8(2)


def listed(part):
    """A list as an object has it, of how many there are and of the bytes of all."""
    return u32(part[0]) + part[1]


def times(count, piece):
    return count, piece * count


def counted(count, piece):
    return count, b"".join(map(piece, range(count)))


def program(slots=NONE, constants=NONE, hashes=NONE, iterators=NONE, methods=NONE, reading=u8(0), outputs=NONE, code=(1, END), name=u8(0), run=0):
    """A program whose units begin with its code, and `run` perhaps later."""
    lists = [slots, constants, hashes, iterators, NONE, methods]
    return name + b"".join(map(listed, lists)) + reading + listed(outputs) + u32(0) + u32(run) + u32(0) + listed(code)


def object_of(*parts):
    return b"DS2O" + u16(1) + u32(len(parts)) + b"".join(parts)


def method(entry, locals_, parameters=NONE):
    return u32(entry) + listed(parameters) + listed(locals_) + NO_RESULT


def methods(count, locals_):
    """An object of so many methods, each with locals by its number."""
    return object_of(program(methods=counted(count, lambda n: method(n + 1, locals_(n))), code=(count + 1, END + RET * count)))


# What the lengths of six texts may differ by without another digest of a signature: the sum of each number times 1000003 ^ k is 0 modulo 4294967291.
WITHOUT_TRACE = [(3, -22, 17, 16, -12, 8), (-8, 3, -9, 23, 21, -12), (6, 12, -11, 27, -14, -9), (-38, -3, -31, 0, 6, 6), (-15, -22, -9, 3, -24, -35), (-39, 32, 20, 10, -22, 11)]


def locals_of_one_digest(number):
    lengths = [512] * 6
    for differences in WITHOUT_TRACE:
        number, factor = divmod(number, 7)
        lengths = [length + (factor - 3) * difference for length, difference in zip(lengths, differences)]
    return 6, b"".join(u8(2) + u16(length) for length in lengths)


def calls_with_in_out(size):
    """A method of many in_out parameters, and calls of it one behind the other behind the end of the units, where nothing comes to."""
    count = size // 15
    called = method(count * 3 + 2, NONE, times(count, BIGINT + u8(1)))
    return object_of(program(methods=(1, called), code=(count * 3 + 3, END + NULL * count + CALL * count + DROP * count + END + RET)))


def calls_with_locals(size):
    """A method of many locals, and calls of it."""
    count = size // 6
    return object_of(program(methods=(1, method(count + 1, times(count, BIGINT))), code=(count + 2, CALL * count + END + RET)))


def output(name, columns):
    return text(name) + u8(1) + listed(columns)


def stopped(outputs):
    """A program with these outputs that ends in a fault, so that nothing is written."""
    return object_of(program(slots=(1, KEPT), outputs=outputs, code=(2, NOWHEN + END)))


def maker(rows):
    """A program that makes so many rows of the table t."""
    return program(slots=(1, KEPT), outputs=(1, output("t", (1, text("k") + u32(0)))), code=(rows + 2, END + OUTPUT * rows + END), run=1)


def hash_calls(size):
    """A hash object of many keys, and calls of it."""
    count = size // 11
    return object_of(program(slots=(1, KEPT), hashes=(1, listed(times(count, u32(0))) + u32(0) + u8(0)), code=(2 * count + 1, (u8(54) + u32(0) + u8(1) + DROP) * count + END)))


def output_rows(size):
    """A table of many columns and rows."""
    columns = counted(size // 24, lambda n: text(f"c{n:05}") + u32(0))
    return object_of(program(slots=(1, KEPT), outputs=(1, output("t", columns)), code=(size // 24 + 2, END + OUTPUT * (size // 24) + END), run=1))


ONE_NUMBER = u32(1) + u32(0)
MADE = text("t") + u32(1) + u32(1) + text("k") + BIGINT
LOADED = ONE_NUMBER * 2 + u8(1) + MADE + ONE_NUMBER * 2
STAGE = program(name=u8(1) + text("t"), slots=(1, KEPT), outputs=(1, output("t", (1, text("k") + u32(0)))))
READS_STAGE = program(slots=(1, READ), reading=u8(5) + u8(64) + STAGE + ONE_NUMBER)
READS_TABLE = program(slots=(1, READ), reading=u8(2) + u32(1) + MADE + u8(0) + ONE_NUMBER + u32(0))

stored("methods whose signatures have one digest", 524_288, lambda size: methods(size // 32, locals_of_one_digest))
stored("methods whose signatures differ in their last type", 2_097_152, lambda size: methods(size // 3072, lambda n: (1001, (u8(2) + u16(9)) * 1000 + u8(2) + u16(n + 1))))
stored("methods of one signature", 1_048_576, lambda size: methods(size // 14, lambda n: NONE))
stored("instructions of one byte", 1_048_576, lambda size: object_of(program(code=times(size, END))))
stored("operands, and one line of them", 1_048_576, lambda size: object_of(program(code=(size // 4 + 2, (u8(1) + u8(3) + u16(9)) * (size // 4) + u8(53) + u32(size // 4) + END))))
stored("calls with many in_out arguments", 524_288, calls_with_in_out, power=2)
stored("calls of a method of many locals", 131_072, calls_with_locals, power=2)
stored("jumps", 1_048_576, lambda size: object_of(program(code=(size // 5 + 1, counted(size // 5, lambda n: u8(44) + u32(n + 1))[1] + END))))
stored("slots of one name", 1_048_576, lambda size: object_of(program(slots=times(size // 7, KEPT))))
stored("constants", 1_048_576, lambda size: object_of(program(constants=times(size // 9, BIGINT + b"\1" * 8))))
stored("constants that are long texts", 4_194_304, lambda size: object_of(program(constants=times(size // 1031, u8(3) + u16(1024) + text("a" * 1024)))))
stored("hash objects and iterators", 1_048_576, lambda size: object_of(
    program(slots=(1, KEPT), hashes=times(size // 21, ONE_NUMBER * 2 + u8(0)), iterators=counted(size // 21, u32))))
stored("hash objects of one table", 1_048_576, lambda size: object_of(maker(1), program(slots=(1, KEPT), hashes=times(size // 52, LOADED))))
stored("hash objects of one table of many rows", 131_072, lambda size: object_of(maker(size // 10), program(slots=(1, KEPT), hashes=times(size // 104, LOADED))), power=2)
stored("calls of a hash object of many keys", 131_072, hash_calls, power=2)
stored("rows of many columns", 65_536, output_rows, power=2)
stored("columns of an output", 1_048_576, lambda size: stopped((1, output("t", counted(size // 17, lambda n: text(f"c{n:08}") + u32(0))))), 6)
stored("columns of an output whose names have one hash", 1_048_576, lambda size: stopped((1, output("t", counted(size // 40, lambda n: text(name_of_one_hash(n)) + u32(0))))), 6)
stored("outputs whose names have one hash", 1_048_576, lambda size: stopped(counted(size // 41, lambda n: output(name_of_one_hash(n), NONE))), 6)
stored("programs", 1_048_576, lambda size: object_of(*[program()] * (size // len(program()))))
stored("programs that read from thread programs", 1_048_576, lambda size: object_of(*[READS_STAGE] * (size // len(READS_STAGE))))
stored("programs that read the table of the first", 1_048_576, lambda size: object_of(maker(1), *[READS_TABLE] * (size // len(READS_TABLE))))
stored("all bytes but the last", 1_048_576, lambda size: object_of(program(code=times(size, END)))[:-1], 10)
stored("code that is not valid in its last instruction", 1_048_576, lambda size: object_of(program(code=(size, END * (size - 1) + DROP))), 10)
