#!/usr/bin/env python3
"""Works the answers of the objects of crates/ds2_layer_cases out anew from the lines of the format, and compares them.

`object_cases.py` compares that section of its stdin and stdout with what it works out; `object_cases.py --write` writes both; `object_cases.py
--times` prints the stdin by which objects.sh takes times. Nothing is shared with the product. A second reader of the format, written
from its lines alone (docs/OBJECT.md), gives the answers. It does not look at whether code is valid: it answers NotValid for a number
of a comparison or a call that is none, and where else code is not valid, the case says so.
"""
import struct
import sys

import layer_cases

RESERVED = set("""and bigint by char continue data dcl decimal declare descending do drop else end enddata endpackage endthread eq
from ge gt if in_out keep le leave lt merge method ne not null numeric or otherwise output package put retain return returns select
set then thread to until varchar when while""".split())


class Bad(Exception):
    pass


class Cut(Exception):
    pass


# ---- writing

def u8(n): return bytes([n])
def u16(n): return struct.pack("<H", n)
def u32(n): return struct.pack("<I", n)
def items(xs, f): return u32(len(xs)) + b"".join(f(x) for x in xs)
def text(s): b = s.encode() if isinstance(s, str) else s; return u32(len(b)) + b
def flag(b): return u8(int(b))  # a number that is none stays as it is
def opt(x, f): return u8(0) if x is None else u8(1) + f(x)


def ty(t):
    kind = t[0]
    return {"i": lambda: u8(0), "d": lambda: u8(1) + u8(t[1]) + u8(t[2]), "c": lambda: u8(2) + u16(t[1]), "v": lambda: u8(3) + u16(t[1])}[kind]()


def constant(c):
    t, v = c
    if t[0] == "i":
        return ty(t) + struct.pack("<q", v)
    if t[0] == "d":
        return ty(t) + v.to_bytes(16, "little", signed=True)
    return ty(t) + text(v)


def column(c): return text(c[0]) + ty(c[1])
def ref(r): return text(r[0]) + u32(r[1]) + items(r[2], column)
def slot(s): return text(s[0]) + ty(s[1]) + u8(s[2])
def hash_table(t): return ref(t[0]) + items(t[1], u32) + items(t[2], u32)
def hash_object(h): return items(h[0], u32) + items(h[1], u32) + opt(h[2], hash_table)
def method(m): return u32(m[0]) + items(m[1], lambda p: ty(p[0]) + flag(p[1])) + items(m[2], ty) + opt(m[3], ty)
def read_table(t): return ref(t[0]) + opt(t[1], u32) + items(t[2], u32)
def by(b): return u32(b[0]) + flag(b[1]) + u32(b[2]) + u32(b[3])
def output(o): return text(o[0]) + flag(o[1]) + items(o[2], lambda c: text(c[0]) + u32(c[1]))


def reading(r):
    kind = r[0]
    if kind in ("once", "nothing"):
        return u8(("once", "nothing").index(kind))
    if kind in ("set", "merge", "retain"):
        return u8(2 + ("set", "merge", "retain").index(kind)) + items(r[1], read_table) + items(r[2], by)
    return u8(5) + u8(r[1]) + program(r[2]) + items(r[3], u32)


SHAPES = {1: "t", 8: "ps", 9: "n", 10: "n", 26: "o", 27: "o", 28: "o", 43: "pp", 54: "c", 55: "c"}
for code in (0, 2, 3, 4, 5, 35, 36, 37, 44, 45, 46, 47, 51, 53, 56):
    SHAPES[code] = "u"


def instr(i):
    code, shape = i[0], SHAPES.get(i[0], "")
    rest = {"": lambda: b"", "u": lambda: u32(i[1]), "t": lambda: ty(i[1]), "ps": lambda: u8(i[1]) + u8(i[2]), "n": lambda: u16(i[1]),
            "o": lambda: u8(i[1]), "pp": lambda: u32(i[1]) + u32(i[2]), "c": lambda: u32(i[1]) + u8(i[2])}[shape]()
    return u8(code) + rest


def program(p):
    return (opt(p.get("name"), text) + items(p.get("slots", []), slot) + items(p.get("constants", []), constant) + items(p.get("hashes", []), hash_object)
            + items(p.get("iterators", []), u32) + items(p.get("parameters", []), u32) + items(p.get("methods", []), method) + reading(p.get("reading", ("once",)))
            + items(p.get("outputs", []), output) + u32(p.get("init", 0)) + u32(p.get("run", 0)) + u32(p.get("term", 0)) + items(p.get("instrs", [(57,)]), instr))


def object_file(programs, version=1): return b"DS2O" + u16(version) + items(programs, program)


# ---- reading

class Reader:
    def __init__(self, data):
        self.data, self.at, self.odd = data, 0, False

    def take(self, n):
        if len(self.data) - self.at < n:
            raise Cut
        self.at += n
        return self.data[self.at - n:self.at]

    def number(self, n): return int.from_bytes(self.take(n), "little")

    def tag(self, values):
        place, n = self.at, self.number(1)
        if n not in values:
            raise Bad(place)
        return n

    def list(self, f): return [f() for _ in range(self.number(4))]
    def opt(self, f): return f() if self.tag((0, 1)) else None

    def text(self):
        place, n = self.at, self.number(4)
        data = self.take(n)
        try:
            return place, data.decode("utf-8")
        except UnicodeDecodeError:
            raise Bad(place)

    def name(self, table=False):
        place, s = self.text()
        proper = 1 <= len(s) <= 64 and not any(ord(c) < 32 or c in "\x7f\ufeff" for c in s) and s[0] != " " and s[-1] != " "
        if not proper or any("A" <= c <= "Z" for c in s):
            raise Bad(place)
        if table:
            word = s[0] in "abcdefghijklmnopqrstuvwxyz_" and all(c in "abcdefghijklmnopqrstuvwxyz_0123456789" for c in s)
            if not word or s in RESERVED:
                raise Bad(place)
        return s

    def type(self):
        place, kind = self.at, self.tag((0, 1, 2, 3))
        if kind == 0:
            return ("i",)
        if kind == 1:
            p, s = self.number(1), self.number(1)
            if not (1 <= p <= 38 and s <= p):
                raise Bad(place)
            return ("d", p, s)
        n = self.number(2)
        if not 1 <= n <= 1024:
            raise Bad(place)
        return ("c" if kind == 2 else "v", n)

    def constant(self):
        place, t = self.at, self.type()
        if t[0] == "c":
            raise Bad(place)
        place = self.at
        if t[0] == "i":
            self.take(8)
        elif t[0] == "d":
            if abs(int.from_bytes(self.take(16), "little", signed=True)) >= 10 ** t[1]:
                raise Bad(place)
        elif len(self.text()[1]) > t[1]:
            raise Bad(place)

    def u32(self): return self.number(4)
    def column(self): self.name(); self.type()
    def ref(self): self.name(table=True); self.u32(); self.list(self.column)
    def slot(self): self.name(); self.type(); self.tag(range(4))
    def hash_table(self): self.ref(); self.list(self.u32); self.list(self.u32)
    def hash(self): self.list(self.u32); self.list(self.u32); self.opt(self.hash_table)
    def parameter(self): self.type(); self.tag((0, 1))
    def method(self): self.u32(); self.list(self.parameter); self.list(self.type); self.opt(self.type)
    def table(self): self.ref(); self.opt(self.u32); self.list(self.u32)
    def by(self): self.u32(); self.tag((0, 1)); self.u32(); self.u32()
    def output_column(self): self.name(); self.u32()
    def output(self): self.name(table=True); self.tag((0, 1)); self.list(self.output_column)

    def reading(self, in_stage):
        kind = self.tag(range(5 if in_stage else 6))
        if kind in (2, 3, 4):
            self.list(self.table)
            self.list(self.by)
        elif kind == 5:
            self.tag(range(1, 65))
            self.program(True)
            self.list(self.u32)

    def instr(self):
        code = self.tag(range(58))
        shape = SHAPES.get(code, "")
        if shape == "t":
            self.type()
        elif shape == "o":
            self.odd |= self.number(1) > 5
        elif shape == "c":
            self.u32()
            self.odd |= self.number(1) > (6 if code == 54 else 3)
        else:
            self.take({"": 0, "u": 4, "ps": 2, "n": 2, "pp": 8}[shape])

    def program(self, in_stage):
        self.tag((1,) if in_stage else (0,))
        if in_stage:
            self.name()
        self.list(self.slot), self.list(self.constant), self.list(self.hash), self.list(self.u32), self.list(self.u32), self.list(self.method)
        self.reading(in_stage)
        self.list(self.output)
        self.u32(), self.u32(), self.u32()
        self.list(self.instr)


def answer(data):
    r = Reader(data)
    try:
        if r.take(4) != b"DS2O":
            return "BadMagic"
        if r.number(2) != 1:
            return "BadVersion"
        r.list(lambda: r.program(False))
    except Cut:
        return "Truncated"
    except Bad as bad:
        return f"BadField {bad.args[0]}"
    if r.at < len(data):
        return "TrailingBytes"
    return "NotValid" if r.odd else "Ok"


# ---- cases

PLAIN = {"slots": [("a", ("i",), 0), ("b c", ("d", 10, 2), 1), ("d", ("v", 20), 2), ("first.a", ("i",), 3)],
         "constants": [(("i",), -5), (("d", 38, 0), 10 ** 38 - 1), (("v", 3), "äöü")],
         "methods": [(3, [(("i",), False), (("c", 8), True)], [("d", 12, 3)], ("i",))],
         "reading": ("set", [(("t", 0, [("a", ("i",)), ("d", ("v", 20))]), 3, [0, 2])], [(0, True, 3, 3)]),
         "outputs": [("out", True, [("a", 0), ("d", 2)])], "init": 2, "run": 0, "term": 2,
         "instrs": [(43, 1, 2), (57,), (57,), (0, 0), (49,)]}
HASHED = {"slots": [("k", ("i",), 1), ("v", ("v", 9), 1)],
          "hashes": [([0], [1], (("t", 0, [("k", ("i",)), ("v", ("v", 9))]), [0], [1])), ([0], [1], None)], "iterators": [0, 1], "parameters": [0],
          "instrs": [(1, ("d", 5, 5)), (8, 12, 6), (6,), (1, ("v", 9)), (9, 4), (10, 65535 // 64), (6,), (54, 0, 6), (1, ("i",)), (26, 5), (6,), (55, 1, 3), (6,), (57,)]}
THREAD = {"name": "th", "slots": [("x", ("i",), 0)], "reading": ("merge", [(("u", 0, [("x", ("i",))]), None, [0])], []), "outputs": [("th", False, [("x", 0)])]}
STAGED = {"slots": [("x", ("i",), 2)], "reading": ("stage", 64, THREAD, [0])}


def maker(n, name="out", columns=(("a", ("i",)), ("d", ("v", 20)))):
    """A program that reads a table of a maker."""
    return {"slots": [("a", ("i",), 2), ("d", ("v", 20), 2)], "reading": ("set", [((name, n, list(columns)), None, list(range(len(columns))))], [])}


def one_slot(*slot): return object_file([{"slots": [slot]}])
def one_type(*t): return one_slot("a", t, 0)
def one_constant(*c): return object_file([{"constants": [c]}])
def one_table(name): return object_file([{"reading": ("set", [((name, 0, []), None, [])], [])}])
def one_output(name, flag=False, columns=()): return object_file([{"slots": [("a", ("i",), 0)], "outputs": [(name, flag, list(columns))]}])
def instrs(*each): return object_file([{"instrs": list(each)}])
def from_thread(threads, program=THREAD): return object_file([dict(STAGED, reading=("stage", threads, program, [0]))])
def cut(data, n): return data[:n]


EMPTY = object_file([{}])
UNTIL_SLOTS = EMPTY[:11]
# Without an end: its budget ends it. TICK 1 1, CONST 0, JTRUE 0, END.
LOOP = {"constants": [(("i",), 1)], "init": 3, "run": 0, "term": 3, "instrs": [(43, 1, 1), (0, 0), (46, 0), (57,)]}
WHOLE = [("No program", []), ("A loop without an end", [LOOP]), ("A program that does nothing", [{}]), ("A program that reads a table", [PLAIN]), ("Hash objects", [HASHED]), ("A thread program", [STAGED]), ("Two programs", [PLAIN, STAGED])]

SPOILED = [
    ("Magic and version", [
        ("Another magic", b"DS2P" + object_file([])[4:]), ("Another magic and another version", b"DS2P\x02\x00"), ("Half of another magic", b"XY"), ("Version 2", object_file([], 2)),
        ("Version 256", object_file([], 256)), ("The version in the other order", b"DS2O\x00\x01\0\0\0\0"), ("Half a version", b"DS2O\x02"), ("No byte", b"")]),
    ("Names of programs", [
        ("A data program with a name", object_file([dict(PLAIN, name="p")])), ("A flag of 2 before a name", EMPTY[:10] + b"\x02" + EMPTY[11:]),
        ("A thread program without a name", from_thread(1, dict(THREAD, name=None))), ("A thread program with a name in upper case", from_thread(1, dict(THREAD, name="TH"))),
        ("The second program has a name", object_file([PLAIN, dict(PLAIN, name="p")]))]),
    ("Names", [
        ("A letter in upper case", one_slot("A", ("i",), 0)), ("A letter in upper case that is no ASCII", one_slot("Ä", ("i",), 0)), ("A blank before a name", one_slot(" a", ("i",), 0)),
        ("A blank behind a name", one_slot("a ", ("i",), 0)), ("A name without a character", one_slot("", ("i",), 0)), ("64 characters", one_slot("ä" * 64, ("i",), 0)),
        ("65 characters", one_slot("a" * 65, ("i",), 0)), ("A delete in a name", one_slot("a\x7fb", ("i",), 0)), ("A line feed in a name", one_slot("a\nb", ("i",), 0)),
        ("A name that is no UTF-8", one_slot(b"\xc3", ("i",), 0)), ("A name that is longer than the bytes", UNTIL_SLOTS + u32(1) + u32(1000) + b"a"),
        ("A name of no UTF-8 that is longer than the bytes", UNTIL_SLOTS + u32(1) + u32(3) + b"\xff\xff")]),
    ("Types", [
        ("A role of 4", one_slot("a", ("i",), 4)), ("A type of tag 4", UNTIL_SLOTS + u32(1) + text("a") + u8(4)), ("DECIMAL(0,0)", one_type("d", 0, 0)), ("DECIMAL(39,0)", one_type("d", 39, 0)),
        ("DECIMAL(38,38)", one_type("d", 38, 38)), ("DECIMAL(3,4)", one_type("d", 3, 4)), ("DECIMAL of 200 digits, cut behind them", UNTIL_SLOTS + u32(1) + text("a") + u8(1) + u8(200)),
        ("CHAR(0)", one_type("c", 0)), ("CHAR(1025)", one_type("c", 1025)), ("VARCHAR(0)", one_type("v", 0)), ("VARCHAR(1024)", one_type("v", 1024)), ("VARCHAR(1025)", one_type("v", 1025))]),
    ("Constants", [
        ("A constant of CHAR", one_constant(("c", 2), "ab")), ("A constant of CHAR, cut in its type", EMPTY[:15] + u32(1) + u8(2) + u8(1)), ("One digit too many", one_constant(("d", 2, 1), 100)),
        ("As many digits", one_constant(("d", 2, 1), -99)), ("39 digits", one_constant(("d", 38, 0), 10 ** 38)), ("The least number of 128 bits", one_constant(("d", 38, 0), -2 ** 127)),
        ("One character too many", one_constant(("v", 2), "äöü")), ("A text that is no UTF-8", one_constant(("v", 9), b"\xff")), ("An empty text", one_constant(("v", 1), "")),
        ("The least BIGINT", one_constant(("i",), -2 ** 63))]),
    ("Tables and outputs", [
        ("A table named by a reserved word", one_table("select")), ("A point in a table's name", one_table("a.b")), ("A table that begins with a digit", one_table("1a")),
        ("A table that begins with `_`", one_table("_a")), ("A letter in a table's name that is no ASCII", one_table("ä")), ("An output with a blank in its name", one_output("a b")),
        ("An output named by a reserved word", one_output("retain")), ("A column of an output with a blank in its name", one_output("a", columns=[("b c", 0)])),
        ("A column of an output of a slot that is not there", one_output("a", columns=[("b", 1)]), "NotValid"),
        ("A hash object's table named in upper case", object_file([{"hashes": [([], [], (("T", 0, []), [], []))]}]))]),
    ("Flags and tags", [
        ("A reading of tag 6", EMPTY[:35] + u8(6) + EMPTY[36:]), ("Overwrite of 2", one_output("a", 2)), ("Overwrite of 255", one_output("a", 255)),
        ("in_out of 2", object_file([{"methods": [(0, [(("i",), 2)], [], None)]}])), ("Descending of 2", object_file([{"reading": ("set", [], [(0, 2, 0, 0)])}])),
        ("The flag of a method's result is 2", object_file([{}])[:31] + u32(1) + u32(0) + u32(0) + u32(0) + u8(2))]),
    ("Threads", [
        ("No thread", from_thread(0)), ("One thread", from_thread(1)), ("65 threads", from_thread(65)),
        ("A thread program in a thread program", from_thread(1, dict(THREAD, reading=("stage", 1, THREAD, [0])))),
        ("A thread program in a thread program, cut at its tag", cut(from_thread(1, dict(THREAD, reading=("stage", 1, THREAD, [0]))), 89)),
        ("A comparison of 6 in a thread program", from_thread(1, dict(THREAD, instrs=[(1, ("i",)), (1, ("i",)), (26, 6), (6,), (57,)])))]),
    ("Instructions", [
        ("An operation code of 58", instrs((58,))), ("An operation code of 255", instrs((255,))), ("A comparison of 6", instrs((1, ("i",)), (1, ("i",)), (26, 6), (6,), (57,))),
        ("A comparison of 5", instrs((1, ("i",)), (1, ("i",)), (26, 5), (6,), (57,))), ("A comparison of 6, and a code of 58 behind it", instrs((27, 6), (58,))),
        ("A comparison of 6, and a byte behind the object", instrs((28, 255), (57,)) + b"\0"), ("A comparison of 6, cut behind it", instrs((28, 6), (57,))[:-1]),
        ("A call of a hash object of 7", instrs((54, 0, 7), (6,), (57,))), ("A call of a hash iterator of 4", instrs((55, 0, 4), (6,), (57,))),
        ("A call of a hash object that is not there", instrs((54, 0, 6), (6,), (57,)), "NotValid"), ("255 digits in RESCALE", instrs((1, ("d", 5, 5)), (8, 255, 255), (6,), (57,)), "NotValid"),
        ("A length of 0 in PAD", instrs((1, ("v", 5)), (9, 0), (6,), (57,)), "NotValid"), ("NULL of a type out of bounds", instrs((1, ("v", 0)), (6,), (57,))),
        ("NULL of a type of tag 4", instrs()[:-4] + u32(1) + u8(1) + u8(4)), ("No instruction", instrs(), "NotValid"), ("The last instruction falls", instrs((43, 1, 1)), "NotValid"),
        ("A jump behind the last instruction", instrs((44, 2), (57,)), "NotValid")]),
    ("Counts", [
        ("4,294,967,295 programs", b"DS2O" + u16(1) + u32(2 ** 32 - 1)), ("4,294,967,295 instructions", instrs()[:-4] + u32(2 ** 32 - 1) + u8(57)),
        ("4,294,967,295 characters", UNTIL_SLOTS + u32(1) + u32(2 ** 32 - 1) + b"abc"), ("One program more than there are", b"DS2O" + u16(1) + u32(2) + EMPTY[10:]),
        ("One program less than there are", b"DS2O" + u16(1) + u32(1) + EMPTY[10:] + EMPTY[10:])]),
    ("Makers", [
        ("The first program makes what the second reads", object_file([PLAIN, maker(1)])), ("A program reads what it makes itself", object_file([PLAIN, maker(2)]), "NotValid"),
        ("A program reads what a later one makes", object_file([maker(2), PLAIN]), "NotValid"), ("A maker that is no program", object_file([PLAIN, maker(3)]), "NotValid"),
        ("A maker of 4,294,967,295", object_file([PLAIN, maker(2 ** 32 - 1)]), "NotValid"), ("The maker has no such output", object_file([PLAIN, maker(1, "other")]), "NotValid"),
        ("The output has one column more", object_file([PLAIN, maker(1, columns=(("a", ("i",)),))]), "NotValid"),
        ("The output's column has another name", object_file([PLAIN, maker(1, columns=(("a", ("i",)), ("e", ("v", 20))))]), "NotValid"),
        ("The output's column has another type", object_file([PLAIN, maker(1, columns=(("a", ("i",)), ("d", ("v", 19))))]), "NotValid"),
        ("The output's columns in another order", object_file([PLAIN, {"slots": [("a", ("i",), 2), ("d", ("v", 20), 2)], "reading": ("set", [(("out", 1, [("d", ("v", 20)), ("a", ("i",))]), None, [1, 0])], [])}]), "NotValid"),
        ("A thread program reads what the first program makes", object_file([dict(PLAIN, outputs=[("u", False, [("x", 0)])]), dict(STAGED, reading=("stage", 2, dict(THREAD, reading=("merge", [(("u", 1, [("x", ("i",))]), None, [0])], [])), [0]))])),
        ("A thread program reads what no program makes", object_file([PLAIN, dict(STAGED, reading=("stage", 2, dict(THREAD, reading=("merge", [(("u", 1, [("x", ("i",))]), None, [0])], [])), [0]))]), "NotValid"),
        ("A hash object begins with what the first program makes", object_file([dict(PLAIN, outputs=[("t", False, [("k", 0), ("v", 2)])]), dict(HASHED, slots=[("k", ("i",), 1), ("v", ("v", 20), 1)], hashes=[([0], [1], (("t", 1, [("k", ("i",)), ("v", ("v", 20))]), [0], [1])), ([0], [1], None)])])),
        ("A hash object begins with what no program makes", object_file([PLAIN, dict(HASHED, hashes=[([0], [1], (("t", 1, [("k", ("i",)), ("v", ("v", 9))]), [0], [1])), ([0], [1], None)])]), "NotValid"),
        ("What the first program makes is not valid, and a byte stands behind it", object_file([PLAIN, maker(2)]) + b"\0")]),
]


def read_255(data, n):
    found = answer(data[:n] + b"\xff" + data[n + 1:])
    return "Read" if found in ("Ok", "NotValid") else found


def bytes_answer(data):
    lines, last = [], ""
    for n in range(len(data)):
        found = read_255(data, n)
        if found != last:
            lines.append(f"from {n} on {found}")
            last = found
    return "\n    ".join(lines + ["to the end"])


def blocks():
    """The cases: a heading, or a name, a word, a file and the answer."""
    yield ("Objects",)
    for name, programs in WHOLE:
        yield name, "object", object_file(programs), "Ok"
        yield f"{name}, and a byte behind", "object", object_file(programs) + b"\0", "TrailingBytes"
    yield ("Each cut is Truncated",)
    for name, programs in WHOLE:
        data = object_file(programs)
        assert all(answer(data[:n]) == "Truncated" for n in range(len(data)))
        yield name, "cuts", data, f"each other cut is Truncated, of {len(data)}"
    yield ("Each byte set to 255",)
    for name, programs in WHOLE[3:6]:
        data = object_file(programs)
        yield name, "bytes", data, bytes_answer(data)
    for heading, cases in SPOILED:
        yield (heading,)
        for case in cases:
            found = answer(case[1])
            assert len(case) == 2 or found == "Ok", case[0]
            yield case[0], "object", case[1], case[2] if len(case) == 3 else found


def timed_objects():
    """Objects of many instructions; objects of a program that makes many tables and one with a hash object for each of them."""
    statement = [(43, 1, 1), (2, 0), (0, 0), (11,), (3, 0)]
    total = [("total", ("i",), 1)]
    for n in (250_000, 500_000, 1_000_000):
        yield f"{n:,} instructions", [{"slots": total, "constants": [(("i",), 1)], "instrs": statement * (n // 5) + [(57,)]}]
    for n in (4_000, 8_000, 16_000):
        names = [f"table_{i}" for i in range(n)]
        tables = [([0], [], ((name, 1, [("total", ("i",))]), [0], [])) for name in names]
        yield f"{n:,} tables", [{"slots": total, "outputs": [(name, False, [("total", 0)]) for name in names]}, {"slots": total, "hashes": tables}]


def main():
    if "--times" in sys.argv:
        print("#### layer objects\n" + "\n\n".join(f"# {name}\ntime {object_file(programs).hex()}" for name, programs in timed_objects()))
        return
    given, wanted = [], []
    for block in blocks():
        if len(block) == 1:
            given.append(f"## {block[0]}")
            wanted.append(f"## {block[0]}")
        else:
            name, word, data, found = block
            given.append(f"# {name}\n{word} {data.hex()}".rstrip())
            wanted.append(f"# {name}\n    {found}")
    for name, text in (("stdin", "\n\n".join(given) + "\n"), ("stdout", "\n\n".join(wanted) + "\n\n")):
        if "--write" in sys.argv:
            layer_cases.write(name, "objects", text)
        elif layer_cases.read(name, "objects") != text:
            sys.exit(f"{name} differs: object_cases.py --write writes it")
    print(f"{len(given)} blocks agree")


if __name__ == "__main__":
    main()
