#!/usr/bin/env python3
"""Works the answers of the codes that crates/ds2_layer_cases runs out anew from the machine's table, and compares them.

`machine_cases.py` compares the cases' stdout with the answers; `machine_cases.py --print` prints the answers. Nothing is shared with
the product: numbers are Python's, and each instruction is written from its row of the table.
"""
import re
import sys

import layer_cases


class Dec:
    """A decimal: units of a scale."""

    def __init__(self, units, scale):
        self.units, self.scale = units, scale


class Broken(Exception):
    """A fault."""


def decimal_of(text):
    sign = -1 if text.startswith("-") else 1
    digits = text.lstrip("-")
    whole, _, part = digits.partition(".")
    return Dec(sign * int((whole + part) or "0"), len(part))


def escapes(text):
    def one(found):
        if found.group(1):
            return found.group(3) * int(found.group(2))
        return {"n": "\n", "r": "\r", "t": "\t", "m": "\ufeff"}[found.group(4)]

    return re.sub(r"\\(?:(\{(\d+):(.*?)\})|([nrtm]))", one, text)


def value_of(word):
    if word == "null":
        return None
    if word.startswith("'"):
        return escapes(word[1:-1])
    if word.endswith("n"):
        return decimal_of(word[:-1])
    return int(word)


def decimal_text(d):
    digits = str(abs(d.units)).rjust(d.scale + 1, "0")
    cut = len(digits) - d.scale
    text = digits[:cut] + ("." + digits[cut:] if d.scale else "")
    return ("-" if d.units < 0 else "") + text


def shown(v):
    if v is None:
        return "null"
    if isinstance(v, Dec):
        return decimal_text(v) + "n"
    return f"'{v}'" if isinstance(v, str) else str(v)


# ---- numbers


def whole(i):
    if not -(2**63) <= i < 2**63:
        raise Broken("Overflow")
    return i


def within(units, scale, digits=38):
    if abs(units) >= 10**digits:
        raise Broken("Overflow")
    return Dec(units, scale)


def halves_away(n, d):
    """n / d, rounded half away from zero."""
    q, r = divmod(abs(n), abs(d))
    q += 2 * r >= abs(d)
    return q if (n < 0) == (d < 0) else -q


def rescaled(d, p, s):
    if d.scale <= s:
        return within(d.units * 10 ** (s - d.scale), s, p)
    return within(halves_away(d.units, 10 ** (d.scale - s)), s, p)


def aligned(a, b):
    """The units of both at the greater scale, at which each has room."""
    s = max(a.scale, b.scale)
    return within(a.units * 10 ** (s - a.scale), s).units, within(b.units * 10 ** (s - b.scale), s).units, s


def remainder(a, b):
    if b == 0:
        raise Broken("DivideByZero")
    r = abs(a) % abs(b)
    return -r if a < 0 else r


def decimal_operation(name, a, b):
    if name == "DMUL":
        return within(a.units * b.units, a.scale + b.scale)
    if name in ("DDIV", "DMOD") and b.units == 0:
        raise Broken("DivideByZero")
    if name == "DDIV":
        s = max(6, a.scale, b.scale)
        return within(halves_away(a.units * 10 ** (s + b.scale - a.scale), b.units), s)
    x, y, s = aligned(a, b)
    if name == "DMOD":
        return within(remainder(x, y), s)
    return within(x + y if name == "DADD" else x - y, s)


def exact(v):
    """A number as one that Python orders: (units of scale 38)."""
    return v.units * 10 ** (38 - v.scale) if isinstance(v, Dec) else v * 10**38


def compare(a, b):
    if isinstance(a, str):
        width = max(len(a), len(b))
        x, y = a.ljust(width), b.ljust(width)
    else:
        x, y = exact(a), exact(b)
    return (x > y) - (x < y)


TESTS = {
    "=": lambda c: c == 0, "^=": lambda c: c != 0, "<": lambda c: c < 0,
    "<=": lambda c: c <= 0, ">": lambda c: c > 0, ">=": lambda c: c >= 0,
}


def truth(v):
    return None if v is None else exact(v) != 0


def of_truth(t):
    return None if t is None else int(t)


def both(a, b):
    if a is False or b is False:
        return False
    return None if a is None or b is None else True


def either(a, b):
    if a is True or b is True:
        return True
    return None if a is None or b is None else False


def length(t):
    return len(t.rstrip(" "))


def part(t, i, k):
    if i < 1 or i > len(t) + 1 or (k is not None and k < 0):
        raise Broken("Range")
    return t[i - 1:] if k is None else t[i - 1:i - 1 + k]


def assigned(v, ty):
    """A value in the type of a slot; null where that faults."""
    if v is None:
        return None
    kind, sizes = ty
    if kind == "decimal":
        try:
            return rescaled(v if isinstance(v, Dec) else Dec(v, 0), *sizes)
        except Broken:
            return None
    if kind == "char":
        return v[:sizes[0]].ljust(sizes[0])
    if kind == "varchar":
        return v[:sizes[0]]
    return v


def type_of(word):
    kind, _, sizes = word.rstrip(")").partition("(")
    return kind, [int(n) for n in re.split(r"[.,]", sizes)] if sizes else []


def put_text(v):
    if isinstance(v, Dec):
        return decimal_text(v)
    return v.rstrip(" ")[:1024] if isinstance(v, str) else shown(v)


# ---- operations: how many operands, and what they give


def strict(f):
    return lambda *operands: None if any(v is None for v in operands) else f(*operands)


def picked(f):
    def one(*operands):
        there = [v for v in operands if v is not None]
        best = there[0] if there else None
        for v in there[1:]:
            if f(compare(v, best)):
                best = v
        return best

    return one


OPERATIONS = {
    "ITOD": (1, strict(lambda a: Dec(a, 0))),
    "IADD": (2, strict(lambda a, b: whole(a + b))),
    "ISUB": (2, strict(lambda a, b: whole(a - b))),
    "IMUL": (2, strict(lambda a, b: whole(a * b))),
    "INEG": (1, strict(lambda a: whole(-a))),
    "IABS": (1, strict(lambda a: whole(abs(a)))),
    "IMOD": (2, strict(remainder)),
    "DNEG": (1, strict(lambda a: Dec(-a.units, a.scale))),
    "DABS": (1, strict(lambda a: Dec(abs(a.units), a.scale))),
    "DFLOOR": (1, strict(lambda a: Dec(a.units // 10**a.scale, 0))),
    "DCEIL": (1, strict(lambda a: Dec(-(-a.units // 10**a.scale), 0))),
    "AND": (2, lambda a, b: of_truth(both(truth(a), truth(b)))),
    "OR": (2, lambda a, b: of_truth(either(truth(a), truth(b)))),
    "NOT": (1, lambda a: None if a is None else int(not truth(a))),
    "ITRUTH": (1, lambda a: of_truth(truth(a))),
    "DTRUTH": (1, lambda a: of_truth(truth(a))),
    "ISNULL": (1, lambda a: int(a is None)),
    "CAT": (2, strict(lambda a, b: (a + b)[:1024])),
    "LEN": (1, strict(length)),
    "SUBSTR": (3, strict(part)),
    "SUBFROM": (2, strict(lambda t, i: part(t, i, None))),
    "TRIM": (1, strict(lambda t: t.rstrip(" "))),
    "SHOW": (1, put_text),
}
for decimal_name in ("DADD", "DSUB", "DMUL", "DDIV", "DMOD"):
    OPERATIONS[decimal_name] = (2, strict(lambda a, b, name=decimal_name: decimal_operation(name, a, b)))


def operation(words):
    name, fields = words[0], words[1:]
    if name in OPERATIONS:
        return OPERATIONS[name]
    if name == "NULL":
        return 0, lambda: None
    if name == "RESCALE":
        return 1, strict(lambda a: rescaled(a, int(fields[0]), int(fields[1])))
    if name in ("PAD", "CUT"):
        n = int(fields[0])
        return 1, strict(lambda t: t[:n].ljust(n) if name == "PAD" else t[:n])
    if name in ("ICMP", "DCMP", "TCMP"):
        return 2, strict(lambda a, b: int(TESTS[fields[0]](compare(a, b))))
    if name == "CHOOSE":
        return int(fields[0]), lambda *vs: next((v for v in vs if v is not None), None)
    if name == "LEAST":
        return int(fields[0]), picked(lambda c: c < 0)
    if name == "GREATEST":
        return int(fields[0]), picked(lambda c: c > 0)
    return None


# ---- code


def numbers(word):
    return [] if word == "-" else [int(n) for n in word.split(",")]


class Program:
    def __init__(self):
        self.slots, self.constants, self.hashes, self.iterators = [], [], [], []
        self.methods, self.outputs, self.instrs = [], [], []
        self.entries = {"init": 0, "run": 0, "term": 0}

    def add(self, line):
        words = line.split(" ")
        kind = words[0]
        if kind == "repeat":
            for _ in range(int(words[1])):
                self.add(" ".join(words[2:]))
        elif kind == "slot":
            self.slots.append((type_of(words[2]), words[3]))
        elif kind == "constant":
            self.constants.append(value_of(line.split(" ", 2)[2]))
        elif kind == "hash":
            loaded = (numbers(words[5]), numbers(words[6])) if len(words) > 3 else None
            self.hashes.append((numbers(words[1]), numbers(words[2]), loaded))
        elif kind == "iterator":
            self.iterators.append(int(words[1]))
        elif kind == "method":
            takes = [] if words[2] == "-" else words[2].split(",")
            locals_ = 0 if words[3] == "-" else len(words[3].split(","))
            self.methods.append((int(words[1]), [t.startswith("in_out:") for t in takes], locals_))
        elif kind == "output":
            self.outputs.append([int(c.split(":")[1]) for c in words[2].split(",")])
        elif kind == "units":
            self.entries = dict(zip(("init", "run", "term"), map(int, words[1:])))
        elif kind not in ("parameter", "nothing", "once", "set", "merge", "merge_retain", "stage", "table", "by"):
            self.instrs.append(words)


def programs_of(lines):
    programs = [Program()]
    for line in lines:
        if line.startswith("thread "):
            programs.append(Program())
        elif line and not line.startswith(("#", ">")):
            programs[-1].add(line)
    return programs


def key_of(row):
    return tuple(v.rstrip(" ") if isinstance(v, str) else None if v is None else exact(v) for v in row)


class Machine:
    def __init__(self, program, parameters, tables):
        self.program = program
        self.slots = [None] * len(program.slots)
        self.parameters = [None] * parameters
        self.positions = [None] * len(program.iterators)
        self.hashes, tables = [], list(tables)
        for keys, data, loaded in program.hashes:
            items = []
            if loaded:
                for row in tables.pop(0):
                    values = [[assigned(row[c], program.slots[n][0]) for n, c in zip(ns, cs)] for ns, cs in ((keys, loaded[0]), (data, loaded[1]))]
                    if all(key_of(k) != key_of(values[0]) for k, _ in items):
                        items.append((values[0], values[1]))
            self.hashes.append(items)
        self.spent = False

    def unit(self, name, budget, load):
        if name == "run":
            for n, (_, role) in enumerate(self.program.slots):
                if role == "cleared":
                    self.slots[n] = None
            for n, v in load:
                self.slots[n] = v
        self.at, self.left, self.place = self.program.entries[name], budget, (0, 0)
        self.stack, self.locals, self.frames = [], [], []
        self.rows, self.lines = [], []
        executed, ending = 0, None
        try:
            while ending is None:
                executed += 1
                ending = self.step(self.program.instrs[self.at])
        except Broken as fault:
            ending = f"{fault} at {self.place[0]}:{self.place[1]}"
            self.spent = True
        said = [f"{ending}, {self.left} left, {executed} executed"]
        said += [f"row {o} " + "".join("|" + shown(v) for v in row) for o, row in self.rows]
        return said + [f"line {line}" for line in self.lines]

    def spend(self):
        if self.left == 0:
            raise Broken("BudgetSpent")
        self.left -= 1

    def taken(self, n):
        values = self.stack[len(self.stack) - n:]
        del self.stack[len(self.stack) - n:]
        return values

    def step(self, words):
        name, fields = words[0], words[1:]
        found = operation(words)
        if found:
            values = self.taken(found[0])
            self.stack.append(found[1](*values))
            self.at += 1
            return None
        return getattr(self, "do_" + name)(*fields)

    def do_CONST(self, k):
        self.stack.append(self.program.constants[int(k)])
        self.at += 1

    def do_GLOAD(self, n):
        self.stack.append(self.slots[int(n)])
        self.at += 1

    def do_GSTORE(self, n):
        self.slots[int(n)] = self.stack.pop()
        self.at += 1

    def do_LLOAD(self, n):
        self.stack.append(self.locals[int(n)])
        self.at += 1

    def do_LSTORE(self, n):
        self.locals[int(n)] = self.stack.pop()
        self.at += 1

    def do_SETPARM(self, n):
        self.parameters[int(n)] = self.stack.pop()
        self.at += 1

    def do_DROP(self):
        self.stack.pop()
        self.at += 1

    def do_TICK(self, line="1", column="1"):
        self.place = (int(line), int(column))
        self.spend()
        self.at += 1

    def do_JUMP(self, to):
        self.at = int(to)

    def do_JFALSE(self, to):
        self.at = self.at + 1 if truth(self.stack.pop()) is True else int(to)

    def do_JTRUE(self, to):
        self.at = int(to) if truth(self.stack.pop()) is True else self.at + 1

    def do_CALL(self, m):
        entry, in_outs, more = self.program.methods[int(m)]
        arguments = self.taken(len(in_outs))
        self.spend()
        if len(self.frames) == 100:
            raise Broken("DepthReached")
        self.frames.append((self.stack, self.locals, self.at + 1, self.place, in_outs))
        self.stack, self.locals, self.at = [], arguments + [None] * more, entry

    def back(self, result):
        stack, locals_, at, place, in_outs = self.frames.pop()
        outs = [v for v, is_out in zip(self.locals, in_outs) if is_out]
        self.stack, self.locals, self.at, self.place = stack + result + outs, locals_, at, place

    def do_RET(self):
        self.back([])

    def do_RETV(self):
        self.back([self.stack.pop()])

    def do_NOWHEN(self):
        raise Broken("NoWhen")

    def do_END(self):
        return "normal"

    def do_OUTPUT(self, o):
        self.rows.append((int(o), [self.slots[n] for n in self.program.outputs[int(o)]]))
        self.at += 1

    def do_PUT(self, n):
        self.lines.append(" ".join("null" if v is None else v for v in self.taken(int(n))))
        self.at += 1

    def found(self, h, row):
        for n, v in zip(self.program.hashes[h][1], row):
            self.slots[n] = v

    def do_HCALL(self, h, f):
        h = int(h)
        keys, data, _ = self.program.hashes[h]
        items = self.hashes[h]
        key, row = [self.slots[n] for n in keys], [self.slots[n] for n in data]
        at = next((i for i, (k, _) in enumerate(items) if key_of(k) == key_of(key)), None)
        walkers = [i for i, walked in enumerate(self.program.iterators) if walked == h]
        code = int(at is None)
        if f == "find" and at is not None:
            self.found(h, items[at][1])
        elif f == "add":
            code = int(at is not None)
            if at is None:
                items.append((key, row))
        elif f == "replace":
            code = 0
            if at is None:
                items.append((key, row))
            else:
                items[at] = (items[at][0], row)
        elif f == "remove" and at is not None:
            del items[at]
            for i in walkers:
                p = self.positions[i]
                if p is not None and p >= at:
                    self.positions[i] = p - 1 if p > 0 else None
        elif f == "clear":
            code = 0
            items.clear()
            for i in walkers:
                self.positions[i] = None
        elif f == "num_items":
            code = len(items)
        self.stack.append(code)
        self.at += 1

    def do_ICALL(self, i, f):
        i = int(i)
        h = self.program.iterators[i]
        n, p = len(self.hashes[h]), self.positions[i]
        to = {"first": 0, "last": n - 1, "next": 0 if p is None else p + 1, "prev": n - 1 if p is None else p - 1}[f]
        code = 0 if 0 <= to < n else 1
        if code == 0:
            self.positions[i] = to
            self.found(h, self.hashes[h][to][1])
        self.stack.append(code)
        self.at += 1


def answered(block):
    lines = block.split("\n")
    program, parameters, tables = 0, 0, []
    for line in lines:
        if line.startswith("> open "):
            words = line.split(" ")[2:]
            program, parameters = int(words[0]), int(words[1]) if len(words) > 1 else 0
        elif line == "> table":
            tables.append([])
        elif line.startswith("> row "):
            tables[-1].append([value_of(w) for w in line[len("> row "):].split("|")])
    machine = Machine(programs_of(lines)[program], parameters, tables)
    said = []
    for line in lines:
        said.append(line)
        words = line.split(" ")
        if line == "> parameters":
            said.append("    " + "".join("|" + shown(v) for v in machine.parameters))
        elif words[0] == ">" and words[1] in ("init", "run", "term"):
            if machine.spent:
                said.append("    spent")
                continue
            load = [(int(words[3]), int(words[4]))] if len(words) > 3 else []
            said += ["    " + it for it in machine.unit(words[1], int(words[2]), load)]
    return said


def is_run(block):
    """Whether a block asks for something of the machine; the others are headings and codes of which the answer tells whether they are valid."""
    return "\n> " in block


def main():
    blocks = [block.rstrip() for block in layer_cases.read("stdin", "codes").split("\n\n")]
    told = layer_cases.read("stdout", "codes").rstrip("\n").split("\n\n")
    if len(told) != len(blocks):
        sys.exit(f"{len(blocks)} blocks have {len(told)} answers")
    run = [(answer, "\n".join(answered(block))) for block, answer in zip(blocks, told) if is_run(block)]
    if "--print" in sys.argv:
        print("\n\n".join(answer for _, answer in run))
        return
    wrong = [answer for answer, other in run if answer != other]
    if wrong:
        sys.exit(f"{len(wrong)} answers differ, the first of them {wrong[0].splitlines()[0]}; machine_cases.py --print prints those of the table")
    print(f"{len(run)} codes that are run agree")


if __name__ == "__main__":
    main()
