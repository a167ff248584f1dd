#!/usr/bin/env python3
"""Works out anew, from the rules of types as they are written below, how the expressions of ds2_cases are refused, and compares that with its
stdout.

usage: bench/type_cases.py

The trees of the expressions come from the parser of bench/parse_cases.py. Of each expression it keeps what is known of its type and every
rule that is broken in it; the refusal is that of the least place, and at one place that of the first kind.
"""
import re
import sys

import command_cases
import parse_cases

KINDS = ["TypeClash", "ScaleTooLarge", "NotTruth"]
FRONT, BACK = "data o; method run(); x =\n", "\n; end; enddata;"
UNJOINED = (9, 9)
BIGINT = ("bigint",)


def is_number(ty):
    return ty[0] in ("bigint", "decimal")


def is_text(ty):
    return not is_number(ty)


def is_bigint(ty):
    return ty == BIGINT


def scale(ty):
    return ty[2] if ty[0] == "decimal" else 0


def read_type(word):
    return tuple(int(p) if p.isdigit() else p for p in re.findall(r"\w+", word))


def said_of_type(ty):
    return ty[0] + (f"({','.join(map(str, ty[1:]))})" if ty[1:] else "")


class Judged:
    """An expression: the place of its first token, its type, whether it is the constant null, and what is broken in it."""

    def __init__(self, place, ty, broken=(), null=None, variable=False):
        self.place, self.ty, self.broken, self.null, self.variable = place, ty, list(broken), null, variable


def broken_at(place, kind="TypeClash"):
    return [(place, KINDS.index(kind))]


def form(place, ty, broken):
    """A form whose type depends on its operands: none where something is broken in them."""
    return Judged(place, None if broken else ty, broken)


def operand(x, test, place):
    """What is broken by an operand whose type has to pass a test: TypeClash at the operator, at the word where it is null."""
    if x.null:
        return broken_at(x.null)
    return [] if x.ty is None or test(x.ty) else broken_at(place)


def truth(x):
    """What a condition or an operand of `and`, `or` and `not` breaks."""
    if x.null:
        return broken_at(x.null)
    return broken_at(x.place, "NotTruth") if x.ty and is_text(x.ty) else []


def is_assigned(to, ty):
    if is_bigint(to):
        return is_bigint(ty)
    return is_number(to) == is_number(ty)


class Setting:
    """What names stand for."""

    def __init__(self):
        self.globals, self.locals, self.flags, self.bys, self.unjoined, self.methods = {}, {}, set(), set(), set(), {}

    def take(self, words):
        sort, name, *rest = words.split(" ")
        if sort in ("variable", "local"):
            (self.globals if sort == "variable" else self.locals).setdefault(name, read_type(rest[0]))
        elif sort in ("flag", "by", "unjoined"):
            {"flag": self.flags, "by": self.bys, "unjoined": self.unjoined}[sort].add(name)
        elif sort == "method":
            returns = read_type(rest[-1]) if "returns" in rest else None
            kinds = rest[: rest.index("returns")] if returns else rest
            self.methods[name] = ([(k.startswith("in_out:"), read_type(k.removeprefix("in_out:"))) for k in kinds], returns)

    def variable(self, token):
        name = spelled(token)
        if name in self.locals:
            return Judged(token.place, self.locals[name], variable=True)
        if name in self.globals and name in self.unjoined:
            return Judged(token.place, None, broken_at(UNJOINED), variable=True)
        if name in self.globals:
            return Judged(token.place, self.globals[name], variable=True)
        assert name in self.flags, name
        return Judged(token.place, BIGINT)


def spelled(token):
    return (token.spelling[1:-1] if token.kind == "quoted" else token.spelling).lower()


def constant(token):
    if token.kind == "integer":
        return Judged(token.place, BIGINT)
    if token.kind == "text":
        return Judged(token.place, ("varchar", max(1, len(token.spelling[1:-1].replace("''", "'")))))
    whole, _, behind = token.spelling[:-1].partition(".")
    digits = len((whole + behind).lstrip("0"))
    return Judged(token.place, ("decimal", max(1, digits, len(behind)), len(behind)))


def judge(setting, node):
    if isinstance(node, parse_cases.Token):
        if node.is_name():
            return setting.variable(node)
        return Judged(node.place, None, null=node.place) if spelled(node) == "null" else constant(node)
    name, parts = node
    if name == "paren":
        x = judge(setting, parts[1])
        return Judged(parts[0].place, x.ty, x.broken, x.null, x.variable)
    if name == "member":
        assert spelled(parts[0]) in ("first", "last") and spelled(parts[2]) in setting.bys
        return Judged(parts[0].place, BIGINT)
    if name == "call":
        return call(setting, parts[0], [judge(setting, p) for p in parts[1][1] if not isinstance(p, parse_cases.Token)])
    if len(parts) == 1:
        return judge(setting, parts[0])
    if name == "negation":
        x = judge(setting, parts[1])
        return Judged(parts[0].place, BIGINT, x.broken + truth(x))
    if name == "sign":
        x = judge(setting, parts[1])
        return form(parts[0].place, x.ty, x.broken + operand(x, is_number, parts[0].place))
    operands, operators = [judge(setting, p) for p in parts[::2]], [operator(p) for p in parts[1::2]]
    if name in ("expr", "conj"):
        return Judged(operands[0].place, BIGINT, [b for x in operands for b in x.broken + truth(x)])
    if name == "comp":
        return comparison(operators[0], *operands)
    return chain(name, operands, operators)


def operator(part):
    return part if isinstance(part, parse_cases.Token) else part[1][0]


def comparison(op, a, b):
    broken = a.broken + b.broken
    if a.ty and b.ty and is_number(a.ty) != is_number(b.ty):
        broken = broken + broken_at(op.place)
    return Judged(a.place, BIGINT, broken)


def chain(name, operands, operators):
    test = is_text if name == "cat" else is_number
    left = operands[0]
    for op, right in zip(operators, operands[1:]):
        broken = left.broken + right.broken + operand(left, test, op.place) + operand(right, test, op.place)
        both = left.ty and right.ty and test(left.ty) and test(right.ty)
        ty = link_type(op.spelling, left.ty, right.ty) if both else None
        if ty and scale(ty) > 38:
            broken += broken_at(op.place, "ScaleTooLarge")
        left = form(left.place, ty, broken)
    return left


def link_type(op, a, b):
    if op == "||":
        return ("varchar", min(1024, a[1] + b[1]))
    if op == "/":
        return ("decimal", 38, max(6, scale(a), scale(b)))
    if is_bigint(a) and is_bigint(b):
        return BIGINT
    return ("decimal", 38, scale(a) + scale(b) if op == "*" else max(scale(a), scale(b)))


def call(setting, callee, xs):
    name, place = spelled(callee), callee.place
    if callee.is_name() and name in setting.methods:
        return method_call(setting.methods[name], place, xs)
    return function_call(name, place, xs)


def method_call(method, place, xs):
    parameters, returns = method
    assert len(parameters) == len(xs)
    broken = []
    for (is_in_out, ty), x in zip(parameters, xs):
        broken += x.broken
        if is_in_out:
            broken += broken_at(x.place) if not x.variable and not x.broken or x.ty and x.ty != ty else []
        elif x.ty and not is_assigned(ty, x.ty):
            broken += broken_at(x.place)
    return Judged(place, returns, broken) if returns else form(place, None, broken + broken_at(place))


def function_call(name, place, xs):
    inner = [b for x in xs for b in x.broken]
    tests = {"length": [is_text], "trim": [is_text], "substr": [is_text, is_bigint, is_bigint]}.get(name, [is_number] * len(xs))
    if name == "null":
        return Judged(place, BIGINT, inner + [b for x in xs if x.null for b in broken_at(x.null)])
    if name == "coalesce":
        types = [x.ty for x in xs if x.ty]
        if all(x.null for x in xs) or len({is_number(t) for t in types}) > 1:
            inner = inner + broken_at(place)
        return form(place, common(types), inner)
    broken = inner + [b for x, test in zip(xs, tests) for b in operand(x, test, place)]
    if name == "length":
        return Judged(place, BIGINT, broken)
    if broken:
        return form(place, None, broken)
    types = [x.ty for x in xs]
    if name in ("trim", "substr"):
        return form(place, ("varchar", types[0][1]), [])
    if name in ("floor", "ceil"):
        return form(place, BIGINT if is_bigint(types[0]) else ("decimal", 38, 0), [])
    return form(place, types[0] if name == "abs" else common(types), [])


def common(types):
    """The one type that several values are brought to."""
    if all(map(is_bigint, types)):
        return BIGINT
    if all(map(is_number, types)):
        return ("decimal", 38, max(map(scale, types)))
    return ("varchar", max(t[1] for t in types if is_text(t)))


# ---- the cases


def value(node):
    """The value of the first assignment in a tree."""
    if isinstance(node, parse_cases.Token):
        return None
    if node[0] == "assign":
        return node[1][2]
    return next((found for part in node[1] if (found := value(part))), None)


def answer(setting, text):
    lexed = parse_cases.tokens(FRONT + text + BACK)
    read = lexed and parse_cases.earley(lexed[0], True)[0]
    if not read:
        return "no expression"
    x = judge(setting, value(read))
    typing = "the constant null" if x.null else said_of_type(x.ty) if x.ty else "no type"
    if not x.broken:
        return typing
    place, kind = min(x.broken)
    return "{} at {}:{}, {}".format(KINDS[kind], *place, typing)


def setting_of(front):
    """What stands for the names of an expression behind this text, and the type of the variable that it is assigned to."""
    setting = Setting()
    declared, body, own = re.match(r"data o; dcl (?:\S+) result; (.*)(method (?:run|init)\(\); )(.*)result =$", front).groups()
    for sort, words in (("variable", declared), ("local", own)):
        for ty, name in re.findall(r"(?:^|; )dcl (\S+) (\w+)(?=;)", words):
            setting.take(f"{sort} {name} {ty}")
    for name, parameters, returns in re.findall(r"method (\w+)\((.*?)\)(?: returns (\S+))?; (?:return null; )?end;", declared):
        kinds = re.findall(r"(in_out )?(\w+(?:\(.*?\))?) p\d", parameters)
        words = ["in_out:" + ty if in_out else ty for in_out, ty in kinds] + (["returns", returns] if returns else [])
        setting.take(" ".join(["method", name, *words]))
    return setting, re.match(r"data o; dcl (\S+) result;", front).group(1)


def due(source):
    """The refusal of the second line of a source, an expression, and of the column k where the tables of the third line do not fit."""
    global UNJOINED
    front, expression, behind = source.split("\n")[:3]
    setting, ty = setting_of(front)
    if " set " in behind:
        UNJOINED = (3, behind.index(" t;") + 2)
        setting.take("variable k bigint")
        setting.take("unjoined k")
    refusal, _, typing = answer(setting, expression).partition(", ")
    return refusal if typing in ("no type", ty) else f"{refusal} with {typing}"


def main():
    count, differ = 0, 0
    for case in command_cases.read_cases():
        if case.heading.startswith("Types of expressions."):
            count += 1
            wanted = due(case.source())
            if wanted != case.refusal():
                differ += 1
                print(f"{case.title}: {case.refusal()} stands there, and {wanted} is due")
    print(f"{count} expressions, {differ} differ")
    sys.exit(1 if differ else 0)


if __name__ == "__main__":
    main()
