#!/usr/bin/env python3
"""Works out anew, from the rules of locality as they are written below, the verdicts on the thread programs of the sources of ds2_cases, and
compares them with those of the lines `NOTE: Thread` in its stdout.

usage: bench/verdict_cases.py

The trees of the sources come from the parser of bench/parse_cases.py, their names from bench/name_cases.py. Sources that are long are left out.
A location is a variable, a hash object or an iterator of the thread program or of an instance of a package, or a flag.
"""
import re
import sys

import command_cases
import parse_cases
from name_cases import Unit, bare, first_token, is_token, is_word, kids, made_tables, spelled, uses_in


class Dirty(Exception):
    """A read of a location that an earlier group may have left."""


class Scope:
    """A thread program, or the package of one of its instances."""

    def __init__(self, unit, instance=None):
        self.unit, self.instance = unit, instance

    def at(self, sort, name):
        return sort, self.instance or "", name

    def variable(self, method, token):
        return None if method.hides(spelled(token)) else self.at("variable", spelled(token))

    def object(self, method, token):
        """What a name before a point means: its declaration."""
        return self.unit.visible(method, token)

    def inner(self, declared):
        """The scope of an instance of a package."""
        return Scope(self.unit.package_of(declared), spelled(declared.name))

    def hash_of(self, declared):
        """The hash object of a hash object, or of an iterator over it."""
        return self.unit.instance(declared.text_name()) if declared.sort == "hiter" else declared

    def iterators_of(self, declared):
        return [i for i in self.unit.instances if i.sort == "hiter" and i.text_name() == spelled(declared.name)]

    def place_of(self, declared):
        return self.at(declared.sort, spelled(declared.name))

    def variables_of(self, tokens):
        return [self.at("variable", spelled(t)) for t in tokens]


def called(scope, method, callee):
    """The method that a call means, with its scope; None where it is a function or a call of an object."""
    if is_token(callee):
        own = scope.unit.method(spelled(callee)) if callee.is_name() else None
        return (scope, own) if own else None
    declared = scope.object(method, callee[1][0])
    if declared is None or declared.sort != "package":
        return None
    inner = scope.inner(declared)
    own = inner.unit.method(spelled(callee[1][2]))
    return (inner, own) if own else None


def key(scope, method):
    return scope.instance, spelled(method.name)


def calls_of(scope, method):
    return [found for use in uses_in(scope.unit, method) if use[0] == "call" and (found := called(scope, method, use[1]))]


def may_call(scope, method):
    """The methods that a method may call, directly or through others."""
    found, left = {}, calls_of(scope, method)
    while left:
        inner, own = left.pop()
        if key(inner, own) not in found:
            found[key(inner, own)] = (inner, own)
            left += calls_of(inner, own)
    return found


def object_calls(scope, method):
    """The calls of hash objects and iterators in a method: the declaration and the word."""
    for use in uses_in(scope.unit, method):
        if use[0] == "call" and not is_token(use[1]):
            token, word = use[1][1][0], use[1][1][2]
        elif use[0] == "member" and not is_word(use[1], "first", "last"):
            token, word = use[1], use[2]
        else:
            continue
        declared = scope.object(method, token)
        if declared and declared.sort in ("hash", "hiter"):
            yield declared, spelled(word)


def changed(scope, method):
    """The locations that a method itself can change."""
    for use in uses_in(scope.unit, method):
        if use[0] in ("target", "handed") and not method.hides(spelled(use[1])):
            yield scope.at("variable", spelled(use[1]))
    for declared, word in object_calls(scope, method):
        if declared.sort == "hiter" or word == "find":
            yield from scope.variables_of(scope.hash_of(declared).items)
        if declared.sort == "hiter":
            yield scope.place_of(declared)
        elif word in ("add", "replace", "remove", "clear"):
            yield scope.place_of(declared)
            yield from (scope.place_of(i) for i in scope.iterators_of(declared))


def mentioned(scope, method):
    """The locations that a method itself mentions."""
    for use in uses_in(scope.unit, method):
        if use[0] in ("target", "handed", "value") and not method.hides(spelled(use[1])):
            yield scope.at("variable", spelled(use[1]))
        if use[0] == "member" and is_word(use[1], "first", "last"):
            yield "flag", "", spelled(use[1]) + "." + spelled(use[2])
    for declared, _ in object_calls(scope, method):
        whole = scope.hash_of(declared)
        yield from (scope.place_of(d) for d in (declared, whole))
        yield from scope.variables_of(whole.keys + whole.items)


def rank(thread):
    """The order in which a method that may call itself reads: variables by their slots, hash objects, iterators."""
    packages = [i for i in thread.instances if i.sort == "package"]
    flags = [w + "." + name for name, _ in thread.bys for w in ("first", "last")]
    own = [("variable", "", name) for name, _ in thread.vector + thread.places + thread.flags] + [("flag", "", f) for f in flags]
    for i in packages:
        own += [("variable", spelled(i.name), name) for name, _ in thread.package_of(i).vector]
    for sort in ("hash", "hiter"):
        for i in thread.instances:
            if i.sort == sort:
                own.append((sort, "", spelled(i.name)))
            if i.sort == "package":
                own += [(sort, spelled(i.name), spelled(j.name)) for j in thread.package_of(i).instances if j.sort == sort]
    return {location: n for n, location in enumerate(own)}


def decided_and(a, b):
    return False if a is False or b is False else True if a and b else None


def decided_or(a, b):
    return True if a or b else False if a is False and b is False else None


class Walk:
    """A walk over `run`. `dirty` is what is dirty at this point, None where no way leads here."""

    def __init__(self, thread, dirty, known):
        self.thread, self.dirty, self.known = thread, frozenset(dirty), known
        self.place, self.depth = None, 0
        self.returns, self.leaves, self.continues = [], [], []
        self.order = rank(thread)

    def meet(self, *ways):
        there = [w for w in ways if w is not None]
        return frozenset().union(*there) if there else None

    def read(self, location):
        if self.dirty is not None and location in self.dirty:
            raise Dirty(location)

    def clean(self, *locations):
        if self.dirty is not None:
            self.dirty = self.dirty - set(locations)

    # -- expressions: the answer is what the condition is known to be, or None

    def value(self, scope, method, node):
        if is_token(node):
            if node.is_name() and not is_word(node, "null") and not method.hides(spelled(node)):
                self.read(scope.at("variable", spelled(node)))
            return None
        name, parts = node
        if name == "member":
            return self.member(scope, method, parts)
        if name == "call":
            self.call(scope, method, node)
            return None
        if name == "paren":
            return self.value(scope, method, parts[1])
        if name == "negation":
            inner = self.value(scope, method, parts[1])
            return None if inner is None else not inner
        if len(parts) == 1:
            return self.value(scope, method, parts[0])
        found = [self.value(scope, method, p) for p in parts if not is_token(p) and p[0] != "cmp"]
        if name in ("expr", "conj"):
            join, answer = (decided_or if name == "expr" else decided_and), found[0]
            for other in found[1:]:
                answer = join(answer, other)
            return answer
        return None

    def member(self, scope, method, parts):
        if is_word(parts[0], "first", "last"):
            flag = spelled(parts[0]) + "." + spelled(parts[2])
            self.read(("flag", "", flag))
            return True if flag in self.known else None
        self.read(scope.place_of(scope.object(method, parts[0])))
        return None

    def call(self, scope, method, node):
        callee, arguments = node[1][0], kids(node[1][1], "expr")
        found = called(scope, method, callee)
        in_out = found[1].in_out if found else []
        for n, argument in enumerate(arguments):
            self.value(scope, method, bare(argument) if n < len(in_out) and in_out[n] else argument)
        if found:
            self.enter(*found)
        elif not is_token(callee):
            self.object_call(scope, scope.object(method, callee[1][0]), spelled(callee[1][2]))

    def object_call(self, scope, declared, word):
        whole = scope.hash_of(declared)
        if declared.sort == "hiter":
            self.read(scope.place_of(declared))
            self.read(scope.place_of(whole))
        elif word == "clear":
            self.clean(scope.place_of(whole), *(scope.place_of(i) for i in scope.iterators_of(whole)))
        else:
            self.read(scope.place_of(whole))
            read = [] if word == "num_items" else whole.keys + (whole.items if word in ("add", "replace") else [])
            for location in scope.variables_of(read):
                self.read(location)

    def enter(self, scope, method):
        reached = may_call(scope, method)
        if key(scope, method) in reached:
            there = {m for s, own in reached.values() for m in mentioned(s, own)}
            for location in sorted((m for m in there if m in self.order), key=self.order.get):
                self.read(location)
            return
        saved, self.returns, self.leaves, self.continues = (self.returns, self.leaves, self.continues), [], [], []
        self.depth += 1
        self.statements(scope, method, method.body)
        self.depth -= 1
        self.dirty = self.meet(self.dirty, *self.returns)
        self.returns, self.leaves, self.continues = saved

    # -- statements

    def statements(self, scope, method, nodes):
        for node in nodes:
            if self.dirty is not None:
                self.statement(scope, method, node)

    def statement(self, scope, method, node):
        outer = self.place
        if self.depth == 0:
            self.place = first_token(node).place
        while node[0] in ("stmt", "closed", "simple"):
            node = node[1][0]
        step = getattr(self, "of_" + {"closedif": "if"}.get(node[0], node[0]))
        step(scope, method, node)
        self.place = outer

    def of_empty(self, scope, method, node):
        pass

    def of_assign(self, scope, method, node):
        self.value(scope, method, node[1][2])
        self.set(scope, method, node[1][0])

    def set(self, scope, method, token):
        location = scope.variable(method, token)
        if location:
            self.clean(location)

    def of_call(self, scope, method, node):
        self.call(scope, method, node)

    def of_leave(self, scope, method, node):
        self.leaves.append(self.dirty)
        self.dirty = None

    def of_continue(self, scope, method, node):
        self.continues.append(self.dirty)
        self.dirty = None

    def of_return(self, scope, method, node):
        for e in kids(node, "expr"):
            self.value(scope, method, e)
        self.returns.append(self.dirty)
        self.dirty = None

    def of_output(self, scope, method, node):
        for column in self.thread.columns_left(None):
            self.read(("variable", "", column))

    def of_put(self, scope, method, node):
        for item in kids(node, "item"):
            first = item[1][0]
            if len(item[1]) == 3:
                self.member(scope, method, item[1])
            elif first.is_name():
                self.value(scope, method, first)

    def branch(self, scope, method, before, node):
        """The way out of a branch that begins from what is dirty before it."""
        self.dirty = before
        self.statements(scope, method, [node])
        return self.dirty

    def of_if(self, scope, method, node):
        decided = self.value(scope, method, kids(node, "expr")[0])
        parts = [p for p in node[1] if not is_token(p) and p[0] != "expr"]
        before = self.dirty
        taken = None if decided is False else self.branch(scope, method, before, parts[0])
        other = None if decided else self.branch(scope, method, before, parts[1]) if len(parts) > 1 else before
        self.dirty = self.meet(taken, other)

    def of_select(self, scope, method, node):
        selector = kids(node, "selector")
        for s in selector:
            self.value(scope, method, kids(s, "expr")[0])
        ways = []
        for when in kids(node, "when"):
            into = []
            for e in kids(when, "expr"):
                decided = self.value(scope, method, e) if self.dirty is not None else None
                decided = None if selector else decided
                if decided is not False:
                    into.append(self.dirty)
                if decided:
                    self.dirty = None
            on = self.dirty
            if self.meet(*into) is not None:
                ways.append(self.branch(scope, method, self.meet(*into), [p for p in when[1] if not is_token(p)][-1]))
            self.dirty = on
        for otherwise in kids(node, "otherwise"):
            ways.append(self.branch(scope, method, self.dirty, otherwise[1][-1]))
        self.dirty = self.meet(*ways)

    def of_do(self, scope, method, node):
        body, counted, tested = kids(node, "stmt", "closed"), kids(node, "counted"), kids(node, "tested")
        if not counted and not tested:
            self.statements(scope, method, body)
            return
        saved, self.leaves, self.continues = (self.leaves, self.continues), [], []
        if counted:
            for e in kids(counted[0], "expr"):
                self.value(scope, method, e)
            self.set(scope, method, counted[0][1][0])
            behind = self.dirty
            self.statements(scope, method, body)
        elif is_word(tested[0][1][0], "while"):
            behind = self.dirty
            self.value(scope, method, kids(tested[0], "expr")[0])
            self.statements(scope, method, body)
        else:
            self.statements(scope, method, body)
            self.dirty = self.meet(self.dirty, *self.continues)
            if self.dirty is not None:
                self.value(scope, method, kids(tested[0], "expr")[0])
            behind = self.meet(self.dirty, *self.leaves)
        self.dirty = behind
        self.leaves, self.continues = saved

    def run(self):
        """Walks over `run`; the answer is what is dirty on some way on which it ends, None where there is none."""
        method = self.thread.method("run")
        if method is None:
            return self.dirty
        self.statements(Scope(self.thread), method, method.body)
        self.dirty = self.meet(self.dirty, *self.returns)
        if self.dirty is not None and not any(has(s, "output") for m in self.thread.methods for s in m.body):
            self.place = method.name.place
            self.of_output(None, method, None)
        return self.dirty


def has(node, *names):
    """Whether a statement has a statement of these rules in it."""
    return not is_token(node) and (node[0] in names or any(has(p, *names) for p in node[1]))


def cells_of(thread):
    run = thread.method("run")
    if run is None:
        return set()
    scope = Scope(thread)
    methods = [(scope, run)] + list(may_call(scope, run).values())
    columns = {column for i in thread.inputs for column in thread.columns(i[1][0])}
    kept = {n for n in thread.listed_in("retain") if n not in columns} | {name for name, _ in thread.places}
    found = {location for s, m in methods for location in changed(s, m)}
    return {l for l in found if l[0] != "variable" or l[1] or l[2] in kept}


def begins_with_writing(thread):
    """Whether `init`, a constructor or a method that they may call puts a line or writes a row."""
    scope, begun = Scope(thread), []
    if thread.method("init"):
        begun.append((scope, thread.method("init")))
    for declared in thread.instances:
        if declared.sort == "package":
            inner = scope.inner(declared)
            constructor = inner.unit.method(spelled(inner.unit.name))
            begun += [(inner, constructor)] if constructor else []
    begun += [pair for s, m in begun for pair in may_call(s, m).values()]
    return any(has(statement, "put", "output") for _, m in begun for statement in m.body)


def failing(thread, grain):
    """The first read that fails at a grain: the name and the place; None where none does."""
    cells = cells_of(thread)
    early = {("flag", "", w + "." + name) for name, _ in thread.bys[: max(grain, 1) - 1] for w in ("first", "last")}
    late = {"first." + name for name, _ in thread.bys[max(grain, 1) - 1 :]}
    walk = Walk(thread, cells | early, late)
    try:
        left = walk.run()
        clean = cells if left is None else cells - left
        walk = Walk(thread, (cells - clean) | early, set())
        walk.run()
    except Dirty as e:
        _, instance, name = e.args[0]
        return "{} read at {}:{}".format(instance or name, *walk.place)
    return None


def verdict(thread):
    term = thread.method("term")
    if term and term.body:
        return "not local: term has statements"
    if begins_with_writing(thread):
        return "not local: init writes"
    bys = len(thread.bys)
    for grain in range(bys, 0, -1) if bys else [0]:
        if failing(thread, grain) is None:
            return "local" if grain < 2 else f"local by {grain}"
    return "not local: " + failing(thread, 1 if bys else 0)


def verdicts(text, tables):
    """The verdicts on the thread programs of a source, by their names."""
    lexed = parse_cases.tokens(text.removeprefix("\ufeff"))
    read, _ = parse_cases.earley(lexed[0], True)
    before, found = [], {}
    for node in kids(read, "package", "thread", "data"):
        unit = Unit(node, tables, before)
        before = before + [unit]
        tables = list(made_tables(unit)) + tables
        if unit.kind == "thread":
            found[spelled(unit.name)] = verdict(unit)
    return found


def main():
    count, differ = 0, 0
    for case in command_cases.read_cases():
        lines = [m for l in case.log if (m := re.match(r"\| NOTE: Thread (.*?), ((?:not )?local.*?)(?:, \d+ groups)?\.$", l))]
        text = case.source()
        if text is None or not lines:
            continue
        names = [name.removesuffix(".csv") for name in case.files if name.endswith(".csv")]
        due = verdicts(text, [(name, case.columns(name)) for name in names])
        for name, stands in (m.groups() for m in lines):
            count += 1
            if due.get(name) != stands:
                differ += 1
                print(f"{case.title}: '{stands}' stands there, and '{due.get(name)}' is due")
    print(f"{count} verdicts, {differ} differ")
    sys.exit(1 if differ else 0)


if __name__ == "__main__":
    main()
