#!/usr/bin/env python3
"""Works out anew, from the rules of names as they are written below, how the names of the sources of ds2_cases are refused, and compares that
with its stdout.

usage: bench/name_cases.py

The trees of the sources come from the parser of bench/parse_cases.py. Each rule is a function below that gives every place at which a
unit, a package, thread program or data program, breaks it. The refusal is that of the least place, and at one place that of the first kind; a 17th table of
the store comes before all of them. Sources that are no text, that are long, or that are refused otherwise are left out, and the limit of
tokens, to which none of these sources comes.
"""
import itertools
import re
import sys

import command_cases
import parse_cases

KINDS = """UnknownName DuplicateName UnknownMethod WrongCount NotVariable AliasedArgument TooManyNames BadNumber Misplaced
    NoColumns""".split()
TYPE_KINDS = ["TypeClash", "ScaleTooLarge", "NotTruth", "NoReturn"]
SYSTEM = ("init", "run", "term")
HASH_CALLS = ("find", "check", "add", "replace", "remove", "clear", "num_items")
ITERATOR_CALLS = ("first", "next", "prev", "last")
# How many arguments a function takes, at least and at most.
FUNCTIONS = {
    "abs": (1, 1), "ceil": (1, 1), "coalesce": (1, 16), "floor": (1, 1), "length": (1, 1),
    "max": (2, 16), "min": (2, 16), "mod": (2, 2), "null": (1, 1), "substr": (2, 3), "trim": (1, 1),
}


# ---- trees


def is_token(part):
    return isinstance(part, parse_cases.Token)


def kids(node, *names):
    """The parts of a tree that are trees of these rules."""
    return [p for p in node[1] if not is_token(p) and p[0] in names]


def tokens_of(node):
    return [p for p in node[1] if is_token(p)]


def names_in(parts):
    return [p for p in parts if is_token(p) and p.is_name()]


def spelled(token):
    """The name that a token gives."""
    text = token.spelling[1:-1] if token.kind == "quoted" else token.spelling
    return re.sub("[A-Z]", lambda m: m.group().lower(), text)


def is_word(token, *words):
    return is_token(token) and token.kind == "word" and token.spelling.lower() in words


def first_token(node):
    return node if is_token(node) else first_token(node[1][0])


def bare(node):
    """What an expression is where each rule of it adds nothing: a token, a call, a parenthesis .."""
    while not is_token(node) and len(node[1]) == 1:
        node = node[1][0]
    return node


# ---- units


class Method:
    def __init__(self, node):
        self.keyword, self.name = node[1][0], node[1][1]
        self.parameters = kids(node, "param")
        self.returns = kids(node, "type")
        self.variables = kids(node, "variables")
        self.reading = (kids(node, "reading") or [None])[0]
        self.body = kids(node, "stmt")
        self.in_out = [is_token(p[1][0]) for p in self.parameters]
        own = [p[1][-1] for p in self.parameters] + [t for v in self.variables for t in names_in(v[1])]
        self.locals = [(spelled(t), t.place) for t in own]
        self.is_system = spelled(self.name) in SYSTEM

    def hides(self, name):
        return name in dict(self.locals)


class Option:
    def __init__(self, node):
        self.word = node[1][0]
        names = names_in(node[1][3:])
        self.listed = names if is_word(self.word, "keep", "drop") else []
        self.renamings = list(zip(names[::2], names[1::2])) if is_word(self.word, "rename") else []


class Output:
    def __init__(self, node):
        self.table = node[1][0]
        self.options = [Option(o) for o in kids(node, "option")]
        self.is_null = spelled(self.table) == "_null_"

    def renamings(self):
        """The new names of columns, each where it stands; a column renamed twice is refused elsewhere, and counts as at first."""
        new = {}
        for old, name in (r for o in self.options for r in o.renamings):
            new.setdefault(spelled(old), name)
        return new


class Instance:
    """A declaration of an instance: of a package or thread program, or a hash object or an iterator."""

    def __init__(self, node):
        self.keyword = first_token(node)
        named = names_in(node[1][2:])
        sort = node[1][2]
        is_package = is_word(node[1][1], "package")
        is_object = is_package and is_token(sort) and is_word(sort, "hash", "hiter")
        self.sort = spelled(sort) if is_object else node[1][1].spelling.lower()
        self.of, self.name = (None, named[1]) if is_object else (named[0], named[1])
        self.constants = kids(node, "const")
        lists = [names_in(v[1]) for v in kids(node, "vars")]
        self.keys, self.items = lists or ([], [])
        self.text = next((t for t in tokens_of(node) if t.kind == "text"), None)

    def text_name(self):
        return self.text.spelling[1:-1].lower() if self.text else None


class Unit:
    """A unit over tables, each a name and the names of its columns, behind other units."""

    def __init__(self, node, tables, before):
        self.kind, self.before = node[0], before
        self.name = node[1][1] if self.kind != "data" else None
        self.parameters = kids(node, "param") if self.kind == "thread" else []
        self.places = [(spelled(p[1][-1]), p[1][-1].place) for p in self.parameters]
        parts = [p[1] for p in kids(node, "global")]
        self.items = parts
        self.outputs = [Output(o) for o in kids(node, "outp")]
        declarations = [p[0] for p in parts if not is_token(p[0]) and p[0][0] == "declare"]
        self.instances = [Instance(d) for d in declarations if any(is_token(p) for p in d[1])]
        self.instance_names = [(spelled(i.name), i.name.place) for i in self.instances]
        self.variables = [v for d in declarations for v in kids(d, "variables")]
        self.lists = [p for p in parts if is_token(p[0])]
        self.methods = [Method(p[0]) for p in parts if not is_token(p[0]) and p[0][0] == "method"]
        for method in self.methods:
            method.is_system = method.is_system and self.kind != "package"
        runs = [m for m in self.methods if spelled(m.name) == "run" and m.is_system]
        self.reading = runs[0].reading if runs and may_read(self, runs[0]) else None
        self.tables = tables
        self.inputs = kids(self.reading, "input") if self.reading else []
        self.stage = self.reading[1][2] if self.reading and is_word(self.reading[1][1], "from") else None
        bys = kids(self.reading, "by") if self.reading else []
        self.bys = [(spelled(t), t.place) for by in bys for t in names_in(by[1])]
        self.flags = [(spelled(i[1][4]), i[1][4].place) for i in self.inputs if len(i[1]) > 1]
        self.vector = self.globals_of_vector()
        self.plain = self.vector + self.places + self.flags

    def known(self, kind, token):
        """The unit of this kind and name that stands before."""
        return next((u for u in self.before if u.kind == kind and spelled(u.name) == spelled(token)), None)

    def columns(self, table):
        """The columns of the first table of this name."""
        return self.columns_named(spelled(table))

    def columns_named(self, table):
        return next((columns for name, columns in self.tables if name == table), [])

    def instance(self, name):
        return next((i for i in self.instances if spelled(i.name) == name), None)

    def read_thread(self):
        """The thread program that is read from, where it is known."""
        instance = self.instance(spelled(self.stage)) if self.stage else None
        return self.known("thread", instance.of) if instance and instance.sort == "thread" else None

    def globals_of_vector(self):
        """Declared variables, and columns that are not declared at the place of their table, or of the instance that is read from."""
        found = [(spelled(t), t.place) for v in self.variables for t in names_in(v[1])]
        seen = {name for name, _ in found}
        read = [(column, i[1][0].place) for i in self.inputs for column in self.columns(i[1][0])]
        if self.stage and self.read_thread():
            read += [(column, self.stage.place) for column in self.read_thread().columns_left(None)]
        for column, place in read:
            if column not in seen:
                seen.add(column)
                found.append((column, place))
        return found

    def method(self, name):
        return next((m for m in self.methods if spelled(m.name) == name), None)

    def is_global(self, name):
        return name in dict(self.plain)

    def may_be_column(self, name):
        """Columns are not known behind `set from`, where no thread program is."""
        return self.stage is not None and self.read_thread() is None and not self.is_global(name)

    def may_be_global(self, name):
        return self.is_global(name) or name in dict(self.instance_names) or self.may_be_column(name)

    def is_settable(self, name):
        return name in dict(self.vector + self.places) or self.may_be_column(name)

    def visible(self, method, token):
        """The instance that a name before a point means in a method."""
        return None if method.hides(spelled(token)) else self.instance(spelled(token))

    def package_of(self, instance):
        return self.known("package", instance.of) if instance and instance.sort == "package" else None

    def method_of(self, instance, name):
        package = self.package_of(instance)
        return package.method(name) if package else None

    def listed_in(self, word):
        return {spelled(t) for part in self.lists if is_word(part[0], word) for t in names_in(part[1:])}

    def columns_left(self, output):
        """The variables that are columns of an output, or of the rows of a thread program, before they are renamed."""
        left = [name for name, _ in self.vector]
        for kept in (self.listed_in("keep"), option_names(output, "keep")):
            left = [n for n in left if not kept or n in kept]
        for dropped in (self.listed_in("drop"), option_names(output, "drop")):
            left = [n for n in left if n not in dropped]
        return left


def made_tables(program):
    """The tables that a program makes, each a name and the names of its columns, renamed."""
    for output in program.outputs:
        if not output.is_null:
            new = output.renamings()
            yield spelled(output.table), [spelled(new[name]) if name in new else name for name in program.columns_left(output)]


def option_names(output, word):
    return set() if output is None else {spelled(t) for o in output.options if is_word(o.word, word) for t in o.listed}


# ---- uses of names: (sort, token or tree, ..)


def uses(program, method, node):
    """The uses of names in an expression of a method, in order."""
    node = bare(node)
    if is_token(node):
        if node.is_name():
            yield "value", node
    elif node[0] == "member":
        yield "member", node[1][0], node[1][2]
    elif node[0] == "call":
        yield from call_uses(program, method, node)
    else:
        for part in node[1]:
            if not is_token(part) and part[0] != "cmp":
                yield from uses(program, method, part)


def flags_of(program, method, callee):
    """For each parameter of what is called whether it is in_out."""
    if is_token(callee):
        called = program.method(spelled(callee)) if callee.is_name() else None
    else:
        called = program.method_of(program.visible(method, callee[1][0]), spelled(callee[1][2]))
    return called.in_out if called else []


def call_uses(program, method, node):
    callee, arguments = node[1][0], kids(node[1][1], "expr")
    yield "call", callee, arguments
    for flag, argument in itertools.zip_longest(flags_of(program, method, callee)[: len(arguments)], arguments, fillvalue=False):
        name = bare(argument)
        if flag and is_token(name) and name.is_name():
            yield "handed", name
        else:
            yield from uses(program, method, argument)


def statement_uses(program, method, node):
    """The uses of names in a statement of a method, in order."""
    name, parts = node
    if name == "assign":
        yield "target", parts[0]
        yield from uses(program, method, parts[2])
    elif name == "call":
        yield from call_uses(program, method, node)
    elif name == "output":
        for table in parts[1:-1]:
            yield "table", table
    elif name == "item":
        if is_token(parts[0]) and parts[0].is_name():
            yield ("member", parts[0], parts[2]) if len(parts) == 3 else ("value", parts[0])
    elif name == "expr":
        yield from uses(program, method, node)
    elif name == "counted":
        yield "target", parts[0]
        for part in kids(node, "expr"):
            yield from uses(program, method, part)
    else:
        for part in parts:
            if not is_token(part):
                yield from statement_uses(program, method, part)


def uses_in(program, method):
    return [u for s in method.body for u in statement_uses(program, method, s)]


def each_use(program):
    return [(m, u) for m in program.methods for u in uses_in(program, m)]


# ---- the rules: each gives the places at which it is broken


def later(names):
    """The places of names that stand behind the same name."""
    return [place for name, place in names if any(n == name and p < place for n, p in names)]


def beyond(limit, places):
    """The places up to which more than so many stand."""
    ordered = sorted(places)
    return [p for p in ordered if sum(1 for q in ordered if q <= p) > limit] if len(ordered) > limit else []


def unknown_name(program):
    outputs = {spelled(o.table) for o in program.outputs if not o.is_null}
    for method, use in each_use(program):
        token, name = use[1], spelled(use[1]) if is_token(use[1]) else None
        is_there = method.hides(name) or program.is_global(name) or program.may_be_column(name)
        if use[0] == "value" and not is_there:
            yield token.place
        if use[0] in ("handed", "target") and not is_there and not program.instance(name):
            yield token.place
        if use[0] == "member" and not is_object(program, method, token, use[2]):
            yield token.place
        if use[0] == "call" and not is_token(token) and not program.visible(method, token[1][0]):
            yield token[1][0].place
        if use[0] == "table" and name not in outputs:
            yield token.place
    listed = [t for part in program.lists for t in names_in(part[1:])]
    for option in (o for output in program.outputs for o in output.options):
        listed += option.listed + [old for old, _ in option.renamings]
    listed += [t for i in program.instances for t in i.keys + i.items]
    yield from (t.place for t in listed if not program.may_be_global(spelled(t)))
    for name, place in program.bys:
        if any(name not in program.columns(i[1][0]) for i in program.inputs):
            yield place
    yield from (place for i in program.instances for place in unknown_in_instance(program, i))
    if program.stage:
        instance = program.instance(spelled(program.stage))
        if not instance or instance.sort != "thread":
            yield program.stage.place


def is_object(program, method, token, member):
    if is_word(token, "first", "last"):
        return spelled(member) in dict(program.bys)
    return program.visible(method, token) is not None


def unknown_in_instance(program, instance):
    """What a declaration names that is not there, beside the variables of a hash object."""
    if instance.sort in ("package", "thread") and not program.known(instance.sort, instance.of):
        yield instance.of.place
    if instance.sort == "hash" and instance.text:
        columns = program.columns_named(instance.text_name())
        if any(spelled(t) not in columns for t in instance.keys + instance.items):
            yield instance.text.place
    if instance.sort == "hiter":
        named = program.instance(instance.text_name())
        if not named or named.sort != "hash":
            yield instance.text.place


def duplicate_name(program):
    yield from later(program.plain + program.instance_names)
    if program.name and any(u.kind != "data" and spelled(u.name) == spelled(program.name) for u in program.before):
        yield program.name.place
    yield from later(program.bys)
    yield from later([(spelled(m.name), m.name.place) for m in program.methods])
    for method in program.methods:
        yield from later(method.locals)
    yield from later([(spelled(o.table), o.table.place) for o in program.outputs])
    for output in program.outputs:
        for option in output.options:
            yield from later([(spelled(old), old.place) for old, _ in option.renamings])
        if not output.is_null:
            yield from clashing_columns(program, output)


def clashing_columns(program, output):
    """Two columns of an output with one name, at the new name of a renaming; where both are renamed, at the second."""
    renamings = output.renamings()
    columns = [(spelled(renamings[n]), renamings[n].place) if n in renamings else (n, None) for n in program.columns_left(output)]
    for name, place in columns:
        if place and any(n == name and (p is None or p < place) for n, p in columns):
            yield place


def calls(program):
    """The calls with their methods, what is called and the numbers of their arguments."""
    return [(m, u[1], len(u[2])) for m, u in each_use(program) if u[0] == "call"]


def counts_on(program, instance, name):
    """How many arguments a call on an instance takes, at least and at most; None where there is no such call."""
    if instance.sort == "hash":
        return (0, 0) if name in HASH_CALLS else None
    if instance.sort == "hiter":
        return (0, 0) if name in ITERATOR_CALLS else None
    if instance.sort == "package":
        method = program.method_of(instance, name)
        return (len(method.parameters),) * 2 if method else None
    return (len(program.known("thread", instance.of).parameters),) * 2 if name == "setparms" else None


def is_known_sort(program, instance):
    return instance.sort in ("hash", "hiter") or program.known(instance.sort, instance.of) is not None


def known_counts(program, method, callee):
    """What a call takes: a pair of whether something is known of it, and its numbers of arguments."""
    if is_token(callee):
        if not callee.is_name():
            return True, (1, 1)
        called = program.method(spelled(callee))
        return True, (len(called.parameters),) * 2 if called else FUNCTIONS.get(spelled(callee))
    instance = program.visible(method, callee[1][0])
    if not instance or not is_known_sort(program, instance):
        return False, None
    return True, counts_on(program, instance, spelled(callee[1][2]))


def name_of_call(callee):
    return callee if is_token(callee) else callee[1][2]


def unknown_method(program):
    for method, callee, _ in calls(program):
        is_known, counts = known_counts(program, method, callee)
        is_system = is_token(callee) and callee.is_name() and spelled(callee) in SYSTEM and program.kind != "package"
        if is_known and (counts is None or is_system):
            yield name_of_call(callee).place
    for method, use in each_use(program):
        if use[0] == "member" and not is_word(use[1], "first", "last"):
            instance = program.visible(method, use[1])
            if instance and not (instance.sort == "hash" and spelled(use[2]) == "num_items"):
                yield use[2].place


def wrong_count(program):
    for method, callee, count in calls(program):
        _, counts = known_counts(program, method, callee)
        if counts and not counts[0] <= count <= counts[1]:
            yield name_of_call(callee).place
    for instance in program.instances:
        package = program.package_of(instance)
        if package and len(instance.constants) != len(constructor_flags(package)):
            yield instance.name.place


def constructor_flags(package):
    """For each parameter of a package's constructor whether it is in_out."""
    constructor = package.method(spelled(package.name))
    return constructor.in_out if constructor else []


def not_variable(program):
    for method, use in each_use(program):
        if use[0] in ("target", "handed") and not (method.hides(spelled(use[1])) or program.is_settable(spelled(use[1]))):
            yield use[1].place
        if use[0] == "call":
            for flag, argument in zip(flags_of(program, method, use[1]), use[2]):
                name = bare(argument)
                if flag and not (is_token(name) and name.is_name()):
                    yield first_token(argument).place
    for instance in program.instances:
        yield from (t.place for t in instance.keys if program.instance(spelled(t)) and not program.is_global(spelled(t)))
        yield from (t.place for t in instance.items if not program.is_settable(spelled(t)))
        package = program.package_of(instance)
        for flag, constant in zip(constructor_flags(package) if package else [], instance.constants):
            if flag:
                yield first_token(constant).place


def variables_of(program, instance):
    """The variables that a call of a hash object, or of an iterator, mentions."""
    if instance and instance.sort == "hiter":
        instance = program.instance(instance.text_name())
    return {spelled(t) for t in instance.keys + instance.items} if instance and instance.sort == "hash" else set()


def mentions(program, method, seen):
    """The globals that a method, or one that it may call, mentions."""
    if method is None or spelled(method.name) in seen:
        return set()
    seen.add(spelled(method.name))
    found = set()
    for use in uses_in(program, method):
        if use[0] in ("value", "handed", "target") and not method.hides(spelled(use[1])):
            found.add(spelled(use[1]))
        if use[0] == "call" and is_token(use[1]) and use[1].is_name():
            found |= mentions(program, program.method(spelled(use[1])), seen)
        if use[0] == "call" and not is_token(use[1]):
            found |= variables_of(program, program.visible(method, use[1][1][0]))
        if use[0] == "member" and not is_word(use[1], "first", "last"):
            found |= variables_of(program, program.visible(method, use[1]))
    return found


def aliased_argument(program):
    for method, use in each_use(program):
        if use[0] != "call":
            continue
        handed = [bare(a) for flag, a in zip(flags_of(program, method, use[1]), use[2]) if flag]
        handed = [(spelled(t), t.place) for t in handed if is_token(t) and t.is_name()]
        yield from later(handed)
        if handed and is_token(use[1]):
            reached = mentions(program, program.method(spelled(use[1])), set())
            yield from (place for name, place in handed if not method.hides(name) and program.may_be_global(name) and name in reached)


def too_many_names(program):
    yield from beyond(1000, [place for _, place in program.plain + program.bys * 2 + program.instance_names])
    for method in program.methods:
        yield from beyond(1000, [place for _, place in method.locals])
    yield from beyond(16, [o.table.place for o in program.outputs if not o.is_null])
    yield from beyond(16, [i[1][0].place for i in program.inputs])
    yield from beyond(16, [place for _, place in program.bys])
    yield from beyond(64, [place for _, place in program.instance_names])
    for instance in program.instances:
        yield from beyond(64, [t.place for t in instance.keys])
        yield from beyond(64, [t.place for t in instance.items])
    if sum(1 for u in program.before if u.kind == program.kind) >= 64:
        yield (program.name or program.outputs[0].table).place
    earlier = {name for u in program.before for name in first_mentions(u)}
    yield from [place for name, place in first_mentions(program).items() if name not in earlier][16 - len(earlier) :]


def mentioned_tables(program):
    """The tables that a unit mentions, in order, also by a reading statement that is misplaced."""
    for part in program.items:
        if is_token(part[0]):
            continue
        if part[0][0] == "declare":
            instance = Instance(part[0]) if any(is_token(p) for p in part[0][1]) else None
            if instance and instance.sort == "hash" and instance.text:
                yield instance.text_name(), instance.text.place
        else:
            for reading in kids(part[0], "reading"):
                yield from ((spelled(i[1][0]), i[1][0].place) for i in kids(reading, "input"))


def first_mentions(program):
    """The tables of the store, each where it is mentioned for the first time."""
    made = {spelled(o.table) for u in program.before for o in u.outputs if not o.is_null}
    mentions = {}
    for name, place in mentioned_tables(program):
        if name not in made:
            mentions.setdefault(name, place)
    return mentions


def bad_number(program):
    types = [v[1][1] for v in program.variables] + kids_of_all(program.parameters, "type")
    for method in program.methods:
        types += kids_of_all(method.parameters, "type") + method.returns + kids_of_all(method.variables, "type")
        if method.reading and is_word(method.reading[1][1], "from"):
            threads = [t for t in tokens_of(method.reading) if t.kind == "integer"]
            yield from (t.place for t in threads if not 1 <= int(t.spelling) <= 64)
    for ty in types:
        numbers = [t for t in tokens_of(ty) if t.kind == "integer"]
        most = 38 if is_word(ty[1][0], "decimal", "numeric") else 1024
        yield from (t.place for t in numbers[:1] if not 1 <= int(t.spelling) <= most)
        yield from (t.place for t in numbers[1:] if int(t.spelling) > int(numbers[0].spelling))


def kids_of_all(nodes, name):
    return [k for n in nodes for k in kids(n, name)]


def misplaced_statements(program, method, node, in_loop):
    name, parts = node
    if name in ("leave", "continue") and not in_loop:
        yield parts[0].place
    if name == "return" and bool(method.returns) != bool(kids(node, "expr")):
        yield parts[0].place
    if name == "output" and (not method.is_system or program.kind == "thread" and len(parts) > 2):
        yield parts[0].place
    in_loop = in_loop or name == "do" and bool(kids(node, "counted", "tested"))
    for part in parts:
        if not is_token(part) and part[0] not in ("expr", "call"):
            yield from misplaced_statements(program, method, part, in_loop)


def may_read(program, method):
    """The reading statement of a method stands in `run`; in a thread program it reads no thread program."""
    is_run = spelled(method.name) == "run" and method.is_system
    return is_run and method.reading and not (program.kind == "thread" and is_word(method.reading[1][1], "from"))


def misplaced(program):
    for method in program.methods:
        if method.is_system and (method.parameters or method.returns):
            yield method.keyword.place
        if method.reading and not may_read(program, method):
            yield first_token(method.reading).place
        for statement in method.body:
            yield from misplaced_statements(program, method, statement, False)
    for method, callee, _ in calls(program):
        if not is_token(callee) and spelled(callee[1][2]) == "setparms":
            instance = program.visible(method, callee[1][0])
            is_setting = instance and instance.sort == "thread" and program.known("thread", instance.of)
            if is_setting and not (spelled(method.name) == "init" and method.is_system):
                yield callee[1][0].place
    if program.kind == "package":
        yield from (i.keyword.place for i in program.instances if i.sort in ("package", "thread"))
        yield from (part[0].place for part in program.lists)
    if program.kind == "thread":
        yield from (p[1][0].place for p in program.parameters if is_token(p[1][0]))
        yield from (i.keyword.place for i in program.instances if i.sort == "thread")
    if len(program.outputs) > 1:
        yield from (o.table.place for o in program.outputs if o.is_null)
    for output in program.outputs:
        yield from later([(spelled(o.word), o.word.place) for o in output.options])


def no_columns(program):
    if program.stage is not None and program.read_thread() is None:
        return
    for output in program.outputs:
        if not output.is_null and not program.columns_left(output):
            yield output.table.place
    if program.kind == "thread" and not program.columns_left(None):
        yield program.name.place


RULES = [
    unknown_name, duplicate_name, unknown_method, wrong_count, not_variable, aliased_argument, too_many_names, bad_number, misplaced,
    no_columns,
]


# ---- the cases


def said_of_program(program):
    broken = [(kind, min(places)) for kind, rule in zip(KINDS, RULES) if (places := list(rule(program)))]
    if not broken:
        return None
    first = min(broken, key=lambda b: (b[1], KINDS.index(b[0])))
    return ", ".join("{} at {}:{}".format(kind, *place) for kind, place in [first] + [b for b in broken if b != first])


def answer(text, tables, until=None):
    """The answer to a source, or to its units that begin before a place; None where it has no tokens."""
    lexed = parse_cases.tokens(text.removeprefix("\ufeff"))
    if lexed is None:
        return None
    read, _ = parse_cases.earley(lexed[0], True)
    if not read:
        return parse_cases.answer(text)
    before = []
    for node in kids(read, "package", "thread", "data"):
        if until and first_token(node).place > until:
            break
        unit = Unit(node, tables, before)
        said = said_of_program(unit)
        if said:
            return said
        before = before + [unit]
        tables = list(made_tables(unit)) + tables
    return "its names fit"


def table_too_many(node):
    """The place of the first mention of a 17th table of the store, over all units of a source."""
    known, made, found = [], [], []
    for part in kids(node, "package", "thread", "data"):
        unit = Unit(part, [], [])
        for name, place in mentioned_tables(unit):
            if name not in known + made:
                known.append(name)
                found.append(place)
        made += [spelled(o.table) for o in unit.outputs if not o.is_null]
    return found[16] if len(found) > 16 else None


def refusal(text, tables, until=None):
    """The refusal that the names of a source get; None where they fit, or where there is no tree. Units behind a place are not looked at."""
    lexed = parse_cases.tokens(text.removeprefix("\ufeff"))
    read = lexed and parse_cases.earley(lexed[0], True)[0]
    if not read:
        return None
    many = table_too_many(read)
    if many:
        return "TooManyNames at {}:{}".format(*many)
    said = answer(text, tables, until)
    return None if said == "its names fit" else said.split(", ")[0]


def main():
    count, differ = 0, 0
    for case in command_cases.read_cases():
        text, stands = case.source(), case.refusal()
        is_named = stands and stands.split(" ")[0] in KINDS + TYPE_KINDS
        if text is None or not (is_named or case.status in (0, 6)):
            continue
        names = [name.removesuffix(".csv") for name in case.files if name.endswith(".csv")]
        # A refusal of the types of a program comes before the names of the next one.
        is_of_types = stands and stands.split(" ")[0] in TYPE_KINDS
        until = tuple(map(int, stands.split(" at ")[1].split(":"))) if is_of_types else None
        due = refusal(text, [(name, case.columns(name)) for name in names], until)
        count += 1
        if due != (stands if stands and stands.split(" ")[0] in KINDS else None):
            differ += 1
            print(f"{case.title}: {stands} stands there, and {due} is due")
    print(f"{count} sources, {differ} differ")
    sys.exit(1 if differ else 0)


if __name__ == "__main__":
    main()
