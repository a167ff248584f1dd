#!/usr/bin/env python3
"""Works out anew what the cases of crates/ds2_cases leave in which a call of the store fails or is torn, or the log fails, and those of objects
that are damaged at each byte, and compares it.

It takes each such case for which there is one of the same block, words and files without a failing call, and tells from the answer of that
one, by the rules alone, what has to be left; it prints each case whose answer is another one, and `N passed, M failed`. How many bytes an
object has that a command before has made is not told here: `play_cases.py` sees it. Nothing is shared with the product.
"""
import sys

from command_cases import read_cases
from object_cases import Reader, answer as answer_of_object

MAGIC = b"DS2O"


class Left:
    """What a command leaves: its status, its calls, the log, and the files that were made or changed."""

    def __init__(self, status, calls, log, files):
        self.status, self.calls, self.log, self.files = status, calls, log, files


def clean_left(case):
    files = {part.removeprefix("file "): bytes for part, bytes in case.answer.items() if part.startswith("file ")}
    return Left(case.status, [tuple(call.split(" ", 1)) for call in case.calls], case.answer.get("log", b"").splitlines(keepends=True), files)


def is_table(line):
    return line.startswith(b"NOTE: Table ")


def is_count(line):
    return line.startswith(b"NOTE: Thread ") or line.endswith(b" instructions.\n")


def said_before(log, tables):
    """What the log has before the write of the table behind so many: all of the programs before, and what its own program has put."""
    at = 0
    while at < len(log):
        while at < len(log) and not is_count(log[at]) and not is_table(log[at]):
            at += 1
        puts = at
        while at < len(log) and is_count(log[at]):
            at += 1
        while at < len(log) and is_table(log[at]):
            at, tables = at + 1, tables - 1
        if tables < 0:
            return log[:puts]
    return log


def with_fault(clean, fails, tears, has_log):
    """What is left where the calls of these numbers fail and those of these tears are torn, and where there is a log or it fails."""
    stops = [n for n in range(1, len(clean.calls) + 1) if n in fails or n in tears]
    left = clean
    if stops:
        number = stops[0]
        kind, name = clean.calls[number - 1]
        before = clean.calls[: number - 1]
        written = [it[1] for it in before if it[0] == "write"]
        tables = [it for it in written if it.endswith(".csv")]
        log = said_before(clean.log, len(tables)) if kind == "write" and name.endswith(".csv") else []
        fault = ("Write" if kind == "write" else "Read") + f" fault on {name}.\n"
        files = {it: clean.files[it] for it in written}
        if kind == "write" and number in tears:
            whole = MAGIC if name.endswith(".dso") and not clean.files[name] else clean.files[name]
            files[name] = whole[: tears[number]] if len(clean.files[name]) or tears[number] <= len(MAGIC) else None
        left = Left(8 if kind == "write" else 7, clean.calls[:number], [*log, b"ERROR: " + fault.encode()], files)
    if has_log:
        return left
    return Left(left.status or 9, left.calls, [], left.files)


def numbers(text):
    return [int(word) for word in (text or "").split()]


def key(case):
    """What two cases share that differ in failing calls alone."""
    return id(case.given), case.line("words"), case.line("first"), tuple(sorted(case.without)), tuple(sorted(case.files.items()))


def faults(case):
    return numbers(case.line("fail store")), dict(tuple(numbers(it.removeprefix("store "))) for it in case.tears()), case.line("fail log") is None


def shown(case, left):
    """The answer to a case that leaves this: where no objects are shown, of an object the name alone."""
    files = {}
    for name, bytes in left.files.items():
        is_hidden = name.endswith(".dso") and case.line("show objects") is None
        files[f"file {name}"] = b"" if is_hidden else bytes
    calls = [" ".join(call) for call in left.calls] if case.line("show calls") is not None else []
    return {"status": left.status, "calls": calls, "log": b"".join(left.log), **files}


def told(case):
    return {"status": case.status, "calls": case.calls, "log": case.answer.get("log", b""), **{part: bytes for part, bytes in case.answer.items() if part != "log"}}


# ---- objects that are damaged

class Places(Reader):
    """Notes the bytes that are the line or the column of a step: these may be anything, and tell no run otherwise that ends normally."""

    def __init__(self, data):
        super().__init__(data)
        self.free = set()

    def instr(self):
        at, code = self.at, self.data[self.at]
        super().instr()
        if code == 43:
            self.free |= set(range(at + 1, self.at))


def refusal(kind):
    return 10, ["read job.dso"], {"log": f"ERROR: Object refused: {kind}.\n".encode()}


def damaged_answer(case, data, n, left):
    """What is left of an object of one program with fewer than 255 slots, instructions and outputs, which reads the tables of the store alone:
    whole, it leaves this."""
    if case.line("cut") is not None:
        return refusal(answer_of_object(data[:n]))
    found = answer_of_object(data[:n] + b"\xff" + data[n + 1 :])
    if found not in ("Ok", "NotValid"):
        return refusal(found.replace("BadField ", "BadField at byte "))
    places = Places(data[10:])
    places.program(False)
    # Any other number that may be anything is that of a slot, an instruction, an output or a program that makes a table.
    return left if n - 10 in places.free else refusal("NotValid")


def ranges(answers):
    """The first and the last place of equal answers behind each other."""
    found = []
    for n, it in enumerate(answers):
        if found and found[-1][2] == it:
            found[-1][1] = n
        else:
            found.append([n, n, it])
    return found


def damaged_wanted(case, whole):
    data = case.files.get("job.dso")
    if data is None:
        # An object that a command before has made: each cut is Truncated, and how many there are the case says.
        return [[0, case.parts[-1][1], refusal("Truncated")]]
    return ranges([damaged_answer(case, data, n, whole) for n in range(len(data))])


def check_damaged(cases, clean):
    """Those that go another way."""
    for case in cases:
        other = clean.get(key(case))
        whole = other and (other.status, other.calls, other.answer)
        wanted = [[first, last, *it] for first, last, it in damaged_wanted(case, whole)]
        if wanted != [list(it) for it in case.parts]:
            yield case


def check(cases):
    damaged = [case for case in cases if case.is_damaged()]
    clean = {key(case): case for case in cases if not case.needs_failure() and not case.is_damaged() and case.line("show calls") is not None}
    tried = [case for case in cases if case.needs_failure() and key(case) in clean]
    failed = 0
    for case in check_damaged(damaged, clean):
        failed += 1
        print(f"case {case.title}: wanted other answers")
    for case in tried:
        wanted = shown(case, with_fault(clean_left(clean[key(case)]), *faults(case)))
        found = told(case)
        ways = [part for part in sorted({*wanted, *found}) if wanted.get(part, "") != found.get(part, "")]
        if ways:
            failed += 1
            print(f"case {case.title}: {', '.join(f'{it}: {found.get(it)!r} and not {wanted.get(it)!r}' for it in ways)}"[:1000])
    print(f"{sum(it.needs_failure() for it in cases) - len(tried)} cases with a failing call have none without one beside them")
    print(f"{len(tried) + len(damaged) - failed} passed, {failed} failed")
    return 1 if failed else 0


def main():
    return check(read_cases(most=1 << 40))


sys.exit(main())
