"""Plays the cases of ds2_cases on folders: python3 bench/play_cases.py PROGRAM

Each case has a folder of its own with its files, in which the program is run with its words; status, log, and the files that were made or
changed are to be those of the answer. Cases in which a call of the store or of the log fails are left out, since no folder does that.
Prints each case that goes another way, and `N passed, M failed`.
"""
import concurrent.futures
import os
import pathlib
import re
import subprocess
import sys
import tempfile

from command_cases import read_cases, unescaped

SECONDS = 60
SHOWN = 20


def put(folder, files):
    for name, contents in files.items():
        (folder / name).write_bytes(contents)


def files_in(folder):
    return {it.name: it.read_bytes() for it in folder.iterdir()}


def changed(before, after):
    """The files that are others than before; None for one that is gone."""
    return {name: after.get(name) for name in {*before, *after} if before.get(name) != after.get(name)}


def run(program, line, folder):
    words = [unescaped(word) for word in line.split(" ")] if line else []
    ran = subprocess.run([program, *words], cwd=folder, stdin=subprocess.DEVNULL, stdout=subprocess.PIPE, stderr=subprocess.DEVNULL, timeout=SECONDS)
    return ran.returncode, ran.stdout


def without_counts(log):
    """A log with letters for its counts, as the answers tell it."""
    log = re.sub(rb"^NOTE: [0-9]* instructions\.$", b"NOTE: K instructions.", log, flags=re.M)
    return re.sub(rb"^(NOTE: Object .*) [^ \n]* bytes\.$", rb"\1 B bytes.", log, flags=re.M)


def files_of_first(case, program):
    """What the command that comes before the case writes over the given files."""
    with tempfile.TemporaryDirectory() as folder:
        folder = pathlib.Path(folder)
        put(folder, case.given.files)
        run(program, case.line("first"), folder)
        written = changed(case.given.files, files_in(folder))
    return {name: contents for name, contents in written.items() if contents is not None and name not in case.without}


def files_before(case, program):
    if case.line("first") is None:
        return case.files
    own = {name: contents for name, contents in case.files.items() if case.given.files.get(name) is not contents}
    kept = {name: contents for name, contents in case.given.files.items() if name not in case.without}
    return {**kept, **files_of_first(case, program), **own}


def answer_of(case, status, log, written):
    """The answer as the cases tell it: of an object they have the name alone, but where they show its bytes."""
    answer = {"status": status}
    if log:
        answer["log"] = log if case.line("show counts") is not None else without_counts(log)
    for name, contents in written.items():
        is_hidden = contents and name.endswith(".dso") and case.line("show objects") is None
        answer[f"file {name}"] = b"" if is_hidden else contents
    return answer


def play(case, program):
    """What went another way; None where nothing did."""
    return play_over(case, program, files_before(case, program), case.status, case.answer)


def play_damaged(case, program):
    """What went another way at the first byte where something did; None where nothing did."""
    before = files_before(case, program)
    name, _, byte = (case.line("spoil") or case.line("cut")).partition(" ")
    whole = before[name]
    if [it for first, last, *_ in case.parts for it in range(first, last + 1)] != list(range(len(whole))):
        return f"the answers are not those of {len(whole)} bytes"
    for first, last, status, _, answer in case.parts:
        for n in range(first, last + 1):
            damaged = whole[:n] + (bytes([int(byte)]) + whole[n + 1 :] if byte else b"")
            if way := play_over(case, program, {**before, name: damaged}, status, answer):
                return f"at byte {n}: {way}"
    return None


def play_over(case, program, before, status, answer):
    """What went another way over these files than to this status and this answer; None where nothing did."""
    with tempfile.TemporaryDirectory() as folder:
        folder = pathlib.Path(folder)
        put(folder, before)
        try:
            ended, log = run(program, case.line("words"), folder)
        except subprocess.TimeoutExpired:
            return f"no end in {SECONDS} s"
        found = answer_of(case, ended, log, changed(before, files_in(folder)))
    wanted = {"status": status, **answer}
    ways = [f"{part}: {shown(found, part)} and not {shown(wanted, part)}" for part in sorted({*found, *wanted}) if found.get(part, "") != wanted.get(part, "")]
    return "; ".join(ways) or None


def shown(answer, part):
    return repr(answer[part])[:200] if part in answer else "nothing"


def main():
    program = os.path.abspath(sys.argv[1])
    cases = read_cases(most=1 << 40)
    played = [it for it in cases if not it.needs_failure()]
    with concurrent.futures.ThreadPoolExecutor(os.cpu_count()) as pool:
        ways = list(pool.map(lambda case: (play_damaged if case.is_damaged() else play)(case, program), played))
    failed = [(case, way) for case, way in zip(played, ways) if way]
    for case, way in failed[:SHOWN]:
        print(f"case {case.title}: {way}")
    print(f"{len(cases) - len(played)} cases of {len(cases)} are left out: they need a store or a log that fails")
    print(f"{len(played) - len(failed)} passed, {len(failed)} failed")
    return 1 if failed else 0


sys.exit(main())
