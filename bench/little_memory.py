#!/usr/bin/env python3
"""Runs commands once for each of their allocations, and lets that allocation fail: bench/little_memory.py [PROGRAM [JOB]]

Each run has to end with status 11, a first part of the files that the command writes whole and the others absent, and a log that is empty or
has the one line on it; or, where a worker left its groups to others, with all that the command leaves with its memory, which no command by
one worker does. PROGRAM is the built program, that of this repository where not given; JOB is the name of one of the jobs, all where not given. Needs
a C compiler (cc). Of each job the first 5,000 allocations are refused, or all: until three runs in turn had all their memory. Prints for each
job how its runs have ended, and `N passed, M failed` for the jobs.
"""
import concurrent.futures
import os
import pathlib
import shutil
import subprocess
import sys
import tempfile

TOP = pathlib.Path(__file__).resolve().parent.parent
MOST, SECONDS, SHOWN = 5_000, 60, 5
WANT = b"ERROR: Want of memory.\n"

SUM = {
    "job.ds2": "data out; dcl bigint x; method run(); set t; x = a + b; end; enddata;\n",
    "t.csv": "a,b,c\n1,2,x\n3,4,1.5\n5,,\n",
}
WALK = {
    "job.ds2": """data out; dcl bigint k v rc; dcl package hash h([k],[v],8,'t'); dcl package hiter i('h');
method run(); k = 9; v = 90; h.add(); rc = i.first(); do while (rc = 0); put k v; rc = i.next(); end; h.remove(); end; enddata;
""",
    "t.csv": "k bigint,v bigint\n1,10\n2,20\n3,30\n",
}


def example(name):
    folder = TOP / "examples" / name
    return {it.name: it.read_text() for it in [folder / "job.ds2", *folder.glob("*.csv")] if not (folder / "expected" / it.name).exists()}


# A name, the files, the words of the command, and whether an object of the job is there before.
JOBS = [
    ("sum of columns without types", SUM, ["run", "job.ds2"], False),
    ("iterator", WALK, ["run", "job.ds2"], False),
    ("iterator, exec", WALK, ["exec", "job.dso"], True),
    ("totals, 2 workers", example("totals"), ["run", "job.ds2", "--threads", "2"], False),
    ("totals, 8 workers", example("totals"), ["run", "job.ds2", "--threads", "8"], False),
    ("totals, exec", example("totals"), ["exec", "job.dso"], True),
    ("billing", example("billing"), ["run", "job.ds2"], False),
    ("billing, compile", example("billing"), ["compile", "job.ds2"], False),
    ("billing, check", example("billing"), ["check", "job.ds2"], False),
    ("billing, exec", example("billing"), ["exec", "job.dso"], True),
    ("visits, 4 workers", example("visits"), ["run", "job.ds2", "--threads", "4"], False),
    ("visits, exec", example("visits"), ["exec", "job.dso"], True),
]


class Job:
    def __init__(self, program, library, folder, files, words):
        self.program, self.library, self.folder, self.files, self.words = program, library, folder, files, words
        self.status, self.log, self.written, _ = self.run(None)
        # The order in which the command writes: the object first, then the tables in the order in which the log counts them.
        tables = [line.split()[2].rstrip(b",").decode() + ".csv" for line in self.log.splitlines() if line.startswith(b"NOTE: Table ")]
        self.order = [it for it in ["job.dso", *tables] if it in self.written]
        assert self.status == 0 and sorted(self.order) == sorted(self.written), (self.status, self.log, self.order)

    def run(self, number):
        """Status, log, what was written, and whether an allocation was refused."""
        with tempfile.TemporaryDirectory(dir=self.folder) as folder:
            folder = pathlib.Path(folder)
            for name, contents in self.files.items():
                (folder / name).write_bytes(contents)
            mark = folder / "refused"
            failing = {"FAIL_ALLOC": str(number), "FAIL_MARK": str(mark), "LD_PRELOAD": self.library} if number else {}
            ran = subprocess.run([self.program, *self.words], cwd=folder, env={**os.environ, **failing}, stdin=subprocess.DEVNULL, capture_output=True, timeout=SECONDS)
            is_refused = mark.exists()
            written = {it.name: it.read_bytes() for it in folder.iterdir() if it != mark and self.files.get(it.name) != it.read_bytes()}
        return ran.returncode, ran.stdout, written, is_refused

    def way(self, number):
        """How the run without this allocation has ended, and what was wrong with it."""
        status, log, written, is_refused = self.run(number)
        if status == 0:
            if is_refused and "--threads" not in self.words:
                return "helped", "status 0 by one worker without this allocation"
            is_right = log == self.log and written == self.written
            return ("helped" if is_refused else "whole"), None if is_right else "another log or other files at status 0"
        if status != 11:
            return "other", f"status {status}"
        first = {name: self.written[name] for name in self.order[: len(written)]}
        if written != first:
            return "refused", f"other files than a first part of them: {', '.join(sorted(written))}"
        return ("said" if log == WANT else "refused"), None if log in (b"", WANT) else f"a log: {log[:200]!r}"


def try_job(program, library, folder, name, files, words, is_compiled):
    files = {it: text.encode() for it, text in files.items()}
    if is_compiled:
        files["job.dso"] = Job(program, library, folder, files, ["compile", "job.ds2"]).written["job.dso"]
    job = Job(program, library, folder, files, words)
    count, wrong, number, whole = dict.fromkeys(("said", "refused", "helped", "whole", "other"), 0), [], 0, 0
    with concurrent.futures.ThreadPoolExecutor(os.cpu_count()) as pool:
        while number < MOST and whole < 3:
            for at, (way, why) in enumerate(pool.map(job.way, range(number + 1, number + 65)), number + 1):
                count[way] += 1
                whole = whole + 1 if way == "whole" else 0
                if why:
                    wrong.append(f"allocation {at}: {why}")
            number += 64
    if not count["said"]:
        wrong.append("no log told the want of memory")
    print(f"{name}: {count['said'] + count['refused']} runs ended with status 11, {count['said']} of them with the line on it, and {count['helped']} with status 0 without one of their allocations")
    for line in wrong[:SHOWN]:
        print(f"    {line}")
    return not wrong


def main():
    program = os.path.abspath(sys.argv[1]) if len(sys.argv) > 1 else TOP / "crates/ds2/out/ds2"
    with tempfile.TemporaryDirectory() as folder:
        library = f"{folder}/fail_alloc.so"
        subprocess.run(["cc", "-O1", "-shared", "-fPIC", "-o", library, TOP / "bench/fail_alloc.c", "-ldl"], check=True)
        jobs = [it for it in JOBS if len(sys.argv) < 3 or it[0] == sys.argv[2]]
        passed = sum(try_job(program, library, folder, *job) for job in jobs)
    print(f"{passed} passed, {len(jobs) - passed} failed")
    return 0 if passed == len(jobs) else 1


sys.exit(main())
