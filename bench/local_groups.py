#!/usr/bin/env python3
"""Runs each thread program of the cases of ds2_cases that `check` calls local, by one worker and by several, whose groups begin from what other
groups have left, and compares what comes of it: status, log with the numbers of instructions, and tables.

usage: bench/local_groups.py [WORKERS ..]     how many workers, 2 3 8 where none is given

The program of crates/ds2 must be built. Behind each source stands a data program more, which reads from the thread program; its parameters are
null. A job that ends by a fault, as one with a loop without end does, has to end so by any number of workers.
"""
import pathlib
import re
import subprocess
import sys
import tempfile

import command_cases

PROGRAM = pathlib.Path(__file__).parent.parent / "crates" / "ds2" / "out" / "ds2"
READER = 'data local_rows; dcl thread "{}" local_instance; method run(); set from local_instance; end; enddata;\n'


def local_threads(case):
    """The names of the thread programs of a case that are local."""
    return [m.group(1) for line in case.log if (m := re.match(r"\| NOTE: Thread (.+), local( by \d+)?\.$", line))]


def outcome(source, files, workers):
    """What comes of a source over these files: the status, the log, and each file behind the run but the object."""
    with tempfile.TemporaryDirectory() as folder:
        top = pathlib.Path(folder)
        for name, data in files.items():
            (top / name).write_bytes(data)
        (top / "job.ds2").write_bytes(source)
        words = [PROGRAM, "run", "job.ds2", "--threads", str(workers), "--budget", "10000"]
        ended = subprocess.run(words, cwd=top, capture_output=True, stdin=subprocess.DEVNULL, timeout=120)
        tables = {f.name: f.read_bytes() for f in top.iterdir() if f.suffix == ".csv"}
        return ended.returncode, ended.stdout, tables


def main():
    numbers = [int(word) for word in sys.argv[1:]] or [2, 3, 8]
    runs = differ = rows = 0
    for case in command_cases.read_cases():
        for name in local_threads(case):
            source = case.files["job.ds2"] + b"\n" + READER.format(name).encode()
            alone = outcome(source, case.files, 1)
            rows += alone[2].get("local_rows.csv", b"").count(b"\n")
            for workers in numbers:
                runs += 1
                if outcome(source, case.files, workers) != alone:
                    differ += 1
                    print(f"{case.title}: {name} by {workers} workers differs from one")
    print(f"{runs} runs by several workers, {differ} differ from those by one; {rows} lines of tables")
    sys.exit(1 if differ or not rows else 0)


main()
