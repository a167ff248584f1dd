#!/usr/bin/env python3
"""Times commands over large files that are damaged: bench/damaged.py [PROGRAM]

An object of 1,000,000 instructions, a source of 262,144 bytes and a table of 67,108,864 bytes are read whole, then with one byte at 255 and
then cut, at places spread over the file (and at each of an object's first 400 bytes, where its counts are). Prints the user seconds and the
peak memory of the whole file, and the most of the damaged ones; a damaged object that takes more than ten times as long as the whole one, or
any file that takes more than twice the memory and 16 MB, fails. PROGRAM is the built program, that of this repository where not given.
"""
import os
import pathlib
import subprocess
import sys
import tempfile

from object_cases import object_file

TOP = pathlib.Path(__file__).resolve().parent.parent
PLACES = 40


def large_object():
    statement = [(43, 1, 1), (2, 0), (0, 0), (11,), (3, 0)]
    return object_file([{"slots": [("total", ("i",), 1)], "constants": [(("i",), 1)], "outputs": [("out", True, [("total", 0)])], "instrs": statement * 200_000 + [(57,)]}])


def large_source():
    lines = "".join(f"v{n} = v{n} + {n} * (v{n + 1} - 2);\n" for n in range(400))
    head = "data out (overwrite=yes);\ndcl bigint " + " ".join(f"v{n}" for n in range(401)) + ";\nmethod run();\n"
    body = lines * (262_144 // len(lines) + 1)
    return (head + body)[: 262_144 - 20].rsplit("\n", 1)[0].encode() + b"\nend;\nenddata;\n"


def large_table():
    row = b'1234567,"a text, quoted",0.25,' + b"x" * 40 + b"\n"
    return b"a bigint,b,c,d\n" + row * ((67_108_864 - 20) // len(row))


def run(program, folder, name, data, words):
    (folder / name).write_bytes(data)
    ran = subprocess.run(["/usr/bin/time", "-f", "%U %M", program, *words], cwd=folder, stdin=subprocess.DEVNULL, capture_output=True, text=True, timeout=600)
    seconds, peak = ran.stderr.split("\n")[-2].split()
    return float(seconds), int(peak) / 1024, ran.returncode


def damages(data, early):
    places = [*range(early), *range(early, len(data), max((len(data) - early) // PLACES, 1))]
    for n in places:
        yield data[:n] + b"\xff" + data[n + 1 :]
    for n in places:
        yield data[:n]


def main():
    program = os.path.abspath(sys.argv[1]) if len(sys.argv) > 1 else TOP / "crates/ds2/out/ds2"
    jobs = [
        ("an object of 1,000,000 instructions", "job.dso", large_object(), ["exec", "job.dso"], 400),
        ("a source", "job.ds2", large_source(), ["check", "job.ds2"], 0),
        ("a table", "t.csv", large_table(), ["check", "job.ds2"], 0),
    ]
    failed = 0
    with tempfile.TemporaryDirectory() as folder:
        folder = pathlib.Path(folder)
        for what, name, data, words, early in jobs:
            (folder / "job.ds2").write_text("data out (overwrite=yes); method run(); set t; end; enddata;\n")
            seconds, peak, status = run(program, folder, name, data, words)
            found = [run(program, folder, name, it, words) for it in damages(data, early)]
            most, memory = max(it[0] for it in found), max(it[1] for it in found)
            wrong = (name == "job.dso" and most > 10 * max(seconds, 0.01)) or memory > 2 * peak + 16
            failed += wrong
            print(f"{what} of {len(data):,} bytes: {seconds:.2f} s and {peak:.0f} MB (status {status}); {len(found)} damaged ones at most {most:.2f} s and {memory:.0f} MB" + (", too much" if wrong else ""))
    print(f"{len(jobs) - failed} passed, {failed} failed")
    return 1 if failed else 0


sys.exit(main())
