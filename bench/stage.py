#!/usr/bin/env python3
"""Times the stages of the jobs that sum groups, by one worker and by several.

usage: bench/stage.py [--product crates/ds2/out/ds2] [--jobs totals totals50k] [--rows 1000000] [--threads 1,2,4] [--runs 5]

A run of a job reads its table, compiles the source, runs the thread program and then its reader, and writes a table. The same source with a
reader that reads nothing does all but the last three: what is above its time is the stage's, with a reader of a row a group. The runs are
interleaved, and the least time of each counts. Prints wall seconds, and those above by one worker's.
"""
import argparse
import os
import re
import shutil
import subprocess
import tempfile
import time

HERE = os.path.dirname(os.path.abspath(__file__))


def wall(product, folder, words):
    for name in ("totals.csv", "job.dso", "idle.dso"):
        path = os.path.join(folder, name)
        if os.path.exists(path):
            os.unlink(path)
    begun = time.perf_counter()
    subprocess.run([product, "run"] + words, cwd=folder, check=True, stdout=subprocess.DEVNULL)
    return time.perf_counter() - begun


def measured(args, job, workers):
    with tempfile.TemporaryDirectory() as folder:
        subprocess.run(["python3", os.path.join(HERE, "jobs", job, "gen.py"), str(args.rows), folder], check=True)
        shutil.copy(os.path.join(HERE, "jobs", job, "job.ds2"), folder)
        with open(os.path.join(folder, "job.ds2"), encoding="utf-8") as file:
            source = file.read()
        with open(os.path.join(folder, "idle.ds2"), "w", encoding="utf-8") as file:
            file.write(re.sub(r"set from \w+ threads=\d+;", "", source).replace("data totals;", "data totals; dcl bigint none;"))
        runs = {0: ["idle.ds2"], **{n: ["job.ds2", "--threads", str(n)] for n in workers}}
        least = {n: wall(args.product, folder, words) for n, words in runs.items()}
        for _ in range(args.runs):
            for n, words in runs.items():
                least[n] = min(least[n], wall(args.product, folder, words))
        return least


def main():
    a = argparse.ArgumentParser(description=__doc__, formatter_class=argparse.RawDescriptionHelpFormatter)
    a.add_argument("--product", default=os.path.join(HERE, "..", "crates", "ds2", "out", "ds2"))
    a.add_argument("--jobs", nargs="+", default=["totals", "totals50k"])
    a.add_argument("--rows", type=int, default=1_000_000)
    a.add_argument("--threads", default="1,2,4")
    a.add_argument("--runs", type=int, default=5)
    args = a.parse_args()
    args.product = os.path.abspath(args.product)
    workers = [int(n) for n in args.threads.split(",")]
    print(f"load {os.getloadavg()[0]:.1f}, {os.cpu_count()} processors, {args.rows:,} rows")
    for job in args.jobs:
        least = measured(args, job, workers)
        stages = {n: least[n] - least[0] for n in workers}
        print(f"{job}: without the stage {least[0]:.3f}")
        for n in workers:
            print(f"{job}: {n} workers {least[n]:.3f}, the stage {stages[n]:.3f}, {stages[n] / stages[workers[0]]:.2f} of that by {workers[0]}")


if __name__ == "__main__":
    main()
