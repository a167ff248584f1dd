#!/usr/bin/env python3
"""Looks whether hostile inputs (bench/hostile_inputs.py) cost no more than their size allows.

usage: bench/hostile.py [--only WORDS] [--all] [--on] [--write FOLDER [--size N]] [PROGRAM]

Each input is made from a 64th of its whole size on, and then at twice the size, up to the whole. Its commands run one behind the other:
user seconds and peak memory, the least of several runs where they seem to grow. A command fails where

- it takes more than 2.5 times the seconds or the memory for a doubling, or 5 times where the rules want a product of two of its parts, such as of calls and
  their arguments, and a doubling doubles both. Below 0.1 seconds and below 32 MB nothing grows;
- it has not ended after 10 seconds, wants more than 3 GB, or ends with another status than it should;
- it is the `check` of a source of 262,144 bytes, and takes more than 4 seconds or 700 MB;
- it takes more than 2.2 times the seconds that it takes over a plain input of this kind and size.

An input of which a command has failed goes no further, but with --on, where each run may take 60 seconds, it does. Prints what has failed and what
takes more than 0.1 seconds or 32 MB as a whole, with --all all. Memory below some 15 MB is that of Python, which starts the program.
--only looks at the inputs whose names contain these words. --write puts their files into FOLDER/NUMBER, at the whole or the named size,
and runs nothing.
"""
import argparse
import os
import resource
import shutil
import signal
import subprocess
import sys
import tempfile

sys.dont_write_bytecode = True
from hostile_inputs import CHECK, INPUTS

TOP = os.path.dirname(os.path.dirname(os.path.abspath(__file__)))
MOST_GROWTH = 2.5
LEAST_SECONDS, LEAST_MEGABYTES = 0.1, 32
GOAL_SECONDS, GOAL_MEGABYTES = 4, 700
MOST_TIMES_PLAIN = 2.2
MOST_BYTES = 3 << 30
DOUBLINGS = 6
MOST_RUNS, MOST_SECONDS_OF_RUNS = 6, 12


def program_that_runs():
    """The program that ./ds2 runs, which the second line of --version names."""
    told = subprocess.run([os.path.join(TOP, "ds2"), "--version"], capture_output=True, text=True, check=True).stdout
    return os.path.join(TOP, told.splitlines()[1].removeprefix("runs ").partition(",")[0])


def put_files(given, make, size, folder):
    """Writes the files of an input in a process of its own, so that this one stays small."""
    child = os.fork()
    if child == 0:
        for name, data in make(size).items():
            with open(os.path.join(folder, name), "wb") as file:
                file.write(data if isinstance(data, bytes) else data.encode())
        os._exit(0)
    if os.wait4(child, 0)[1] != 0:
        sys.exit(f"{given.name} could not be made")


class Command:
    """A command in a folder: the least seconds and megabytes of its runs."""

    def __init__(self, program, words, folder, most_seconds, power):
        self.program, self.words, self.folder, self.most_seconds = program, words, folder, most_seconds
        self.most_growth = MOST_GROWTH * 2 ** (power - 1)
        self.runs, self.spent, self.seconds, self.megabytes = 0, 0, float("inf"), float("inf")

    def begin(self):
        """What the child does."""
        os.chdir(self.folder)
        os.dup2(os.open("log", os.O_WRONLY | os.O_CREAT | os.O_TRUNC), 1)
        resource.setrlimit(resource.RLIMIT_CPU, (self.most_seconds, self.most_seconds))
        resource.setrlimit(resource.RLIMIT_AS, (MOST_BYTES, MOST_BYTES))
        os.execv(self.program, [self.program, *self.words])

    def run(self):
        child = os.fork()
        if child == 0:
            self.begin()
        _, ended, used = os.wait4(child, 0)
        self.status = os.waitstatus_to_exitcode(ended)
        self.seconds, self.megabytes = min(self.seconds, used.ru_utime), min(self.megabytes, used.ru_maxrss / 1024)
        self.runs, self.spent = self.runs + 1, self.spent + used.ru_utime

    def flaw(self, statuses):
        """What is wrong with how it has ended."""
        if self.status in statuses:
            return None
        if self.status in (-signal.SIGKILL, -signal.SIGXCPU):
            return f"has not ended after {self.most_seconds} s"
        return f"has ended with status {self.status}"

    def has_grown(self, less):
        """Whether it takes too many times what it takes at half the size."""
        seconds = self.seconds > LEAST_SECONDS and self.seconds > self.most_growth * less.seconds
        return seconds or self.megabytes > LEAST_MEGABYTES and self.megabytes > self.most_growth * less.megabytes

    def outlasts(self, plain):
        """Whether it takes too many times the seconds of one over a plain input."""
        return self.seconds > max(LEAST_SECONDS, MOST_TIMES_PLAIN * plain.seconds)

    def still(self, seems, other):
        """Whether what seems so beside another command is so by the least of several runs of both."""
        while seems(other) and self.runs < MOST_RUNS and self.spent < MOST_SECONDS_OF_RUNS:
            other.run()
            self.run()
        return seems(other)

    def is_dear(self):
        return self.seconds > LEAST_SECONDS or self.megabytes > LEAST_MEGABYTES

    def is_beyond_goal(self):
        return self.words == CHECK and (self.seconds > GOAL_SECONDS or self.megabytes > GOAL_MEGABYTES)


def cost(command, less):
    """What a command takes, behind what it takes at half the size."""
    if less is None:
        return f"{command.seconds:.2f} s, {command.megabytes:.0f} MB"
    growth = f" ({command.seconds / less.seconds:.1f})" if less.seconds else ""
    return f"{less.seconds:.2f} -> {command.seconds:.2f} s{growth}, {less.megabytes:.0f} -> {command.megabytes:.0f} MB ({command.megabytes / less.megabytes:.1f})"


class Input:
    """An input from size to size: what its commands took at the last one, and which of them have failed."""

    def __init__(self, given, args, work):
        self.given, self.args, self.work = given, args, work
        self.last, self.failed, self.folder = {}, set(), None

    def look(self):
        size = max(1, self.given.whole >> DOUBLINGS)
        while size <= self.given.whole and (self.args.on or not self.failed):
            self.look_at(size)
            size *= 2
        if self.given.plain and not self.failed:
            self.look_beside()
        shutil.rmtree(self.folder)

    def look_at(self, size):
        """Runs the commands at a size, up to the first that fails."""
        before, self.folder = self.folder, tempfile.mkdtemp(dir=self.work)
        put_files(self.given, self.given.make, size, self.folder)
        for words, statuses in self.given.commands:
            command = Command(self.args.program, words, self.folder, 60 if self.args.on else 10, self.given.power)
            command.run()
            flaw = self.flaw(command, statuses, size)
            self.tell(command, size, flaw)
            self.last[words] = command
            if flaw:
                self.failed.add(words)
                if not self.args.on or command.status not in statuses:
                    break
        if before:
            shutil.rmtree(before)

    def look_beside(self):
        """Runs the commands over the plain input of the whole size too."""
        with tempfile.TemporaryDirectory(dir=self.work) as folder:
            put_files(self.given, self.given.plain, self.given.whole, folder)
            for words, command in self.last.items():
                plain = Command(self.args.program, words, folder, command.most_seconds, self.given.power)
                plain.run()
                beyond = command.still(command.outlasts, plain)
                print(f"{'FAILED: ' if beyond else ''}{self.given.name}: {words[0]}: {command.seconds:.2f} s, {command.seconds / plain.seconds:.1f} times the {plain.seconds:.2f} s of a plain input", flush=True)
                if beyond:
                    self.failed.add(words)

    def flaw(self, command, statuses, size):
        less = self.last.get(command.words)
        if flaw := command.flaw(statuses):
            return flaw
        if less and command.still(command.has_grown, less):
            return "grows"
        return "is beyond the goal" if size == self.given.whole and command.is_beyond_goal() else None

    def tell(self, command, size, flaw):
        is_whole = size == self.given.whole or self.args.on
        if flaw or self.args.all or is_whole and command.is_dear():
            print(f"{'FAILED: ' if flaw else ''}{self.given.name}: {command.words[0]} at {size:,}: {cost(command, self.last.get(command.words))}{f': {flaw}' if flaw else ''}", flush=True)


def write_files(chosen, args):
    for number, given in enumerate(chosen):
        folder = os.path.join(args.write, str(number))
        os.makedirs(folder)
        put_files(given, given.make, args.size or given.whole, folder)
        print(f"{folder}: {given.name}: {', '.join(' '.join(words) for words, _ in given.commands)}")


def main():
    words = argparse.ArgumentParser(description=__doc__, formatter_class=argparse.RawDescriptionHelpFormatter)
    words.add_argument("program", nargs="?")
    words.add_argument("--only", default="")
    words.add_argument("--all", action="store_true")
    words.add_argument("--on", action="store_true")
    words.add_argument("--write")
    words.add_argument("--size", type=int)
    args = words.parse_args()
    chosen = [given for given in INPUTS if args.only in given.name]
    if args.write:
        write_files(chosen, args)
        return
    args.program = os.path.abspath(args.program or program_that_runs())
    passed = failed = 0
    with tempfile.TemporaryDirectory() as work:
        for given in chosen:
            looked = Input(given, args, work)
            looked.look()
            failed += len(looked.failed)
            passed += len(given.commands) - len(looked.failed)
    print(f"{passed} passed, {failed} failed")
    sys.exit(1 if failed else 0)


if __name__ == "__main__":
    main()
