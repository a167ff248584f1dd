"""Proves and builds the program of the sources that lie here: `./ds2 --build [--lanes N] [--keep]`.

Each library is proved over the statements of those below it, as soon as they are there, the longest chain of crates first; then the
program is proved, compiled by LLVM and linked, with the words that `rt ci` uses. What stands after a build that was ended stays, and the
next one goes on from there: beside each library lies the sum of all that it was proved from.

  --lanes N   so many crates beside each other (else one for each processor and for each 4 GB of memory)
  --keep      keeps the libraries, 6 GB, so that after an edit only what stands on it is proved anew
"""
import argparse
import fcntl
import functools
import hashlib
import os
import pathlib
import shutil
import signal
import subprocess
import sys
import threading
import time

TOP = pathlib.Path(__file__).resolve().parent.parent
OUT = TOP / "crates/ds2/out"
PROGRAM, SUMS = OUT / "ds2", OUT / "ds2.sums"
# The folder that `rt ci` gives back after its run, and in which it lets texts of libraries lie.
LIBRARIES = OUT / "rlib"
TIMES = LIBRARIES / "times"
LANE = 4_000_000_000
# A step gains little from more processors.
MOST_JOBS = 4


def say(text):
    print(f"ds2: {text}", file=sys.stderr, flush=True)


class Stopped(Exception):
    """Why there is no program."""


def output_of(*words):
    ran = subprocess.run(words, stdin=subprocess.DEVNULL, capture_output=True, text=True, errors="replace")
    if ran.returncode:
        raise Stopped(f"{' '.join(words)} has failed: {ran.stdout}{ran.stderr}")
    return ran.stdout.strip()


def sum_of(*parts):
    made = hashlib.sha256()
    for part in parts:
        made.update(part if isinstance(part, bytes) else part.encode())
        made.update(b"\n")
    return made.hexdigest()


class Kit:
    """The kit whose command `rt` is found first."""

    def __init__(self):
        self.folder = pathlib.Path(output_of("rt", "doc")).parent
        self.line = output_of("rt", "version").splitlines()[0]
        self.rattle = str(self.folder / "bin/rattle")
        self.libraries = self.folder / "rlibs"
        self.toolchain = ["--toolchain", str(self.folder / "toolchain")]
        self.logic = ["--antt-project", str(self.folder / "rattle/logic/antt-project.json")]
        self.built_logic = ["--logic-built", str(self.folder / "logic_built")]


class Crates:
    """The crates that the program stands on, and its own."""

    def __init__(self):
        listed = {}
        for line in (TOP / "crates.txt").read_text().splitlines():
            head, colon, names = line.partition("#")[0].partition(":")
            if colon:
                listed[head.split()[0]] = names.split()
        self.uses = {name: listed[name] for name in closure("ds2", listed)}
        self.below = {name: [it for it in uses if it in self.uses] for name, uses in self.uses.items()}
        self.above = {name: [it for it in self.uses if name in self.below[it]] for name in self.uses}


def closure(name, listed):
    found, waiting = set(), [name]
    while waiting:
        name = waiting.pop()
        if name in listed and name not in found:
            found.add(name)
            waiting += listed[name]
    return found


def texts_of(name):
    """The sum of a crate's own texts."""
    folder = TOP / "crates" / name
    files = [it for part in ("src", "specs", "proofs") for it in sorted((folder / part).rglob("*")) if it.suffix in (".rt", ".antt")]
    return sum_of(*[part for it in files for part in (str(it.relative_to(folder)), it.read_bytes())])


def number_in(file):
    """The first number of a file; None where there is none."""
    try:
        word = pathlib.Path(file).read_text().split()[0]
    except (OSError, IndexError):
        return None
    return int(word) if word.isdigit() else None


def lanes_here():
    """One for each processor, and for each 4 GB of memory, that this process may use."""
    processors = len(os.sched_getaffinity(0))
    quota = number_in("/sys/fs/cgroup/cpu.max")
    if quota:
        period = int(pathlib.Path("/sys/fs/cgroup/cpu.max").read_text().split()[1])
        processors = min(processors, max(quota // period, 1))
    memory = os.sysconf("SC_PAGE_SIZE") * os.sysconf("SC_PHYS_PAGES")
    memory = min(memory, *[it for it in map(number_in, ("/sys/fs/cgroup/memory.max",)) if it] or [memory])
    return max(1, min(processors, memory // LANE))


def read_times():
    """What each step took in the last build here, or else in one that the repository tells of, in seconds."""
    for file in (TIMES, TOP / "build/times"):
        if file.is_file():
            return {name: float(seconds) for name, seconds in map(str.split, file.read_text().splitlines())}
    return {}


class Build:
    def __init__(self, crates, kit, lanes):
        self.crates, self.kit, self.lanes = crates, kit, lanes
        self.turn = threading.Condition()
        self.texts = {name: texts_of(name) for name in crates.uses}
        self.times = read_times()
        self.tells_left = 2 * len([it for it in crates.uses if it in self.times]) > len(crates.uses)
        self.done, self.running, self.failed = set(), {}, None
        self.began = time.monotonic()
        self.aside = LIBRARIES / "new"

    @functools.lru_cache(None)
    def stamp(self, name):
        """The sum of all that a library is proved from: its texts, the kit, and those of all libraries below."""
        uses = [f"{it} {self.stamp(it) if it in self.crates.uses else ''}" for it in self.crates.uses[name]]
        return sum_of(self.kit.line, name, self.texts[name], *uses)

    def weight(self, name):
        """What a step takes, by the last build's times where they tell it."""
        known = sorted(self.times.values())
        return self.times.get(name, known[len(known) // 2] if known else 1.0)

    @functools.lru_cache(None)
    def chain(self, name):
        """What a step and the longest chain of those that wait for it take."""
        return self.weight(name) + max([self.chain(it) for it in self.crates.above[name]], default=0)

    def library(self, name):
        return LIBRARIES / f"{name}.rlib"

    def is_kept(self, name):
        stamp = LIBRARIES / f"{name}.stamp"
        return self.library(name).exists() and stamp.is_file() and stamp.read_text() == self.stamp(name)

    def words(self, name):
        """The words of rattle on a crate."""
        is_program = name == "ds2"
        words = ["--crate-name", name, "src/main.rt" if is_program else "src/lib.rt"]
        kit = ["std", *[it for it in self.crates.uses[name] if it not in self.crates.uses]]
        for it in kit:
            words += ["--extern", f"{it}={self.kit.libraries / it}.rlib"]
        words += ["-L", f"dependency={self.kit.libraries}"]
        for it in self.crates.below[name]:
            words += ["--extern", f"{it}={self.library(it)}"]
        if self.crates.below[name]:
            words += ["-L", f"dependency={LIBRARIES}"]
        return words + self.kit.logic + ([] if is_program else ["--links", f"{name}="])

    def call(self, name, words):
        """Runs a step, whose processes are a group of their own and hold the lock until they end."""
        with self.turn:
            if self.failed:
                return
            how = {"stdin": subprocess.DEVNULL, "stdout": subprocess.PIPE, "stderr": subprocess.STDOUT, "text": True, "errors": "replace"}
            step = subprocess.Popen(words, cwd=TOP / "crates" / name, start_new_session=True, pass_fds=[LOCK.fileno()], **how)
            self.running[name] = (*self.running[name][:2], step)
        said = step.communicate()[0]
        if step.returncode < 0:
            raise Stopped(f"{name}: its step was ended by signal {-step.returncode}; where memory is short, fewer --lanes need less")
        if step.returncode:
            raise Stopped(f"{name} is not proved:\n{said}")

    def prove_library(self, name, jobs):
        """Proves a library aside, and puts it in its place whole."""
        new, library, stamp = self.aside / f"{name}.rlib", self.library(name), LIBRARIES / f"{name}.stamp"
        stamp.unlink(missing_ok=True)
        remove(library)
        self.call(name, [self.kit.rattle, "build", *self.words(name), *self.kit.built_logic, "--jobs", str(jobs), "--statements", "-o", str(new)])
        if self.failed:
            return
        if texts_of(name) != self.texts[name]:
            raise Stopped(f"the texts of {name} have changed while it was proved: build again, which goes on from here")
        new.rename(library)
        made = self.aside / f"{name}.stamp"
        made.write_text(self.stamp(name))
        made.rename(stamp)

    def prove_program(self, jobs):
        """Proves the program, and compiles and links what was proved."""
        proved, made, program, rattle = self.aside / "checked", self.aside / "ds2.o", self.aside / "ds2", self.kit.rattle
        words = self.words("ds2")
        self.call("ds2", [rattle, "check", *words, *self.kit.built_logic, "--jobs", str(jobs), "-o", str(proved)])
        self.call("ds2", [rattle, "build", *words, "--crate-checked", str(proved), *self.kit.toolchain, "--backend", "llvm", "-o", str(made)])
        libc = [str(self.kit.folder / "c" / it) for it in ("libos_c.a", "liblibc_c.a")]
        link = [str(self.kit.folder / "bin/rattle-link"), "--target", "x86_64-unknown-linux-gnu", *self.kit.toolchain]
        self.call("ds2", [*link, "-o", str(program), str(made), *libc])

    def step(self, name, jobs):
        """One crate, in a thread of its own."""
        began = time.monotonic()
        try:
            self.prove_program(jobs) if name == "ds2" else self.prove_library(name, jobs)
            failure = None
        except (Stopped, OSError) as error:
            failure = str(error)
        with self.turn:
            del self.running[name]
            if failure:
                self.failed = self.failed or failure
            elif not self.failed:
                self.done.add(name)
                self.times[name] = time.monotonic() - began
            self.turn.notify_all()

    def begin_ready(self):
        """Begins as many steps as there are lanes, the longest chain first; lanes that are left give their processors to these."""
        waiting = [it for it in self.crates.uses if it not in self.done and it not in self.running]
        ready = sorted((it for it in waiting if self.done.issuperset(self.crates.below[it])), key=lambda it: (-self.chain(it), it))
        for at, name in enumerate(ready):
            idle = self.lanes - sum(jobs for _, jobs, _ in self.running.values())
            if idle <= 0:
                return
            jobs = max(1, min(MOST_JOBS, idle // (len(ready) - at)))
            self.running[name] = (time.monotonic(), jobs, None)
            threading.Thread(target=self.step, args=(name, jobs), daemon=True).start()

    def left(self):
        """What is left in seconds, by the last build's times; None where they tell too little."""
        if not self.tells_left:
            return None
        now = time.monotonic()
        gone = {name: now - began for name, (began, _, _) in self.running.items()}
        waiting = [it for it in self.crates.uses if it not in self.done]
        work = sum(max(self.weight(it) - gone.get(it, 0), 0) for it in waiting)
        chain = max((self.chain(it) - min(gone.get(it, 0), self.weight(it)) for it in waiting), default=0)
        return max(work / self.lanes, chain)

    def say_progress(self):
        left = self.left()
        about = "" if left is None else f", about {max(1, round(left / 60))} minutes left"
        now = ", ".join(sorted(self.running))
        say(f"{len(self.done)} of {len(self.crates.uses)} crates are proved after {time.monotonic() - self.began:.0f} s{about}; now {now}")

    def end_steps(self):
        for _, _, step in self.running.values():
            if step and step.poll() is None:
                os.killpg(step.pid, signal.SIGTERM)

    def run(self):
        """Proves all crates."""
        self.done = {it for it in self.crates.uses if it != "ds2" and self.is_kept(it)}
        # A library fits those alone over which it was proved.
        self.done = {it for it in self.done if all(below in self.done for below in closure(it, self.crates.below))}
        remove(self.aside)
        self.aside.mkdir(parents=True)
        said = time.monotonic()
        with self.turn:
            try:
                while len(self.done) < len(self.crates.uses) and not self.failed:
                    self.begin_ready()
                    self.turn.wait(1)
                    if time.monotonic() - said >= 10:
                        said = time.monotonic()
                        self.say_progress()
            finally:
                self.failed = self.failed or ("it was ended" if len(self.done) < len(self.crates.uses) else None)
                self.end_steps()
                self.keep_times()
        if self.failed:
            raise Stopped(self.failed)

    def keep_times(self):
        TIMES.write_text("".join(f"{name} {seconds:.1f}\n" for name, seconds in sorted(self.times.items())))


def remove(path):
    if path.is_dir() and not path.is_symlink():
        shutil.rmtree(path)
    else:
        path.unlink(missing_ok=True)


def lock_file():
    """The lock that `rt ci` takes, which moves what lies in out/; else one beside the libraries."""
    folder = TOP / ".git"
    if folder.is_dir() and not folder.is_symlink():
        return folder / "rt-ci.lock"
    OUT.mkdir(parents=True, exist_ok=True)
    return OUT / "lock"


def await_turn():
    """Waits while another call builds here, or `rt ci` runs."""
    lock = open(lock_file(), "a")
    try:
        fcntl.flock(lock, fcntl.LOCK_EX | fcntl.LOCK_NB)
    except BlockingIOError:
        say("another build or gate runs here, and this one waits for it")
        fcntl.flock(lock, fcntl.LOCK_EX)
    return lock


def is_built(sources):
    """Whether the program lies here, of these sources by its sums. One that rt has left gets its sums here."""
    if not PROGRAM.is_file():
        return False
    said = dict(line[2:].split(": ", 1) for line in SUMS.read_text().splitlines()) if SUMS.is_file() else {}
    if said.get("program") != hashlib.sha256(PROGRAM.read_bytes()).hexdigest():
        return not subprocess.run([str(TOP / "build/record")], stdin=subprocess.DEVNULL, capture_output=True).returncode
    return said.get("sources") == sources


def install(sources):
    """Puts the program in its place, with its sums beside it."""
    if output_of(str(TOP / "build/sum")) != sources:
        raise Stopped("the sources have changed since the build began: build again, which goes on from here")
    SUMS.unlink(missing_ok=True)
    (LIBRARIES / "new/ds2").rename(PROGRAM)
    output_of(str(TOP / "build/record"), sources)


def let_go(keeps):
    """Lets go what no build needs again: all but the times, or with --keep all but the libraries and the times."""
    for it in LIBRARIES.iterdir():
        if it != TIMES and not (keeps and it.suffix in (".rlib", ".stamp")):
            remove(it)


def build(lanes, keeps):
    sources = output_of(str(TOP / "build/sum"))
    if is_built(sources):
        say("the program of these sources is built: crates/ds2/out/ds2")
        return
    LIBRARIES.mkdir(parents=True, exist_ok=True)
    build = Build(Crates(), Kit(), lanes)
    say(f"proving {len(build.crates.uses)} crates, {lanes} beside each other, with {build.kit.line}; a build from nothing takes some hours of processor time")
    build.run()
    install(sources)
    let_go(keeps)
    say(f"proved and built crates/ds2/out/ds2 in {(time.monotonic() - build.began) / 60:.0f} minutes")


def end(*_):
    raise KeyboardInterrupt


def number_of_lanes(text):
    lanes = int(text)
    if not 1 <= lanes <= 256:
        raise ValueError
    return lanes


def main():
    global LOCK
    parser = argparse.ArgumentParser(prog="ds2 --build", description=__doc__.split("\n")[0], allow_abbrev=False)
    parser.add_argument("--lanes", type=number_of_lanes, default=lanes_here(), metavar="N", help="so many crates beside each other")
    parser.add_argument("--keep", action="store_true", help="keeps the libraries, so that after an edit only what stands on it is proved anew")
    words = parser.parse_args()
    for it in (signal.SIGTERM, signal.SIGHUP):
        signal.signal(it, end)
    try:
        LOCK = await_turn()
        build(words.lanes, words.keep)
    except Stopped as error:
        say(f"the program could not be built: {error}")
        return 1
    except KeyboardInterrupt:
        say("ended; the next build goes on from here")
        return 130
    return 0


sys.exit(main())
