#!/usr/bin/env python3
"""Tries the wrong bodies that stand beside the gate, or looks whether they still fit.

usage: [LIBRARIES=FOLDER] bench/wrong_bodies.sh NAME..
       bench/wrong_bodies.sh --check

A wrong body is a file crates/NAME/wrong-bodies/WHAT.edit in the form of those in must-fail/: a line 'file: src/FILE.rt', then pairs of lines
'old: TEXT' and 'new: TEXT'. TEXT stands once in the file, and each pair applies to what those before it have made.

With names of crates: the crate is proved as it stands, and then the prover refuses it with each of its wrong bodies, over what the first
check has proved. It works on a copy of the crate's texts. A wrong body that is refused only because a proof names what it took away says
nothing of the contract, and fails here; so does one that the prover can't read.

The check of a crate reads the proved libraries of all crates below it. They are taken from the folder that LIBRARIES names, where each has
the sum of the text that it was built from, and those that are not there are proved and kept there, some seconds to minutes each: over
an empty folder some three hours of one processor for an uppermost crate. Without LIBRARIES they are let go at the end. The folder lies
outside of the checkout, since `rt` reads each .rt file below it.

With --check, without the kit and within a second: each edit in must-fail/ and wrong-bodies/ of all crates is read and applied in memory.
"""
import concurrent.futures
import functools
import hashlib
import os
import pathlib
import re
import shutil
import subprocess
import sys
import tempfile

TOP = pathlib.Path(__file__).resolve().parent.parent
PARTS = ("src", "specs", "proofs")


def pairs_of(text):
    """The pairs of an edit, each a file, an old and a new text."""
    file, old, pairs = None, None, []
    for number, line in enumerate(text.splitlines(), 1):
        word, _, rest = line.partition(":")
        rest = rest.removeprefix(" ")
        if word == "file" and old is None:
            file = rest.strip()
            if os.path.normpath(file) != file or not file.startswith("src/"):
                raise ValueError(f"line {number} names no file below src/")
        elif word == "old" and file and rest and old is None:
            old = rest
        elif word == "new" and old is not None:
            if old == rest:
                raise ValueError(f"line {number} changes nothing")
            pairs.append((file, old, rest))
            old = None
        elif line.strip():
            raise ValueError(f"line {number} is no 'file:', 'old:' or 'new:' in its place")
    if old is not None:
        raise ValueError("its last 'old:' has no 'new:'")
    if not pairs:
        raise ValueError("it has no pair of 'old:' and 'new:'")
    return pairs


def edited(edit, crate):
    """The texts of the files of a crate that an edit changes, by their path in it."""
    texts = {}
    for file, old, new in pairs_of(edit.read_text(encoding="utf-8")):
        if file not in texts:
            texts[file] = (crate / file).read_text(encoding="utf-8")
        found = texts[file].count(old)
        if found != 1:
            raise ValueError(f"an 'old:' text stands in {file} {found} times")
        texts[file] = texts[file].replace(old, new)
    return texts


def edits_in(folder):
    """The edits of a folder by name. Beside them it holds nothing but pages (.md)."""
    edits = []
    for path in sorted(folder.iterdir()) if folder.is_dir() else []:
        if path.is_file() and re.fullmatch(r"[a-z0-9_]+\.edit", path.name):
            edits.append(path)
        elif path.suffix != ".md":
            raise ValueError(f"{path.relative_to(TOP)} is no edit: its name has small letters, digits and _, and ends in .edit")
    return edits


def check():
    """Whether each edit of every crate applies."""
    passed, failed = 0, 0
    for crate in sorted((TOP / "crates").iterdir()):
        seen = {}
        for folder in ("must-fail", "wrong-bodies"):
            try:
                edits = edits_in(crate / folder)
            except ValueError as why:
                print(f"bench/wrong_bodies.sh: {why}")
                failed += 1
                continue
            if folder == "must-fail" and len(edits) == 1:
                print(f"bench/wrong_bodies.sh: {crate.name} has one edit in the gate: for the price of one it has two")
                failed += 1
            for edit in edits:
                try:
                    changed = edited(edit, crate)
                    same = seen.setdefault(repr(sorted(changed.items())), edit)
                    if same is not edit:
                        raise ValueError(f"it makes the same text as {same.relative_to(TOP)}")
                    passed += 1
                except (OSError, ValueError) as why:
                    print(f"bench/wrong_bodies.sh: {edit.relative_to(TOP)}: {why}")
                    failed += 1
    print(f"{passed} passed, {failed} failed")
    return 1 if failed else 0


def graph():
    """The crates that each crate stands on, those of the kit among them."""
    below = {}
    for line in (TOP / "crates.txt").read_text(encoding="utf-8").splitlines():
        head, colon, names = line.partition("#")[0].partition(":")
        if colon:
            below[head.split()[0]] = names.split()
    return below


class Prover:
    """The kit's prover, over libraries that a folder keeps."""

    def __init__(self, kit, libraries):
        self.kit, self.libraries, self.below = kit, libraries, graph()

    @functools.lru_cache(None)
    def needed(self, crate):
        """The crates of the repository below a crate, each behind those that it stands on."""
        needed = []
        for name in self.below[crate]:
            if name in self.below:
                needed += [it for it in [*self.needed(name), name] if it not in needed]
        return needed

    @functools.lru_cache(None)
    def sum_of(self, crate):
        """A sum of a crate's texts, of those of the crates below it, and of the kit."""
        made = hashlib.sha256((self.kit / "KIT-ID").read_bytes())
        for part in PARTS:
            for path in sorted((TOP / "crates" / crate / part).rglob("*")):
                if path.is_file():
                    made.update(repr((str(path.relative_to(TOP)), path.read_bytes())).encode())
        for name in self.below[crate]:
            made.update((self.sum_of(name) if name in self.below else name).encode())
        return made.hexdigest()

    def words(self, verb, crate):
        words = [self.kit / "bin/rattle", verb, "--crate-name", crate, "src/lib.rt"]
        for name in ["std", *self.below[crate]]:
            words += ["--extern", f"{name}={self.libraries if name in self.below else self.kit / 'rlibs'}/{name}.rlib"]
        words += ["-L", f"dependency={self.kit}/rlibs", "-L", f"dependency={self.libraries}"]
        words += ["--antt-project", self.kit / "rattle/logic/antt-project.json", "--logic-built", self.kit / "logic_built"]
        return [*words, "--jobs", "1", "--links", f"{crate}="]

    def run(self, words, folder):
        ran = subprocess.run(words, cwd=folder, stdin=subprocess.DEVNULL, stdout=subprocess.PIPE, stderr=subprocess.STDOUT, errors="replace")
        return ran.returncode, ran.stdout.rstrip("\n").split("\n")

    def has_library(self, crate):
        kept = self.libraries / f"{crate}.sum"
        return kept.is_file() and kept.read_text() == self.sum_of(crate) and (self.libraries / f"{crate}.rlib").is_dir()

    def build(self, crate):
        """Proves a library and keeps it, its sum behind it."""
        library, kept = self.libraries / f"{crate}.rlib", self.libraries / f"{crate}.sum"
        kept.unlink(missing_ok=True)
        shutil.rmtree(library, ignore_errors=True)
        status, lines = self.run([*self.words("build", crate), "--statements", "-o", library], TOP / "crates" / crate)
        if status:
            sys.exit("\n".join([*lines[-20:], f"bench/wrong_bodies.sh: {crate} is not proved"]))
        kept.write_text(self.sum_of(crate))
        say(f"{crate} proved, a library now")

    def build_below(self, crate):
        """Proves what is not kept of the libraries below a crate."""
        lacking = [it for it in self.needed(crate) if not self.has_library(it)]
        if lacking:
            say(f"{crate} stands on {len(self.needed(crate))} libraries, of which {len(lacking)} are proved first")
        with concurrent.futures.ThreadPoolExecutor(builds_at_once()) as pool:
            under_way = {}
            while lacking or under_way:
                for name in [it for it in lacking if not any(below in lacking or below in under_way.values() for below in self.below[it])]:
                    lacking.remove(name)
                    under_way[pool.submit(self.build, name)] = name
                for ended in concurrent.futures.wait(under_way, return_when=concurrent.futures.FIRST_COMPLETED).done:
                    del under_way[ended]
                    ended.result()

    def check(self, crate, texts, kept):
        """Checks a copy of a crate with these texts in place of its own, over what was proved of it before."""
        with tempfile.TemporaryDirectory() as room:
            for part in PARTS:
                if (TOP / "crates" / crate / part).is_dir():
                    shutil.copytree(TOP / "crates" / crate / part, f"{room}/{part}")
            for file, text in texts.items():
                pathlib.Path(room, file).write_text(text, encoding="utf-8")
            return self.run([*self.words("check", crate), "--incremental", kept], room)


def builds_at_once():
    """How many libraries to prove beside each other: one for each processor, and for each 4 GB of memory."""
    memory = os.sysconf("SC_PAGE_SIZE") * os.sysconf("SC_PHYS_PAGES")
    return max(1, min(os.cpu_count() or 1, memory // 4_000_000_000))


def processor_time():
    """The seconds of processor time that the checks so far have taken."""
    spent = os.times()
    return spent.children_user + spent.children_system


def say(text):
    print(f"bench/wrong_bodies.sh: {text}", flush=True)


def refusal(status, lines, changed):
    """Whether the prover has refused a crate at a goal, and what it said first."""
    if status == 0:
        return False, "NOT REFUSED: the crate is still proved"
    if status != 1 or not lines[-1].startswith("logic=not-proved"):
        return False, f"NOT TRIED: the prover ended with status {status}: {lines[0][:160]}"
    told = [it for it in lines if re.match(r"(note: )?\S+:\d+:\d+:", it)]
    told = [it for it in told if ": error" in it or it.startswith("note: ")] or told or [""]
    for line in told:
        at = re.match(r"(?:\./)?(\S+?):\d+:\d+: error: (`[^`]*`: )?(.*)", line)
        if at and (at[1] in changed or at[1].startswith(("src/", "specs/"))):
            said = re.sub(r"`[^`]*`", "", at[3])
            if not at[2] or re.search(r"is not in scope|has no field|is no name|operand is missing|expected the end|cannot continue", said):
                return False, f"NOT TRIED: the prover can't read it: {line[:160]}"
    by_name = r"(\./)?proofs/.*(has no field|is not in scope|has no `|was not admitted)"
    first = next((it for it in told if not re.match(by_name, it)), None)
    return first is not None, (first or f"REFUSED FOR A NAME ALONE: {told[0]}")[:200]


def try_crates(names):
    rt = shutil.which("rt")
    if not rt:
        say("nothing is tried: the command rt is not here")
        return 1
    kit = pathlib.Path(subprocess.run([rt, "doc"], stdout=subprocess.PIPE, text=True, check=True).stdout.strip()).parent
    failed, passed = 0, 0
    with tempfile.TemporaryDirectory() as room:
        libraries = pathlib.Path(os.environ.get("LIBRARIES") or f"{room}/libraries").resolve()
        libraries.mkdir(parents=True, exist_ok=True)
        prover = Prover(kit, libraries)
        for name in names:
            crate, kept = TOP / "crates" / name, f"{room}/{name}"
            edits = edits_in(crate / "wrong-bodies")
            prover.build_below(name)
            os.mkdir(kept)
            begun = processor_time()
            status, lines = prover.check(name, {}, kept)
            if status or not lines[-1].startswith("logic=proved"):
                print("\n".join(lines[-20:]))
                say(f"{name} is not proved as it stands")
                failed += 1
                continue
            say(f"{name} proved as it stands ({processor_time() - begun:.0f} s of processor time); {len(edits)} wrong bodies")
            for edit in edits:
                begun, is_refused, told = processor_time(), False, ""
                try:
                    texts = edited(edit, crate)
                    is_refused, told = refusal(*prover.check(name, texts, kept), texts)
                except (OSError, ValueError) as why:
                    told = str(why)
                say(f"{name}/{edit.stem}: {'refused, as it must be: ' * is_refused}{told} ({processor_time() - begun:.0f} s)")
                passed, failed = passed + is_refused, failed + (not is_refused)
    print(f"{passed} passed, {failed} failed")
    return 1 if failed else 0


def main(words):
    if words == ["--check"]:
        return check()
    below = graph()
    if not words or any(it not in below for it in words):
        print(__doc__, end="", file=sys.stderr)
        return 2
    return try_crates(words)


if __name__ == "__main__":
    sys.exit(main(sys.argv[1:]))
