#!/usr/bin/env python3
"""Looks whether the pages of the repository hold together.

usage: docs/pages.py --check    refuses a link or a named path that leads nowhere, a page that the list of pages lacks, a
                                sentence of ten words or more that stands in two pages, a line that is too long, a table
                                of crates that is not crates.txt's, a call in PROMISES that its crate does not have, and
                                a block below a comment `is FILE` that is not that file
       docs/pages.py --heads    prints the sentences of the crates' first comments that stand in a page too

A sentence is looked at without its marks and case. Code between fences, and tables of one word a cell, have none.
"""
import re
import sys
from pathlib import Path

TOP = Path(__file__).resolve().parent.parent
LONGEST = {"README.md": 100, "docs/ARCHITECTURE.md": 120}
WORDS = 10
# Pages that tell what was, and so name crates and files that are no more.
OF_THE_PAST = {"docs/DECISIONS.md", "docs/PROVING.md", "docs/FIGURES.md"}

LINK = re.compile(r"(?<!!)\[[^\]]*\]\(([^()\s]*(?:\([^()\s]*\)[^()\s]*)*)\)")
QUOTED = re.compile(r"`([^`]+)`")
PATH = re.compile(r"^(?:crates|docs|bench|examples|release|\.ci)/[\w./-]+$")
CRATE = re.compile(r"^ds2_\w+$")
IN_CRATE = re.compile(r"^ds2_\w+/[\w./-]+$")


def pages():
    found = [TOP / "README.md"]
    for place in ("docs/*.md", "release/*.md", "examples/*.md", "examples/*/*.md", "crates/*/README.md"):
        found += sorted(TOP.glob(place))
    return found


def name_of(page):
    return str(page.relative_to(TOP))


def outside_fences(text):
    """The lines of a page with their numbers, without code between fences."""
    is_open = False
    for number, line in enumerate(text.splitlines(), 1):
        if line.lstrip().startswith("```"):
            is_open = not is_open
        elif not is_open:
            yield number, line


def anchors(page):
    """The anchors of a page's headings, as they are made where pages are shown."""
    found, counts = set(), {}
    for _, line in outside_fences(page.read_text()):
        match = re.match(r"^#{1,6} +(.*?) *#*$", line)
        if match:
            title = LINK.sub(lambda m: m.group(0)[1 : m.group(0).index("]")], match.group(1)).replace("`", "").lower()
            base = "".join(c for c in title if c.isalnum() or c in " -_").replace(" ", "-")
            count = counts.get(base, 0)
            counts[base] = count + 1
            found.add(base if count == 0 else f"{base}-{count}")
    return found


def text_outside_fences(page):
    """A page with empty lines in the place of code between fences."""
    kept = dict(outside_fences(page.read_text()))
    return "\n".join(kept.get(number, "") for number in range(1, max(kept, default=0) + 1))


def bad_links(page):
    text = re.sub(r"`[^`\n]*\]\([^`\n]*`", lambda m: "`" * len(m.group(0)), text_outside_fences(page))
    for match in LINK.finditer(text):
        target = match.group(1)
        place = f"{name_of(page)}:{text.count(chr(10), 0, match.start()) + 1}"
        if re.match(r"^[a-z]+:", target):
            continue
        path, _, anchor = target.partition("#")
        there = (page.parent / path).resolve() if path else page
        if not there.exists():
            yield f"{place}: {target} is not there"
        elif anchor and (there.suffix != ".md" or anchor not in anchors(there)):
            yield f"{place}: {target} has no such heading"


def bad_names(page, crates):
    """Paths and crates that a page names and that are not there."""
    if name_of(page) in OF_THE_PAST:
        return
    for number, line in outside_fences(page.read_text()):
        for name in QUOTED.findall(line):
            first = name.split(" ")[0].rstrip("/")
            if PATH.match(first) and not re.search(r"\b[A-Z]{4,}\b(?!\.md)", first) and "/out" not in first and not (TOP / first).exists():
                yield f"{name_of(page)}:{number}: there is no {first}"
            elif IN_CRATE.match(first) and not (TOP / "crates" / first).exists():
                yield f"{name_of(page)}:{number}: there is no crates/{first}"
            elif CRATE.match(name) and name not in crates and not is_word_of_code(name):
                yield f"{name_of(page)}:{number}: there is no crate {name}"


def is_word_of_code(name):
    """Whether a function has a name that looks like a crate's."""
    return any(re.search(rf"\bfn {name}\b", path.read_text()) for path in (TOP / "crates" / "ds2_top" / "src").glob("*.rt"))


def sentences(text):
    """The sentences of a page, each with its line: as words without marks and case."""
    part, first = [], 0

    def ended():
        joined = " ".join(part)
        joined = re.sub(r"<!--.*?-->", " ", joined)
        joined = LINK.sub(lambda m: m.group(0)[1 : m.group(0).index("]")], joined)
        for sentence in re.split(r"(?<=[.!?:;])[\s\")']+(?=\S)", joined):
            words = re.findall(r"\w+", sentence.lower())
            if len(words) >= WORDS:
                yield first, " ".join(words)

    for number, line in outside_fences(text):
        stripped = line.strip()
        is_new = not stripped or re.match(r"^([-*+|#>]|\d+[.)]) ?", stripped)
        if is_new and part:
            yield from ended()
            part = []
        if not stripped or stripped.startswith("#"):
            continue
        if stripped.startswith("|"):
            for cell in re.split(r"(?<!\\)\|", stripped):
                part, first = [cell.strip()], number
                yield from ended()
            part = []
            continue
        if not part:
            first = number
        part.append(re.sub(r"^([-*+>]|\d+[.)]) +", "", stripped) if is_new else stripped)
    if part:
        yield from ended()


def said_twice():
    where = {}
    for page in pages():
        for number, sentence in sentences(page.read_text()):
            other = where.setdefault(sentence, (page, number))
            if other[0] != page:
                yield f"{name_of(page)}:{number}: {name_of(other[0])}:{other[1]} says this too: {sentence}"


def long_lines(page):
    most = LONGEST.get(name_of(page))
    for number, line in enumerate(page.read_text().splitlines(), 1) if most else []:
        if len(line) > most:
            yield f"{name_of(page)}:{number}: {len(line)} characters, where {most} may stand"


def bad_blocks(page):
    """Blocks that stand for a file of the repository and have another text."""
    for file, block in re.findall(r"^<!-- is (\S+) -->\n```\n(.*?)^```$", page.read_text(), re.M | re.S):
        there = TOP / file
        if not there.exists() or there.read_text() != block:
            yield f"{name_of(page)}: a block is not {file}"


def crate_names():
    """The crates of crates.txt, in its order."""
    found = []
    for line in (TOP / "crates.txt").read_text().splitlines():
        words = line.split("#")[0].split(":")[0].split()
        found += words[:1]
    return found


def bad_table(crates):
    """Where the tables of ARCHITECTURE have other crates than crates.txt, or another order."""
    rows = re.findall(r"^\| `(ds2\w*)` \|", (TOP / "docs" / "ARCHITECTURE.md").read_text(), re.M)
    yield from (f"docs/ARCHITECTURE.md: the table lacks {crate}" for crate in crates if crate not in rows)
    yield from (f"docs/ARCHITECTURE.md: crates.txt lacks {row}" for row in rows if row not in crates)
    if sorted(rows) == sorted(crates) and rows != crates:
        first = next(row for row, crate in zip(rows, crates) if row != crate)
        yield f"docs/ARCHITECTURE.md: the table is not in the order of crates.txt from {first} on"


def unlisted():
    """Pages of docs/ that the list of pages does not link to."""
    listed = TOP / "docs" / "README.md"
    linked = {target.partition("#")[0] for target in LINK.findall(listed.read_text())} if listed.exists() else set()
    for page in sorted((TOP / "docs").glob("*.md")):
        if page != listed and page.name not in linked:
            yield f"docs/README.md: {page.name} is not in the list"


def bad_calls():
    """Calls that a page names as those of a crate, and that this crate does not have."""
    texts = {}
    for page in (TOP / "README.md", TOP / "docs" / "PROMISES.md"):
        text = " ".join(line for _, line in outside_fences(page.read_text())) if page.exists() else ""
        for calls, crate in re.findall(r"((?:`[^`]+`(?:,? and |, | or )?)+) of `(ds2_\w+)`", text):
            if crate not in texts:
                folder = TOP / "crates" / crate / "src"
                texts[crate] = " ".join(path.read_text() for path in folder.glob("**/*.rt"))
            for call in QUOTED.findall(calls):
                word = re.findall(r"\w+", call)[-1]
                if CRATE.match(word) and word != "ds2_alone":
                    continue
                if word != "laws" and not re.search(rf"\b(?:fn|struct|enum|trait|mod|const) {word}\b|^    {word}\b", texts[crate], re.M):
                    yield f"{name_of(page)}: {crate} has no {call}"


def heads():
    where = {}
    for page in pages():
        for number, sentence in sentences(page.read_text()):
            where.setdefault(sentence, f"{name_of(page)}:{number}")
    for path in sorted((TOP / "crates").glob("*/src/*.rt")):
        comment = "\n".join(line[3:].strip() for line in path.read_text().splitlines() if line.startswith("//!"))
        for _, sentence in sentences(comment):
            if sentence in where:
                print(f"{path.relative_to(TOP)}: {where[sentence]}: {sentence}")


def main():
    if sys.argv[1:] == ["--heads"]:
        heads()
        return
    if sys.argv[1:] != ["--check"]:
        sys.exit(__doc__)
    crates = crate_names()
    found = list(said_twice()) + list(bad_table(crates)) + list(unlisted()) + list(bad_calls())
    for page in pages():
        found += [*bad_links(page), *bad_names(page, crates), *long_lines(page), *bad_blocks(page)]
    if found:
        sys.exit("\n".join(found))


main()
