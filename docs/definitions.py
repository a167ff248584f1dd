#!/usr/bin/env python3
"""The definitions of the crates' specs/: those by which the headline is read as a page, and any by its name.

usage: docs/definitions.py NAME ..    prints definitions: where each stands, its text, what it cites, and who cites it
       docs/definitions.py            writes docs/DEFINITIONS.md, the definitions of CHAIN with their texts
       docs/definitions.py --check    refuses a definition without a sentence, one whose name another file has, one that
                                      the headline cites and CHAIN lacks, one of CHAIN that the headline does not stand
                                      on, and a page that is not what this script writes
"""
import functools
import re
import signal
import sys
from pathlib import Path

TOP = Path(__file__).resolve().parent.parent
LIST = TOP / "docs" / "DEFINITIONS.md"
HEADLINE = ("ds2_top", "ds2")

# The headline's definitions in the order in which they are read: parts with a title, what a reader has to know before, and names.
CHAIN = [
    (
        "What the top call promises",
        "`ds2` and `ds2_alone` take a line of words, a store of files and a log. Their contract is `Headline`, over what is seen before\n"
        "the call and after it. A store or a log that tells nothing of its contents is `None` there.",
        "Headline answer_of_words WhereNoCallFailed Outside Files HoldsFiles LogGains Gained",
    ),
    (
        "What is left at each status",
        "The answer is a plan: steps, and a status at its end. A command has done the whole plan, or the plan up to a call that failed.",
        "Leaves Did IsAnswered LeavesRefusal EndsInRead ReadFailed EndsInWrite WriteFailed Between AtWrite MemoryLog",
    ),
    (
        "The plan of a line of words",
        "What is logged, read, asked for and written, in order. Nothing of it names a worker.",
        "Plan PlanStep steps_of files_behind_all command_line_of plan_of_command",
    ),
    (
        "What a text is read as",
        "Each text has exactly one answer (`laws` of `ds2_source`): its syntax tree, or its first refusal.",
        "SourcesRead IsSourceAnswer IsAnswerForTokens",
    ),
    (
        "From a source to its programs",
        "The tables that a source mentions are read, and over their columns it becomes typed programs or is refused.",
        "source_plan with_text with_tree read_tables with_tables elaborated_source elaborated_parts unit_refusal",
    ),
    (
        "What a command does with programs",
        "`run` asks for its outputs, stores the object and runs the programs one behind the other; each leaves what it means over the tables\n"
        "that are held.",
        "run_programs_of output_then run_of_program meant_over programs_plan program_then end_then",
    ),
    (
        "What a program means",
        "The one-thread meaning of a typed tree: `init`, `run` on each load, `term`. `exec` and `evaluate` follow statements and expressions;\n"
        "no slot, jump or machine is mentioned.",
        "program_answer program_over_loads alone_answer run_each run_all program_units exec evaluate",
    ),
    (
        "The object that is stored",
        "Where a command stores an object, it is valid code, each of its programs means the same as the source's program at its place, and its\n"
        "bytes are decoded to it, by the definition that stands in the next part.",
        "StoresObject StoresObjectOf IsObjectOf BecomesPrograms HaveCodes MeansSame CodeAnswersAs IsValidObject",
    ),
    (
        "The object that is run",
        "`exec` reads a file, decodes it, and runs its code. Nothing here joins a file that is read to a source.",
        "ObjectReading IsDecoding DecodesTo DecodesObject DecodesFile EndsBeforeDecoding EndsInFileRead exec_plan object_plan object_over code_answer",
    ),
    (
        "The job of `demo`",
        "`demo` tells what the run of a source that it has tells over a table that it makes up, without the lines that count instructions.",
        "demo_plan told_of_run demo_end demo_run demo_files lines_without_counts is_count_line sales_table sale_in_row drawn next_drawn",
    ),
    (
        "A runtime fault",
        "A fault is the first one of the meaning, and its program has written nothing.",
        "FaultLeft LeavesFault FirstFault",
    ),
]

ITEM = re.compile(r"^((?:abbrev |unfoldable )?(?:pub )?(?:abbrev |unfoldable )?)(data |record )?([^\s(){}:;,]+)(?= )(.*)$")
IMPORT = re.compile(r"^(?:ghost )?use Rattle\.(\w+)\.specs\.([\w.]+)\.(?:\{([^}]*)\}|([^\s.{};]+))(?: as (\S+))?;?$")
PASSED_ON = re.compile(r"^pub use Rattle\.(\w+)\.specs\.(\w+)(?: as (\w+))?$", re.M)
TOKEN = re.compile(r"[^\s(){}\[\];,.]+")


class Definition:
    def __init__(self, crate, path, line, name, sentence):
        self.crate, self.path, self.line, self.name, self.sentence = crate, path, line, name, sentence
        self.text = []
        self.cited = []

    def block(self):
        """Its text as it stands with the comment above, up to the next empty line, from the first column on."""
        lines = self.path.read_text().splitlines()
        first = last = self.line - 1
        while first > 0 and lines[first - 1].strip().startswith("--"):
            first -= 1
        while last + 1 < len(lines) and lines[last + 1].strip():
            last += 1
        margin = len(lines[first]) - len(lines[first].lstrip())
        return "\n".join(line[margin:] for line in lines[first : last + 1])

    def where(self):
        return f"{self.path.relative_to(TOP)}:{self.line}"


class File:
    """A file of specs/: its first comment, its definitions, and the names that it imports."""

    def __init__(self, crate, path):
        self.crate, self.path = crate, path
        self.title, self.definitions, self.imports = None, [], {}
        self.read()

    def read(self):
        comment, depth, block_comment, current = [], 0, [], None
        for number, line in enumerate(self.path.read_text().splitlines(), 1):
            text = line.strip()
            indent = len(line) - len(line.lstrip())
            if text and indent < depth and not text.startswith("--"):
                depth = indent
            if text.startswith("--"):
                if comment is None or current is not None and indent > depth:
                    continue
                comment.append(text[2:].strip())
                continue
            if not text:
                comment = self.end_of_comment(comment)
                continue
            if indent == 0 and text.startswith(("use ", "open ", "infix", "ruleset ")):
                self.end_of_comment(comment)
                comment = []
                imports(text, self.imports)
                continue
            if indent == depth and re.match(r"^(?:abbrev |unfoldable |pub )*mutual$", text):
                depth, block_comment, current, comment = indent + 2, comment, None, []
                continue
            if indent == 0 and text.startswith("module "):
                depth, block_comment, current, comment = 2, [], None, []
                continue
            match = ITEM.match(text) if indent == depth else None
            if match and is_head(match):
                sentence = " ".join(comment or block_comment)
                block_comment = []
                current = Definition(self.crate, self.path, number, match.group(3), sentence)
                self.definitions.append(current)
            if current is not None:
                current.text.append(text)
            comment = []

    def end_of_comment(self, comment):
        if comment and self.title is None and not self.definitions:
            self.title = " ".join(comment)
        return []


def is_head(match):
    """Whether a line begins a definition: it names a type, or gives a name its type, and no lemma of the file's own."""
    words, kind, name, rest = match.groups()
    if name in ("mod", "use", "ruleset") or not (words or kind):
        return False
    return bool(kind) or rest.startswith(" : ") or (rest.startswith(" {") and " : " in rest and "=" not in rest.split(" : ")[0])


def imports(text, found):
    """Adds the names of a line `use Rattle.CRATE.specs.FILE.{..}`: each with its crate, file and name."""
    match = IMPORT.match(text)
    if not match or match.group(2).split(".")[0] == "declared":
        return
    crate, file, many, one, alias = match.groups()
    for part in (many or one).split(","):
        words = part.split()
        if not words:
            continue
        local = words[2] if len(words) == 3 and words[1] == "as" else (alias or words[0])
        crate, file = passed_on().get((crate, file), (crate, file))
        found[local.strip("◌")] = (crate, file, words[0])


@functools.cache
def passed_on():
    """Files of specs/ that a crate passes on, by a line `pub use Rattle.LOW.specs.FILE` of its Lib.antt: by crate and file, whose they are."""
    found = {}
    for crate in crates():
        library = TOP / "crates" / crate / "specs" / "Lib.antt"
        for low, file, alias in re.findall(PASSED_ON, library.read_text()) if library.exists() else []:
            found[crate, alias or file] = (low, file)
    owner = lambda place: owner(found[place]) if place in found else place
    return {place: owner(place) for place in found}


def crates():
    """The crates, lowest first."""
    for line in (TOP / "crates.txt").read_text().splitlines():
        words = line.split("#")[0].split(":")[0].split()
        if words:
            yield words[0]


def in_reading_order(crate, folder):
    """The files of specs/ in the order of its Lib.antt, each behind those that it uses."""
    paths = {path.stem: path for path in sorted(folder.glob("*.antt")) if path.stem != "Lib"}
    library = folder / "Lib.antt"
    listed = re.findall(r"^pub mod (\w+)", library.read_text(), re.M) if library.exists() else []
    names = [name for name in listed if name in paths] + [name for name in paths if name not in listed]
    uses = {name: re.findall(rf"^use Rattle\.{crate}\.specs\.(\w+)", paths[name].read_text(), re.M) for name in names}
    seen, found = set(), []

    def visit(name):
        if name not in seen:
            seen.add(name)
            for other in names:
                if other in uses[name]:
                    visit(other)
            found.append(paths[name])

    for name in names:
        visit(name)
    return found


def files():
    for crate in crates():
        folder = TOP / "crates" / crate / "specs"
        if folder.is_dir():
            for path in in_reading_order(crate, folder):
                yield File(crate, path)


def resolve(all_files):
    """Ties each definition to those that its text cites."""
    by_name = {(f.crate, f.path.stem, d.name): d for f in all_files for d in f.definitions}
    for file in all_files:
        own = {d.name.strip("◌"): d for d in file.definitions}
        for definition in file.definitions:
            for token in TOKEN.findall(" ".join(definition.text)):
                token = ">>=" if token == "←" else token
                other = own.get(token) or by_name.get(file.imports.get(token))
                if other is not None and other is not definition and other not in definition.cited:
                    definition.cited.append(other)
    return by_name


def headline(by_name):
    """The definitions that the clauses of the top call cite, in their order."""
    crate, function = HEADLINE
    for path in sorted((TOP / "crates" / crate / "src").glob("*.rt")):
        text = path.read_text()
        match = re.search(rf"^pub fn {function}\b(.*?)^\{{$", text, re.M | re.S)
        if match is None:
            continue
        names = {}
        for line in text.splitlines():
            imports(line.strip(), names)
        clauses = re.findall(r"^\s*(?:requires|ensures)\b.*?(?=^\s*(?:requires|ensures|//)|\Z)", match.group(1), re.M | re.S)
        cited = []
        for token in TOKEN.findall(" ".join(clauses)):
            definition = by_name.get(names.get(token))
            if definition is not None and definition not in cited:
                cited.append(definition)
        return cited
    sys.exit(f"docs/definitions.py: no function {function} in {crate}")


def below(cited):
    """What these definitions stand on, themselves included."""
    found, left = set(cited), list(cited)
    while left:
        for other in left.pop().cited:
            if other not in found:
                found.add(other)
                left.append(other)
    return found


def chain(by_name):
    """The parts of CHAIN, each with its definitions."""
    named = {}
    for (_, _, name), definition in by_name.items():
        named.setdefault(name, definition)
    for title, before, names in CHAIN:
        missing = [name for name in names.split() if name not in named]
        if missing:
            sys.exit(f"docs/definitions.py: no definition has the name {', '.join(missing)} of CHAIN")
        yield title, before, [named[name] for name in names.split()]


def written(by_name):
    parts = list(chain(by_name))
    count = sum(len(definitions) for _, _, definitions in parts)
    out = [
        "# Definitions",
        "",
        f"The {count} definitions by which the headline is read, in reading order, as they stand in the crates' `specs/`.",
        "[ARCHITECTURE](ARCHITECTURE.md#how-the-headline-is-put-together) tells how they hang together, and",
        "`docs/definitions.py NAME` prints any definition with what it cites and who cites it. This page is written",
        "by `docs/definitions.py`.",
    ]
    for title, before, definitions in parts:
        out += ["", f"## {title}", "", before]
        for definition in definitions:
            out += ["", f"### {definition.name}", "", f"`{definition.path.relative_to(TOP)}`", "", "```", definition.block(), "```"]
    return "\n".join(out) + "\n"


def faults(all_files, by_name):
    found, seen = [], {}
    for definition in (d for f in all_files for d in f.definitions):
        if not definition.sentence:
            found.append(f"{definition.where()}: `{definition.name}` has no sentence above it")
        other = seen.setdefault(definition.name, definition)
        if other.path != definition.path:
            found.append(f"{definition.where()}: the name `{definition.name}` is taken by {other.where()}")
    shown = [d for _, _, definitions in chain(by_name) for d in definitions]
    clauses = headline(by_name)
    reached = below(clauses)
    found += [f"{d.where()}: the headline does not stand on `{d.name}` of CHAIN" for d in shown if d not in reached]
    found += [f"{d.where()}: the headline's contract cites `{d.name}`, which CHAIN lacks" for d in clauses if d not in shown]
    return found


def contracts(definition):
    """The functions whose contracts name a definition, each with its place."""
    name = re.escape(definition.name)
    for path in sorted((TOP / "crates").glob("*/src/**/*.rt")):
        text = path.read_text()
        if not re.search(rf"use Rattle\.[^;]*[{{., ]{name}[}},; ]", text):
            continue
        for match in re.finditer(r"^ *(?:pub(?:\([a-z]+\))? )?(?:const )?fn (\w+).*?(?=^ *\{$|\{\}$|;$)", text, re.M | re.S):
            if re.search(rf"(?<![\w_]){name}(?![\w_])", match.group(0)):
                yield f"{path.relative_to(TOP)}:{text.count(chr(10), 0, match.start()) + 1}: {match.group(1)}"


def listed(title, definitions):
    if definitions:
        print(f"\n{title}")
        for d in definitions:
            print(f"  {d.name} ({d.where()}): {d.sentence}")


def show(name, all_files):
    found = [d for f in all_files for d in f.definitions if d.name.strip("◌") == name.strip("◌")]
    if not found:
        sys.exit(f"docs/definitions.py: no definition has the name {name}")
    for definition in found:
        print(f"{definition.where()}\n\n{definition.block()}")
        listed("cites", definition.cited)
        listed("is cited by", [d for f in all_files for d in f.definitions if definition in d.cited])
        places = list(contracts(definition))
        if places:
            print("\nstands in the contracts of")
            print("\n".join(f"  {place}" for place in places))
        print()


def main():
    words = sys.argv[1:]
    if any(word.startswith("-") and word != "--check" for word in words) or "--check" in words and len(words) > 1:
        sys.exit(__doc__)
    all_files = list(files())
    by_name = resolve(all_files)
    if words and words != ["--check"]:
        # A reader that has seen enough, as `head`, ends this program.
        signal.signal(signal.SIGPIPE, signal.SIG_DFL)
        for name in words:
            show(name, all_files)
        return
    text = written(by_name)
    if not words:
        LIST.write_text(text)
        return
    found = faults(all_files, by_name)
    if not LIST.exists() or LIST.read_text() != text:
        found.append("docs/DEFINITIONS.md is not what docs/definitions.py writes")
    if found:
        sys.exit("\n".join(found))


main()
