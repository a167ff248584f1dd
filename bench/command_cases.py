"""The cases of ds2_cases, for the scripts that work their answers out anew."""
import csv
import pathlib
import re

# Of a file as many bytes are read, or a few more; the longest source has fewer.
MOST = 300_000
FOLDER = pathlib.Path(__file__).parent.parent / "crates" / "ds2_cases"
PLAIN = {"\\": b"\\", "n": b"\n", "r": b"\r", "t": b"\t", "s": b" ", "e": b""}


def unescaped(text, turn=1):
    """The bytes that a text stands for at a turn."""

    def byte(match):
        word = match.group(1)
        if word.startswith("x"):
            return bytes.fromhex(word[1:]).decode("latin-1")
        return str(turn) if word == "i" else PLAIN[word].decode()

    return re.sub(r"\\(x[0-9a-f]{2}|.)", byte, text.encode().decode("latin-1")).encode("latin-1")


def piece(word, rest, most=MOST):
    """The bytes that a line on a file's contents stands for, so many or a few more."""
    if word == "|":
        return unescaped(rest) + b"\n"
    if word == "+":
        return unescaped(rest)
    times, text = rest.split(" ", 1)
    if "\\i" in text:
        return b"".join(unescaped(text, turn) for turn in range(1, int(times) + 1))
    once = unescaped(text)
    return once * min(int(times), 1 + most // len(once))


class Given:
    """What holds for the cases that follow: files, and the other lines by their first words."""

    def __init__(self):
        self.files, self.lines, self.tears = {}, {}, []


class Case:
    def __init__(self, title, heading, given):
        self.title, self.heading, self.given, self.files, self.lines = title, heading, given, dict(given.files), {}
        # The answer: the lines of the log, the status, the calls of the store where they are shown, and the log and the files that were made or
        # changed as their bytes.
        self.log, self.status, self.calls, self.answer = [], None, [], {}
        # Of a case that is run for each byte of a file the first and the last byte of each answer, its status, its calls and the answer.
        self.parts = []
        # Its own lines but for those of failing calls, and its tears.
        self.without, self.own_lines, self.own_tears = set(), [], []

    def line(self, word):
        """What the case's own line of this word says, or else the given one; None where neither is."""
        return self.lines.get(word, self.given.lines.get(word))

    def tears(self):
        """What each line on a torn call says, its own ones or else the given ones."""
        return self.own_tears or self.given.tears

    def needs_failure(self):
        """Whether a call of the store or of the log fails."""
        return bool(self.line("fail store") or self.line("fail log") or self.tears())

    def is_damaged(self):
        """Whether the case is run for each byte of a file that is damaged there."""
        return self.line("spoil") is not None or self.line("cut") is not None

    def source(self):
        """The text of the source; None where it is none, or long, or where the command is `demo`, which has its own."""
        text = None if (self.line("words") or "").startswith("demo ") else self.files.get("job.ds2")
        try:
            return text.decode() if text is not None and len(text) < 20_000 else None
        except UnicodeDecodeError:
            return None

    def columns(self, table):
        """The names of the columns of a table."""
        header = self.files.get(table + ".csv", b"").decode("utf-8", "replace")
        records = [line for line in re.split(r"[\r\n]", header) if line]
        cells = next(csv.reader(records[:1]), [])
        return [re.sub(r" (bigint|(decimal|char|varchar)\([0-9,]*\))$", "", c.strip(), flags=re.I).lower() for c in cells]

    def refusal(self):
        """The kind and the place of the source's refusal, as the log tells it."""
        found = [m.group(1) for line in self.log if (m := re.match(r"\| ERROR: Source refused: (\w+ at \d+:\d+)\.$", line))]
        return found[0] if found else None


def read_cases(most=MOST):
    """The cases with their answers; of a text that is repeated so many bytes, or a few more."""
    cases, given, heading, here = [], Given(), "", None
    for line in (FOLDER / "stdin").read_text(encoding="utf-8").splitlines():
        word, _, rest = line.partition(" ")
        block = here or given
        if here and word and word not in ("#", "given", "case", "fail", "tear", "spoil", "cut"):
            here.own_lines.append(line)
        if word == "#":
            heading = rest
        elif word == "given":
            given, here = Given(), None
        elif word == "case":
            here = Case(rest, heading, given)
            cases.append(here)
        elif word == "file":
            last = rest
            block.files[last] = b""
        elif word in ("|", "+", "repeat"):
            block.files[last] += piece(word, rest, most)
        elif word == "without" and here:
            here.files.pop(rest, None)
            here.without.add(rest)
        elif word == "tear":
            (here.own_tears if here else given.tears).append(rest)
        elif word in ("fail", "show"):
            kind, _, rest = rest.partition(" ")
            block.lines[f"{word} {kind}"] = rest
        elif word:
            block.lines[word] = rest
    read_answers(cases, most)
    return cases


def read_answers(cases, most):
    here, part = None, None
    following = iter(cases)
    for line in (FOLDER / "stdout").read_text(encoding="utf-8").splitlines():
        word, _, rest = line.partition(" ")
        if word == "case":
            here = next(following)
            assert here.title == rest, (here.title, rest)
        elif word == "status":
            here.status, here.answer = int(rest), {}
        elif word == "from":
            first, last, here.status = map(int, re.fullmatch(r"(\d+) to (\d+): status (\d+)", rest).groups())
            here.calls, here.answer = [], {}
            here.parts.append((first, last, here.status, here.calls, here.answer))
        elif word == "call":
            here.calls.append(rest)
        elif word in ("log", "file"):
            part = line
            here.answer[part] = b""
        elif word in ("|", "+", "repeat"):
            here.answer[part] += piece(word, rest, most)
            if part == "log":
                here.log.append(line)
        elif line == "is gone":
            here.answer[part] = None
