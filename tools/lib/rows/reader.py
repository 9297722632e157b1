"""Reads files of rows. A line that has no meaning, or stands in a wrong place, is refused by its file and number."""

import glob
import os
import re
from dataclasses import dataclass, field

from rows.contents import ContentError, content_of, is_content
from rows.row import FOLDER, Begins, Has, Holds, Link, Once, Row, Sized, Twin
from rows.words import split, take_word

TOP = os.path.dirname(os.path.dirname(os.path.dirname(os.path.dirname(os.path.abspath(__file__)))))
SHARED = "rows/shared.rows"
# The place in a row of each statement, by its first word: later ones do not stand before earlier ones.
STAGES = {"$": 1, **dict.fromkeys("file folder link twin forbid first input print memory longest killed root slow".split(), 2)}
STAGES |= {"status": 3, "output": 4, "error": 5, "after": 6, "gone": 6, "never": 6}
ONCE_IN_A_ROW = ("$", "input", "print", "memory", "longest", "killed", "root", "slow", "status", "output", "error")


class RowsError(Exception):
    """A fault of a file of rows: its sentence begins with the file and the line."""


@dataclass
class Statement:
    """A line with a keyword, with the lines of its content and their places. Places count from 0."""

    begin: int
    keyword: str
    rest: str
    content: list = field(default_factory=list)

    @property
    def end(self):
        """The place after its last line."""
        return self.content[-1][0] + 1 if self.content else self.begin + 1


@dataclass
class Entry:
    """A row of a file, with its statements by their first words, those of files after the call by `after NAME`."""

    row: Row
    statements: dict = field(default_factory=dict)

    def statement_of(self, key):
        """The statement of a result, or None."""
        return self.statements.get(key) or self.statements.get(key.replace("after", "gone", 1))

    def end_of_parts(self):
        """The place after the call and its files, where its results begin."""
        return max(it.end for it in self.statements.values() if STAGES.get(it.keyword, 0) <= STAGES["file"])


@dataclass
class RowsFile:
    """A file of rows: its path below the repository, its lines, its rows, its contents by their names, and the names that it uses."""

    path: str
    lines: list
    entries: list = field(default_factory=list)
    contents: dict = field(default_factory=dict)
    used: set = field(default_factory=set)

    def row(self, title):
        return next(entry.row for entry in self.entries if entry.row.title == title)


def statements_of(path, lines):
    """The statements of a file; blank lines and those that begin with `#` have no meaning."""
    found = []
    for place, line in enumerate(lines):
        if not line or line.startswith("#"):
            continue
        if not is_content(line):
            keyword, _, rest = line.partition(" ")
            found.append(Statement(place, keyword, rest))
        elif found:
            found[-1].content.append((place, line))
        else:
            raise RowsError(f"{path}:{place + 1}: a content follows the statement that it belongs to")
    return found


class Reader:
    """Reads one file. `shared` are the contents that every file may name, and `top` is the repository."""

    def __init__(self, path, text, shared, top=TOP):
        lines = text.split("\n")
        if lines.pop():
            raise RowsError(f"{path}:{len(lines) + 1}: the file ends without a newline")
        self.file, self.shared, self.top, self.stage, self.files = RowsFile(path, lines), shared, top, 1, {}

    def read(self):
        for statement in statements_of(self.file.path, self.file.lines):
            try:
                self.take(statement)
            except (ValueError, OSError) as error:
                raise RowsError(f"{self.file.path}:{statement.begin + 1}: {error}") from None
            except ContentError as error:
                place, why = error.args
                raise RowsError(f"{self.file.path}:{place + 1}: {why}") from None
        self.end_row()
        return self.file

    def take(self, statement):
        if statement.keyword == "content":
            self.read_content(statement)
        elif statement.keyword == "==":
            self.begin_row(statement)
        elif statement.keyword not in STAGES:
            raise ValueError(f"`{statement.keyword}` begins no statement")
        elif not self.file.entries:
            raise ValueError(f"`{statement.keyword}` belongs to a row: begin it with `== TITLE`")
        else:
            self.read_part(statement)

    # ---- the frame

    def read_content(self, statement):
        if self.file.entries:
            raise ValueError("a content with a name stands before all rows")
        if not re.fullmatch(r"[A-Z][A-Z0-9_]*", statement.rest):
            raise ValueError("write `content NAME` in capitals")
        if statement.rest in self.file.contents or statement.rest in self.shared:
            raise ValueError(f"there is a content {statement.rest} already")
        self.file.contents[statement.rest] = self.content(statement)

    def begin_row(self, statement):
        self.end_row()
        if not statement.rest.strip() or statement.content:
            raise ValueError("write `== TITLE`, with a title and nothing else")
        row = Row(statement.rest, [], place=f"{self.file.path}:{statement.begin + 1}")
        self.file.entries.append(Entry(row, {"==": statement}))
        self.stage = 0

    def end_row(self):
        """A row has its call."""
        if self.stage == 0:
            raise RowsError(f"{self.file.entries[-1].row.place}: this row has no call: write `$ WORDS`")

    def read_part(self, statement):
        entry, keyword = self.file.entries[-1], statement.keyword
        if (STAGES[keyword] == 1) != (self.stage == 0) or STAGES[keyword] < self.stage:
            raise ValueError(f"`{keyword}` stands in a wrong place: the order is call, files, status, output, error, files after")
        key = f"{keyword} {self.names(statement.rest)[0][0]}" if STAGES[keyword] == 6 else keyword
        if key in entry.statements and (keyword in ONCE_IN_A_ROW or STAGES[keyword] == 6):
            raise ValueError(f"`{key}` stands twice in this row")
        self.stage = STAGES[keyword]
        getattr(self, f"read_{'call' if keyword == '$' else keyword}")(entry.row, statement)
        entry.statements[key] = statement

    # ---- contents

    def named(self, name):
        """The content of a name: of this file or of the shared one, or that of a file of the repository."""
        if "/" in name:
            with open(f"{self.top}/{name}", "rb") as file:
                return file.read()
        if name not in self.file.contents and name not in self.shared:
            raise ValueError(f"there is no content {name}")
        self.file.used.add(name)
        return self.file.contents.get(name) or self.shared[name]

    def content(self, statement):
        if not statement.content:
            raise ValueError("the content is missing: write `empty`, or its lines below")
        return content_of(statement.content, self.named)

    def content_at(self, statement, rest):
        """A content that follows, that `= NAME` at the end of the statement names, or that is `empty`."""
        if rest.startswith("= ") and not statement.content:
            return self.named(rest[2:])
        if rest == "empty" and not statement.content:
            return b""
        if rest:
            raise ValueError(f"`{rest}` has no meaning here: write `= NAME`, `empty`, or nothing and the content below")
        return self.content(statement)

    def names(self, rest):
        """The file names at the begin of a statement, and what follows them."""
        names, at = take_word(rest)
        if not all(isinstance(name, str) and name and "/" not in name for name in names):
            raise ValueError("write the name of a file in the row's folder")
        return names, rest[at:].strip(" ")

    def name(self, rest):
        names, more = self.names(rest)
        if len(names) > 1 or more:
            raise ValueError("write one name and nothing after it")
        return names[0]

    def alone(self, statement):
        if statement.content:
            raise ValueError(f"`{statement.keyword}` takes no content")

    # ---- the call and what stands before it

    def read_call(self, row, statement):
        self.alone(statement)
        row.words = split(statement.rest)
        if not row.words:
            raise ValueError("write `$ WORDS`")

    def read_first(self, row, statement):
        self.alone(statement)
        if not statement.rest.startswith("$ "):
            raise ValueError("write `first $ WORDS`")
        row.first = [*row.first, split(statement.rest[2:])]

    def add(self, row, name, file):
        if name in row.before:
            raise ValueError(f"the file {name} stands twice")
        row.before[name] = file
        self.files[row.title, name] = file

    def read_file(self, row, statement):
        names, rest = self.names(statement.rest)
        if rest.startswith("as in ") and not statement.content:
            if (rest[6:], names[0]) not in self.files:
                raise ValueError(f"no row before this one is called `{rest[6:]}` and has a file {names[0]}")
            content = self.files[rest[6:], names[0]]
        else:
            content = self.content_at(statement, rest)
        for name in names:
            self.add(row, name, content)

    def read_folder(self, row, statement):
        self.alone(statement)
        self.add(row, self.name(statement.rest), FOLDER)

    def pair(self, statement, between):
        self.alone(statement)
        words = split(statement.rest)
        if len(words) != 3 or words[1] != between:
            raise ValueError(f"write `{statement.keyword} NAME {between} NAME`")
        return words[0], words[2]

    def read_link(self, row, statement):
        name, to = self.pair(statement, "to")
        self.add(row, name, Link(to))

    def read_twin(self, row, statement):
        name, of = self.pair(statement, "of")
        self.add(row, name, Twin(of))

    def read_forbid(self, row, statement):
        self.alone(statement)
        row.forbidden = [*row.forbidden, self.name(statement.rest)]
        if row.forbidden[-1] not in row.before:
            raise ValueError(f"there is no file {row.forbidden[-1]} before")

    def read_input(self, row, statement):
        row.reads = self.content_at(statement, statement.rest)

    def read_print(self, row, statement):
        self.alone(statement)
        if not re.fullmatch(r"to (nobody|/dev/\w+)", statement.rest):
            raise ValueError("write `print to /dev/full` or `print to nobody`")
        row.prints_to = statement.rest[3:]

    def number(self, statement, pattern):
        self.alone(statement)
        found = re.fullmatch(pattern, statement.rest)
        if not found:
            raise ValueError(f"`{statement.keyword}` takes a number")
        return int(found[1])

    def read_memory(self, row, statement):
        row.most_memory = self.number(statement, r"(\d+) bytes")

    def read_longest(self, row, statement):
        row.longest_file = self.number(statement, r"file (\d+) bytes")

    def read_killed(self, row, statement):
        self.flag(statement)
        row.is_killed = True

    def read_root(self, row, statement):
        self.flag(statement)
        row.needs_root = True

    def read_slow(self, row, statement):
        self.flag(statement)
        row.is_slow = True

    def flag(self, statement):
        self.alone(statement)
        if statement.rest:
            raise ValueError(f"`{statement.keyword}` stands alone")

    # ---- what comes

    def read_status(self, row, statement):
        row.status = self.number(statement, r"(-?\d+)")

    def result(self, statement, rest):
        """What is expected of an output or a file."""
        kind, _, more = rest.partition(" ")
        if kind == "sized":
            self.alone(statement)
            found = re.fullmatch(r"(\d+) bytes ([0-9a-f]{64})", more)
            if not found:
                raise ValueError("write `sized N bytes SHA-256`")
            return Sized(int(found[1]), found[2])
        if kind == "begins":
            return Begins(self.content_at(statement, more))
        if kind == "holds":
            return Holds(self.content_at(statement, more))
        if kind == "has" and re.fullmatch(r"at \d+", more):
            return Has(int(more[3:]), self.content(statement))
        if rest == "once":
            return Once(self.texts(statement))
        return self.content_at(statement, rest)

    def texts(self, statement):
        """The texts of a content, a line each, without its newline."""
        return [content_of([line], self.named).removesuffix(b"\n") for line in statement.content]

    def read_output(self, row, statement):
        row.output = self.result(statement, statement.rest)

    def read_error(self, row, statement):
        row.error = self.result(statement, statement.rest)

    def read_after(self, row, statement):
        (name,), rest = self.names(statement.rest)
        row.after[name] = self.result(statement, rest)

    def read_never(self, row, statement):
        """Texts that do not stand in a file of which others stand once."""
        name = self.name(statement.rest)
        if not isinstance(row.after.get(name), Once):
            raise ValueError(f"write `after {name} once` before it")
        row.after[name] = Once(row.after[name].texts, self.texts(statement))

    def read_gone(self, row, statement):
        self.alone(statement)
        row.after[self.name(statement.rest)] = None


def read_file(path, shared, top=TOP):
    """Reads a file of rows by its path below the repository, or by a path that begins with `/`."""
    with open(os.path.join(top, path), encoding="utf-8", newline="") as file:
        return Reader(path, file.read(), shared, top).read()


def shared_contents(top=TOP):
    """The contents that every file of rows may name."""
    return read_file(SHARED, {}, top).contents


def read_files(top=TOP, folder="rows"):
    """All files of rows of a folder, in the order of their paths. No title stands in two of them."""
    paths = sorted(glob.glob(f"{os.path.join(top, folder)}/**/*.rows", recursive=True))
    names = [it if folder.startswith("/") else os.path.relpath(it, top) for it in paths]
    shared = shared_contents(top)
    files = [read_file(name, shared, top) for name in names if name != SHARED]
    refuse_second_titles(files)
    for file in files:
        for name in sorted({*file.contents} - file.used):
            raise RowsError(f"{file.path}:1: no row of this file uses its content {name}")
    return files


def refuse_second_titles(files):
    places = {}
    for row in all_rows(files):
        if row.title in places:
            raise RowsError(f"{row.place}: the title of this row stands at {places[row.title]}, too")
        places[row.title] = row.place


def all_rows(files):
    return [entry.row for file in files for entry in file.entries]
