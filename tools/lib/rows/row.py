"""A row: the words of a call, the files before it, and what it prints, writes and returns."""

import hashlib
from dataclasses import dataclass, field

FOLDER = "a folder"
NOBODY = "nobody"


@dataclass(frozen=True)
class Link:
    """A name that leads to another."""

    to: str


@dataclass(frozen=True)
class Twin:
    """A second name of another file of the folder (a hard link)."""

    of: str


@dataclass(frozen=True)
class Sized:
    """An output by its number of bytes and its SHA-256."""

    length: int
    sha256: str

    @staticmethod
    def of(content):
        return Sized(len(content), hashlib.sha256(content).hexdigest())

    def is_met(self, content):
        return Sized.of(content) == self

    def __str__(self):
        return f"{self.length} bytes, SHA-256 {self.sha256}"


@dataclass(frozen=True)
class Begins:
    """A file that begins with these bytes."""

    content: bytes

    def is_met(self, content):
        return content.startswith(self.content)

    def __str__(self):
        return f"bytes that begin with {self.content!r}"


@dataclass(frozen=True)
class Holds:
    """A file that contains these bytes."""

    content: bytes

    def is_met(self, content):
        return self.content in content

    def __str__(self):
        return f"bytes that contain {self.content!r}"


@dataclass(frozen=True)
class Once:
    """A file that contains each of these texts once, and none of the others."""

    texts: list
    none_of: list = field(default_factory=list)

    def unmet_in(self, content):
        """The part of this that a file does not meet."""
        return Once([text for text in self.texts if content.count(text) != 1], [text for text in self.none_of if text in content])

    def is_met(self, content):
        return self.unmet_in(content) == Once([])

    def __str__(self):
        return f"bytes that contain each of {self.texts} once, and none of {self.none_of}"


@dataclass(frozen=True)
class Has:
    """A file that has these bytes at a place, counted from 0."""

    at: int
    content: bytes

    def is_met(self, content):
        return content[self.at : self.at + len(self.content)] == self.content

    def __str__(self):
        return f"bytes that are {self.content.hex()} from byte {self.at} on"


@dataclass
class Row:
    """One call of a program, in a new folder that has the files of `before`.

    A file is its bytes, FOLDER, a Link to a name or the Twin of a name before it; after the call also Sized, Begins, Holds, Once
    or Has. `after` has the files that the call makes or changes; all others stay as they are, and no further ones come. A name
    with `*` there is that of the one new file that matches, and None means that a file is gone.
    `first` are calls before, which end with status 0. `prints_to` is a device in the place of standard output, or NOBODY for a
    pipe that nobody reads. `reads` is standard input. `forbidden` are files of `before` that the system lets nobody open; the
    call is then of a user without rights. `most_memory` is the address space in bytes, and `longest_file` the longest file that
    the call may write: a longer one is an error of its write, or ends the call where `is_killed`. 0 is no limit.
    An `is_slow` row needs the speed or the memory of a program that was built with its proofs. `place` is the row's file and line.
    """

    title: str
    words: list
    before: dict = field(default_factory=dict)
    status: int = 0
    output: object = b""
    error: object = b""
    after: dict = field(default_factory=dict)
    first: list = field(default_factory=list)
    prints_to: str = ""
    reads: bytes = b""
    forbidden: list = field(default_factory=list)
    most_memory: int = 0
    longest_file: int = 0
    is_killed: bool = False
    needs_root: bool = False
    is_slow: bool = False
    place: str = field(default="", compare=False)

    def commands(self):
        """The calls as program and command: `flight_tools check`."""
        calls = [self.words, *self.first]
        return {" ".join(str(word) for word in call[:2]) for call in calls}
