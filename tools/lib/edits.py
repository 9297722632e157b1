"""What an edit is: a wrong body in the place of a right one, which the check of its crate must refuse. `crates/NAME/edits.txt` has those of a
crate, one after the other with an empty line between them, and lines of comment that begin with `#`:

    edit: NAME                       what the wrong body does, as `a_count_too_large`
    tried-by: gate                   only where the gate tries it, too
    file: src/FILE.rt
    old: TEXT                        a part of one line, which stands in that file once
    new: TEXT                        what stands there instead; further pairs of `old:` and `new:` may follow, and another `file:`
    refused-by: FUNCTION CLAUSE      the function that the check must refuse, and the clause that must refuse it

FUNCTION is the module and the name, as `scanner::take`. CLAUSE is one of

    ensures LABEL     a labelled clause of the function (`ensures` alone where the function has no other)
    requires CALL     what a function that it calls asks for
    loop NAME         the invariant of a loop
    error NAME        the compiler, by this error, as `error linear-value-let-go` where a value may not be let go
    GOAL              any other goal, by the checker's name for it (an overflow, an index, an invariant of a type)

A crate of laws or of examples has no body to edit: its edit makes an example false, FUNCTION is then the file of proofs, as
`proofs::Examples`, and CLAUSE `example NAME`.
"""
import os
import re

from repository import ROOT

FUNCTION = re.compile(r'\s*(?:pub(?:\([a-z]+\))?\s+)?(?:const\s+)?(?:unsafe\s+)?(?:extern\s+"C"\s+)?fn\s+([a-z_0-9]+)')
NAME = re.compile(r"[a-z0-9_]+")
BY_GATE = "gate"


class Bad(Exception):
    """An edit that can't be read or applied."""


def module_of(path):
    """The module of a file of src/, as `texts::host`; nothing for the root file."""
    inner = path.removeprefix("src/").removesuffix(".rt").replace("/", "::")
    return "" if inner in ("lib", "main") else inner


def head_above(lines, line):
    """The line (from 0) with the head of the function in which a line of a source stands, or None outside all functions."""
    inside = max(len(lines[line]) - len(lines[line].lstrip()), 1)
    for number in range(line, -1, -1):
        if FUNCTION.match(lines[number]) and (number == line or len(lines[number]) - len(lines[number].lstrip()) < inside):
            return number
    return None


def function_at(path, text, line):
    """The function in which a line (from 0) of a source stands, with its module, or None outside all functions."""
    if not path.startswith("src/"):
        return None
    lines = text.split("\n")
    head = head_above(lines, line)
    return None if head is None else "::".join(filter(None, (module_of(path), FUNCTION.match(lines[head])[1])))


class Edit:
    """One edit of a crate. It is read line by line; `line` is the one with its name."""

    def __init__(self, crate, name, line):
        self.crate, self.name, self.line = crate, name, line
        self.is_tried_by_gate, self.pairs, self.refused_by = False, [], None
        self.file = self.old = None

    def take(self, word, text):
        """Takes a line: its word and what stands after it."""
        if word == "tried-by" and text.strip() == BY_GATE:
            self.is_tried_by_gate = True
        elif word == "file":
            self.file = text.strip()
        elif word == "old":
            self.old = text
        elif word == "new":
            self.take_new(text)
        elif word == "refused-by":
            if self.refused_by:
                raise Bad("it has two lines 'refused-by:'")
            function, _, clause = text.strip().partition(" ")
            self.refused_by = (function, clause)
        else:
            raise Bad("an edit has no such line")

    def take_new(self, text):
        if self.file is None or self.old is None:
            raise Bad("no 'file:' and 'old:' stand before this 'new:'")
        if text == self.old:
            raise Bad("this 'new:' text is the old one")
        self.pairs.append((self.file, self.old, text))
        self.old = None

    def place(self):
        """Where it stands, for a message."""
        return f"crates/{self.crate}/edits.txt:{self.line}: {self.name}"

    def applied(self, texts):
        """The texts of the files that it changes, changed, over those given (by path, or else read from the crate's folder)."""
        made = {}
        for path, old, new in self.pairs:
            text = made.get(path, texts(path))
            if text.count(old) != 1:
                raise Bad(f"an 'old:' text stands in {path} {text.count(old)} times, and not once")
            made[path] = text.replace(old, new)
        return made

    def places(self, texts):
        """Where it changes a text: by pair the file, its text and the line (from 0)."""
        for path, old, _ in self.pairs:
            text = texts(path)
            yield path, text, text[: text.find(old)].count("\n")

    def functions(self, texts):
        """The functions that it changes; None among them for what stands outside all functions."""
        return {function_at(*place) for place in self.places(texts)}


def read_edits(crate, path, shown):
    """The edits in a file, and a sentence for each line that is wrong, which names the file as `shown`."""
    edits, faults, names = [], [], set()
    with open(path, encoding="utf-8") as file:
        lines = file.read().split("\n")
    for number, line in enumerate(lines, 1):
        word, colon, text = line.partition(":")
        text = text.removeprefix(" ")
        try:
            if not line.strip() or line.startswith("#"):
                continue
            if colon and word == "edit":
                edits.append(Edit(crate, text.strip(), number))
                if not NAME.fullmatch(text.strip()) or text.strip() in names:
                    raise Bad(f"an edit's name is of small letters, digits and _, and stands once, unlike '{text.strip()}'")
                names.add(text.strip())
            elif not edits or not colon:
                raise Bad("this is no line of an edit")
            else:
                edits[-1].take(word, text)
        except Bad as fault:
            faults.append(f"{shown}:{number}: {fault}: {line.strip()}")
    faults += [f"{shown}:{it.line}: {it.name} has no pair of 'old:' and 'new:'" for it in edits if not it.pairs]
    return edits, faults


def edits_of(crate, root=ROOT):
    """The edits of a crate; none if it has no file of them. A wrong line raises Bad."""
    path = f"crates/{crate}/edits.txt"
    if not os.path.isfile(f"{root}/{path}"):
        return []
    edits, faults = read_edits(crate, f"{root}/{path}", path)
    if faults:
        raise Bad("\n".join(faults))
    return edits
