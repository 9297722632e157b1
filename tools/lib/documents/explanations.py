"""What `flight_tools check --explain` prints: the entries of crates/check_command/explanations.txt, as constants of that crate. Beside it,
what an editor shows of the language's words (documents/keywords.py)."""

import os
from dataclasses import dataclass

from documents import keywords

DATA = "crates/check_command/explanations.txt"
FOLDER = "crates/check_command/src"
SOURCE = f"{FOLDER}/explanations.rt"
DOCUMENT = "docs/RULES.md"
KINDS = ("error", "warning")
NEEDED = ("of", "meaning")
ALLOWED = (*NEEDED, "at", "more")
HEAD = """//! The errors and warnings that `check --explain` explains. Written by tools/dev/write_explanations from explanations.txt.

USES
/// An error or a warning.
pub struct Explanation {
    /// The number of an error, or the name of an error or a warning.
    pub name: &'static str,
    /// What it is, where it comes from, and what it means: one line, without its end.
    pub head: &'static str,
    /// Further sentences, what the message marks, and examples with the sentence of the message: lines, each with its end.
    pub rest: &'static str,
    /// What to say to someone who wrote a name near this one; empty for a number.
    pub advice: &'static str,
}

"""
HEAD_OF_PARTS = """//! Parts of what `check --explain` explains. Written by tools/dev/write_explanations from explanations.txt.

use crate::explanations::Explanation;
"""
# The most bytes of a part's source, and the most parts of a file.
MOST_BYTES = 3_000
PARTS_OF_A_FILE = 4


@dataclass(frozen=True)
class Example:
    """A text in backticks, or words for one; the message's sentence; and the place of the error, in bytes before it, if it is stated."""

    text: str
    prints: str
    place: int | None


@dataclass(frozen=True)
class Entry:
    """An error or a warning, by the lines of its entry."""

    kind: str
    name: str
    of: str
    at: str
    meaning: str
    more: str
    examples: tuple


def example_of(lines):
    """The example of the lines `example`, `place` and `prints`."""
    keys = dict(lines)
    if len(keys) != len(lines) or not {"example", "prints"} <= keys.keys() <= {"example", "place", "prints"}:
        raise ValueError(f"an example has `example` and `prints`, once each, and may have `place`: {lines}")
    return Example(keys["example"], keys["prints"], int(keys["place"]) if "place" in keys else None)


def entry_of(block):
    """The entry of a block of lines."""
    head, *rest = block.splitlines()
    kind, _, name = head.partition(" ")
    lines = [(key, value.strip()) for key, _, value in (line.partition(":") for line in rest)]
    begins = [place for place, (key, _) in enumerate(lines) if key == "example"] + [len(lines)]
    fields = dict(lines[: begins[0]])
    if kind not in KINDS or not name or len(fields) != begins[0]:
        raise ValueError(f"not the begin of an entry: {head}")
    if not set(NEEDED) <= fields.keys() <= set(ALLOWED) or not all(fields.values()):
        raise ValueError(f"{head}: its lines are {', '.join(fields)}")
    examples = tuple(example_of(lines[begin:end]) for begin, end in zip(begins, begins[1:]))
    return Entry(kind, name, fields["of"], fields.get("at", ""), fields["meaning"], fields.get("more", ""), examples)


def entries_of(root):
    """All entries of the data, in their order."""
    with open(f"{root}/{DATA}", encoding="utf-8") as file:
        text = "".join(line for line in file if not line.startswith("#"))
    entries = [entry_of(block) for block in text.strip().split("\n\n")]
    names = [it.name for it in entries]
    if twice := sorted({it for it in names if names.count(it) > 1}):
        raise ValueError(f"explained twice: {', '.join(twice)}")
    return entries


def quoted(text):
    return '"' + text.replace("\\", "\\\\").replace('"', '\\"').replace("\n", "\\n") + '"'


def rest_of(entry):
    """The lines that explain an entry further."""
    lines = [entry.more] if entry.more else []
    lines += [f"at: {entry.at}"] if entry.at else []
    lines += [f"for example {it.text}: {it.prints}" for it in entry.examples]
    return "".join(f"  {line}\n" for line in lines)


def constant_of(entry):
    """An entry as a value of a constant."""
    members = {
        "name": entry.name,
        "head": f"{entry.kind}[{entry.name}] of {entry.of}: {entry.meaning}",
        "rest": rest_of(entry),
        "advice": "" if entry.name.isdigit() else f"did you mean `{entry.name}`?",
    }
    return "".join(["    Explanation {\n", *(f"        {key}: {quoted(value)},\n" for key, value in members.items()), "    },\n"])


def parts_of(entries):
    """The entries as values of constants, in parts that a proof reads in seconds: it grows with the square of a constant's bytes."""
    parts = [[]]
    for value in map(constant_of, entries):
        if len("".join([*parts[-1], value])) > MOST_BYTES:
            parts.append([])
        parts[-1].append(value)
    return parts


def functions_of(numbered):
    """The functions that return these parts, each after its number, with the constants of the parts."""
    text = []
    for number, values in numbered:
        text += [f"\n/// The errors and warnings of part {number}.\npub fn part_{number}() -> &'static [Explanation] {{\n    &PART_{number}\n}}\n"]
        text += [f"\nconst PART_{number}: [Explanation; {len(values)}] = [\n", *values, "];\n"]
    return "".join(text)


def explanation_sources(entries):
    """The source files of these entries, by their path: one that finds a part by its number, and those with the parts."""
    numbered = list(enumerate(parts_of(entries)))
    files = {place: numbered[at : at + PARTS_OF_A_FILE] for place, at in enumerate(range(0, len(numbered), PARTS_OF_A_FILE))}
    uses = [f"use crate::explanations_{place}::{{{', '.join(f'part_{number}' for number, _ in some)}}};\n" for place, some in files.items()]
    text = [HEAD.replace("USES", "".join(uses)), f"/// The number of parts.\npub const PARTS: usize = {len(numbered)};\n\n"]
    text += ["/// The errors and warnings of a part, counted from 0; none beyond the last.\n", "pub fn part(number: usize) -> &'static [Explanation] {\n    match number {\n"]
    text += [f"        {number} => part_{number}(),\n" for number, _ in numbered]
    text += ["        _ => &[],\n    }\n}\n"]
    parts = {f"{FOLDER}/explanations_{place}.rt": HEAD_OF_PARTS + functions_of(some) for place, some in files.items()}
    return {SOURCE: "".join(text), **parts}


def sources_of(root):
    """What stands in each source file that is made of texts, by its path."""
    with open(f"{root}/{DOCUMENT}", encoding="utf-8") as file:
        words = keywords.source_of(file.read())
    return {**explanation_sources(entries_of(root)), keywords.SOURCE: words}


def is_written(path, wanted):
    """Whether a file has this text."""
    if not os.path.exists(path):
        return False
    with open(path, encoding="utf-8") as file:
        return file.read() == wanted


def faults_of(root):
    """The source files that aren't what the texts make."""
    wrong = [it for it, wanted in sources_of(root).items() if not is_written(f"{root}/{it}", wanted)]
    return [f"{it} isn't what {DOCUMENT if it == keywords.SOURCE else DATA} makes: run tools/dev/write_explanations" for it in wrong]
