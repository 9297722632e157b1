"""Words that make a sentence be read twice, in comments of definitions, public doc comments, help texts and explanations.

Each file has a stored count (riddles.txt beside this module; a file that is not listed has none), which only shrinks: more is a
fault, and so is less until `tools/gate/check_documents --lower` has stored it."""
import glob
import os
import re

STORED = os.path.join(os.path.dirname(os.path.abspath(__file__)), "riddles.txt")
WORDS = re.compile(r"\b(behind|so many|of theirs|what is|says)\b", re.I)
# Files of texts that users read, with what holds a text in each.
TEXTS = {
    "crates/flight_tools_args/src/command_words.rt": re.compile(r'"((?:[^"\\]|\\.)*)"'),
    "crates/flight_tools_args/src/commands.rt": re.compile(r'"((?:[^"\\]|\\.)*)"'),
    "crates/check_command/explanations.txt": re.compile(r"(.*)"),
}
COMMENTS = {"*.antt": re.compile(r"--(.*)"), "*.rt": re.compile(r"^\s*//[/!](.*)")}


def counted(path, pattern):
    """How many of these words stand in what the pattern finds in a file's lines."""
    with open(path, encoding="utf-8") as file:
        return sum(len(WORDS.findall(text)) for line in file for text in pattern.findall(line))


def counts_of(root):
    """The count of each file that has any of these words, by its path."""
    found = {}
    for ending, pattern in COMMENTS.items():
        for part in ("src", "specs"):
            for path in glob.glob(f"{root}/crates/*/{part}/**/{ending}", recursive=True):
                found[os.path.relpath(path, root)] = counted(path, pattern)
    for path, pattern in TEXTS.items():
        if os.path.exists(f"{root}/{path}"):
            found[path] = found.get(path, 0) + counted(f"{root}/{path}", pattern)
    return {path: count for path, count in found.items() if count}


def stored():
    """The stored counts, by path."""
    with open(STORED, encoding="utf-8") as file:
        return {path: int(count) for count, path in (line.split(maxsplit=1) for line in file.read().splitlines())}


def lower(root):
    """Stores each count that is less than the stored one; never a greater one."""
    known = stored()
    counts = {path: min(count, known.get(path, 0)) for path, count in counts_of(root).items()}
    with open(STORED, "w", encoding="utf-8") as file:
        file.writelines(f"{count} {path}\n" for path, count in sorted(counts.items()) if count)


def faults_of(root):
    """Each file whose count is not the stored one, and how many words there are in all."""
    counts, known = counts_of(root), stored()
    faults = []
    for path in sorted({*counts, *known}):
        count, limit = counts.get(path, 0), known.get(path, 0)
        if count > limit:
            faults.append(f"{path}: {count} of the words that are read twice (behind, so many, of theirs, what is, says), where {limit} may be")
        elif count < limit:
            faults.append(f"{path}: {count} of the words that are read twice, and {limit} are stored: run tools/gate/check_documents --lower")
    return faults, sum(counts.values())
