"""Counts that documents give of the tree: each is the tree's."""
import glob
import re
import sys

from documents.links import unfenced
from edits import edits_of
from repository import crates_of
from rows.texts import ExampleTexts

WORDS = "no one two three four five six seven eight nine ten eleven twelve".split()
NUMBER = rf"(\d[\d,]*|{'|'.join(WORDS[1:])})"


def number_of(text):
    return WORDS.index(text) if text in WORDS else int(text.replace(",", ""))


def counted(root, pattern):
    return len(glob.glob(f"{root}/{pattern}", recursive=True))


def counts_of(root):
    """What is counted: how documents say it, and how many there are."""
    crates = crates_of(root)
    edits = [it for name in crates for it in edits_of(name, root)]
    texts = ExampleTexts(root)
    return [
        (rf"{NUMBER} crates\b(?! (?:of|below|above))", "lines of crates.txt", len(crates)),
        (rf"{NUMBER} edits (?:are |is )?(?:tried by the gate|in `edits/gate/`|that the gate tries)", "edits tried by the gate", sum(it.is_tried_by_gate for it in edits)),
        (rf"{NUMBER} edits\b(?! (?:are |is )?(?:tried by the gate|in `edits/gate/`|that the gate tries))", "edits", len(edits)),
        (rf"{NUMBER} whole runs\b", "folders with a row.txt in crates/run_rows/data", counted(root, "crates/run_rows/data/**/row.txt")),
        (rf"{NUMBER} rule texts with (?:a )?mistakes?\b", "rule texts in rows/messages", len(texts.rules)),
        (rf"{NUMBER} schedules with (?:a )?mistakes?\b", "schedules in rows/messages", len(texts.schedules)),
        (rf"{NUMBER} scripts with (?:a )?mistakes?\b", "scripts in rows/messages", len(texts.scripts) + len(texts.scenarios)),
        (rf"{NUMBER} messages\b", "rows in rows/messages", len(texts.messages)),
        (rf"{NUMBER} rule texts with warnings?\b", "rule texts in rows/check/warnings*.rows", len(texts.warned_rules)),
        (rf"{NUMBER} (?:rows|calls) of the programs\b", "rows and trials of the programs", len(texts.rows) + len(trials(root))),
    ]


def trials(root):
    """The trials that tools/gate/try_programs runs beside the rows."""
    sys.path.insert(0, f"{root}/tools/lib/programs")
    from trial import all_trials

    return all_trials()


def faults_of(counts, document, lines):
    """The counts of a document that aren't the tree's, each with its line, and how many it gives."""
    found, given = [], 0
    for number, line in unfenced(lines):
        for pattern, what, count in counts:
            for it in re.finditer(pattern, line):
                given += 1
                if number_of(it[1]) != count:
                    found.append(f"{document}:{number}: {it[0]}: there are {count} {what}")
    return found, given
