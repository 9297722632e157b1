"""Prints all that a check says of a crate with one edit in it, to see why the edit is not refused as it names.

    tools/dev/bugs check [--over CLONE] CRATE/EDIT

The check looks at the functions that the edit changes, over the libraries that `rt ci` left in CLONE, or here if no CLONE is named. The
status is 0 if the edit is refused by the clause that it names."""
import os
import sys
import tempfile

from archives import below, crates, is_left_by_ci
from edit_trials import TrialOverLibraries
from repository import ROOT

from bugs.trying import chosen_by, edits_of


def add_words(parser):
    parser.add_argument("--over", type=os.path.abspath, default=ROOT)
    parser.add_argument("name")


def run(given):
    crate, slash, _ = given.name.partition("/")
    every = crates(ROOT)
    (edit, *more) = chosen_by({it: edits_of(it) for it in every}, [given.name]).get(crate) or [None]
    if not slash or edit is None or more:
        sys.exit("bugs check takes one edit, as CRATE/EDIT")
    if not is_left_by_ci(given.over, below(crate, every)):
        sys.exit(f"bugs check: {given.over} has not all libraries that rt ci leaves")
    with tempfile.TemporaryDirectory(prefix="try-edits-") as room:
        trial = TrialOverLibraries(room, crate, given.over)
        said = trial.check([edit], [edit])
        is_refused, function, what = trial.judge(edit, said, [edit])
    print(said.text)
    print(f"{edit.place()}: {function}: {what if is_refused else 'FAULT, ' + what}")
    return 0 if is_refused else 1
