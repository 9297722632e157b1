"""Trials of the programs: relations between calls, calls that a row cannot describe, and rows whose bytes only code can give."""

import importlib
import os
import subprocess
from dataclasses import dataclass, replace
from functools import partial

from rows.calls import faults_of

SECONDS = 20


@dataclass(frozen=True)
class Trial:
    """`faults` takes the paths of the programs by their names and returns sentences, none if all is as it should be. `calls` are
    the calls of its module, as `flight_tools check`. An `is_slow` trial needs a program that was built with its proofs."""

    title: str
    faults: object
    calls: frozenset = frozenset()
    is_slow: bool = False

    def commands(self):
        return self.calls

    @staticmethod
    def of_row(row):
        return Trial(row.title, partial(faults_of, row), is_slow=row.is_slow)


def trials_of(module):
    return [replace(trial, calls=frozenset(module.CALLS)) for trial in module.TRIALS]


def all_trials():
    """The trials of the modules of this folder whose names end in `_trials`, in the order of their names."""
    names = sorted(it.removesuffix(".py") for it in os.listdir(os.path.dirname(os.path.abspath(__file__))) if it.endswith("_trials.py"))
    return [trial for name in names for trial in trials_of(importlib.import_module(name))]


def written(place, files):
    """Writes these files into a folder."""
    for name, content in files.items():
        with open(os.path.join(place, name), "wb") as file:
            file.write(content)


def ended(ran, status, line):
    """What is wrong with how a process ends: its status, and what it prints on standard error."""
    try:
        _, error = ran.communicate(timeout=SECONDS)
    except subprocess.TimeoutExpired:
        ran.kill()
        ran.communicate()
        return ["it hadn't ended with its stream"]
    found = (ran.returncode, error)
    return [] if found == (status, line) else [f"it ended with {found} and should with {(status, line)}"]
