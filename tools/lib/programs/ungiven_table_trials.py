"""A trial over tables that are of none of the texts given: what it expects of a rule is looked at in these tables, and a warning says so."""

import os
import subprocess
import tempfile

from records import LOW_VOLTS, NO_ENTRIES
from trial import SECONDS, Trial, written

CALLS = ["flight_run compile", "flight_tools try"]
OTHER = LOW_VOLTS.replace(b"2400", b"2300")
WARNING = b"script:6:1: warning[rule-text]: the tables in force here are of no given rule text: their rule of the same number is taken\n"


def hex_of(place, name):
    with open(os.path.join(place, name), "rb") as file:
        return file.read().hex().upper()


def over_ungiven_tables(programs):
    with tempfile.TemporaryDirectory(prefix="try-programs-") as place:
        written(place, {"schedule": NO_ENTRIES, "rules": LOW_VOLTS, "other": OTHER})
        subprocess.run([programs["flight_run"], "compile", "other", "wdt", "adt"], cwd=place, capture_output=True, timeout=SECONDS, check=True)
        files = [f"file /cf/lc_def_{name}.tbl {hex_of(place, name)}" for name in ("wdt", "adt")]
        lines = ["at 100 0", *files, "start LC", "start SCH", "expect state LOW active"]
        written(place, {"script": "\n".join(lines).encode() + b"\n"})
        words = [programs["flight_tools"], *"try --strict --script script --schedule schedule rules".split()]
        ran = subprocess.run(words, cwd=place, capture_output=True, timeout=SECONDS)
        found = (ran.returncode, ran.stdout, ran.stderr.split(b"\n")[0] + b"\n")
        expected = (1, b"script: 1 expectation, 0 not met\n", WARNING)
        return [] if found == expected else [f"it was {found} and should be {expected}"]


TRIALS = [Trial("an expectation of a rule in tables of no given text", over_ungiven_tables)]
