"""A run that writes nothing, over an output whose old bytes can't be removed: it says so, and has not succeeded."""

import fcntl
import os
import subprocess
import tempfile

from records import LOW_VOLTS, NO_ENTRIES
from trial import SECONDS, Trial, written

CALLS = ["flight_run run"]
OLD = b"what was there before"


def over_a_file_that_never_shrinks(programs):
    with tempfile.TemporaryDirectory(prefix="try-programs-") as place:
        written(place, {"schedule": NO_ENTRIES, "rules": LOW_VOLTS, "stream": b""})
        out = os.memfd_create("out", os.MFD_ALLOW_SEALING)
        try:
            os.write(out, OLD)
            fcntl.fcntl(out, fcntl.F_ADD_SEALS, fcntl.F_SEAL_SHRINK)
            name = f"/proc/{os.getpid()}/fd/{out}"
            words = [programs["flight_run"], "run", "--schedule", "schedule", "--stream", "stream", "--out", name, "rules"]
            ran = subprocess.run(words, cwd=place, capture_output=True, timeout=SECONDS)
            found = (ran.returncode, ran.stdout, ran.stderr, os.pread(out, 100, 0))
        finally:
            os.close(out)
        expected = (3, b"", b"cannot use " + name.encode() + b"\n", OLD)
        return [] if found == expected else [f"it was {found} and should be {expected}"]


TRIALS = [Trial("a run that writes nothing, over a file that never shrinks", over_a_file_that_never_shrinks)]
