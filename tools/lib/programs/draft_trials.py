"""Drafts of results: of one that loses its place while it is written, and of other users' calls."""

import os
import subprocess
import tempfile
import time

from trial import SECONDS, Trial, ended, written

CALLS = ["flight_tools import", "flight_tools scenario"]
# The name of the draft of a file that the process of a number writes, and a number that no process has.
DRAFT = "{}.flight_tools-{}.part"
NO_PROCESS = 4_294_967_295


def into_a_folder(programs):
    """A stream whose place becomes a folder while it is written: the folder stays, and the draft goes."""
    with tempfile.TemporaryDirectory(prefix="try-programs-") as place:
        pipe = subprocess.PIPE
        ran = subprocess.Popen([programs["flight_tools"], "import", "--out", "made", "-"], cwd=place, stdin=pipe, stdout=pipe, stderr=pipe)
        until = time.monotonic() + SECONDS
        while not any(".part" in name for name in os.listdir(place)) and time.monotonic() < until:
            time.sleep(0.001)
        os.mkdir(os.path.join(place, "made"))
        faults = ended(ran, 3, b"cannot use made: it is a folder\n")
        found = sorted(os.listdir(place))
        return faults + ([] if found == ["made"] else [f"there is {found} and should be ['made']"])


def beside_drafts_of_others(programs):
    """Drafts that other users' calls left stay, also where root writes the file."""
    if os.geteuid():
        return []
    with tempfile.TemporaryDirectory(prefix="try-programs-") as place:
        drafts = [DRAFT.format("made", NO_PROCESS - number) for number in range(3)]
        written(place, {"script": b"tick\n", **dict.fromkeys(drafts, b"")})
        for name, user in zip(drafts, (0, 1, 65_534)):
            os.chown(os.path.join(place, name), user, user)
        ran = subprocess.run([programs["flight_tools"], "scenario", "--script", "script", "--out", "made"], cwd=place, capture_output=True, timeout=SECONDS)
        found, expected = (ran.returncode, sorted(os.listdir(place))), (0, sorted(["made", "script", *drafts[1:]]))
        return [] if found == expected else [f"it was {found} and should be {expected}"]


TRIALS = [
    Trial("a stream whose place becomes a folder", into_a_folder),
    Trial("drafts of other users stay", beside_drafts_of_others),
]
