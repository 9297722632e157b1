"""What `tools/campaign` refuses before it runs anything: each with its status, its line, and no file that it leaves."""

import os
import shutil
import subprocess
import tempfile

from records import LOW_VOLTS
from trial import SECONDS, Trial, written

CALLS = ["flight_tools check"]
SCRIPT = os.path.join(os.path.dirname(os.path.abspath(__file__)), "..", "..", "campaign")
TEXTS = ["--schedule", "schedule", "--old", "rules", "--new", "rules"]
CALL = [*TEXTS, "--out", "table", "list"]
FILES = {"schedule": b"slots 1\n0 sample 0 175 age\n", "rules": LOW_VOLTS, "wrong": b"rule", "list": b"a.stream\n", "a.stream": b"", "archives": b"a.raw\n"}
# Another program, in a folder that PATH is then made of; without one there is none.
NEEDED = ("env", "sh", "python3")
PARALLEL = b"#!/bin/sh\nexit 7\n"
REFUSED = b"""\
flight_tools check ends with 1
wrong:1:5: error[11]: expected a name, found the end of the file
  1 | rule
    |     ^ the file ends here
    |     - write a name here

1 error
"""


def make(place, programs, engines):
    """The files, and a folder `bin` with what the script needs and with the engines that there are."""
    written(place, FILES)
    for it in ("programs", "bin"):
        os.mkdir(os.path.join(place, it))
    for name, program in programs.items():
        os.symlink(program, os.path.join(place, "programs", name))
    for tool in NEEDED:
        os.symlink(shutil.which(tool), os.path.join(place, "bin", tool))
    for name, bytes in engines.items():
        written(os.path.join(place, "bin"), {name: bytes})
        os.chmod(os.path.join(place, "bin", name), 0o755)


def refusal(title, words, line, status=2, engines={"parallel": PARALLEL}):
    """The script ends with this status and a line that says this, and leaves no file that wasn't there."""

    def faults(programs):
        with tempfile.TemporaryDirectory(prefix="try-programs-") as place:
            make(place, programs, engines)
            before = sorted(os.listdir(place))
            words_there = [SCRIPT, "--programs", "programs", *words] if words else [SCRIPT]
            ran = subprocess.run(words_there, cwd=place, env={"PATH": f"{place}/bin"}, capture_output=True, timeout=SECONDS)
            after = sorted(os.listdir(place))
        found, expected = (ran.returncode, ran.stdout, ran.stderr), (status, b"", b"campaign: " + line)
        left = [] if before == after else [f"it left {set(after) - set(before)}"]
        return left if found == expected else [f"it ended with {found} and should with {expected}", *left]

    return Trial(title, faults)


REQUIRED = b"the following arguments are required: --schedule, --old, --new, --out, list; --help says more\n"
NO_PARALLEL = b"there is no `parallel` (Debian's package parallel)\n"
NO_SBATCH = b"there is no `sbatch` (Debian's package slurm-client)\n"
NO_PROGRAM = b"there is no program none/flight_tools: tools/build makes bin/flight_tools, and --programs names another folder\n"
AN_ARCHIVE = b"a.raw is an archive, as its name does not end with .stream: say with --import=OPTIONS how it becomes a stream\n"

TRIALS = [
    refusal("a campaign without words", [], REQUIRED),
    refusal("a campaign with a number of jobs that is none", ["--jobs", "0", *CALL], b"argument --jobs: 0 is no number from 1 to 1000000; --help says more\n"),
    refusal("a campaign without parallel", CALL, NO_PARALLEL, engines={}),
    refusal("a campaign without Slurm", ["--on", "slurm", *CALL], NO_SBATCH),
    refusal("a campaign without its hosts", ["--on", "ssh:none", *CALL], b"there is no file of hosts none\n"),
    refusal("a campaign on another engine", ["--on", "ssh", *CALL], b"there is no engine ssh: parallel, ssh:FILE or slurm\n"),
    refusal("a campaign without the program", ["--programs", "none", *CALL], NO_PROGRAM),
    refusal("a campaign without its list", [*CALL[:-1], "none"], b"cannot use none: No such file or directory\n"),
    refusal("a campaign over a list of nothing", [*CALL[:-1], "a.stream"], b"a.stream names no recording\n"),
    refusal("a campaign over archives without options", [*CALL[:-1], "archives"], AN_ARCHIVE),
    refusal("a campaign with a text that does not compile", [*CALL, "--with", "wrong"], REFUSED),
    refusal("a campaign without a text", [*CALL, "--with", "none"], b"cannot use none: No such file or directory\n"),
    refusal("a campaign with a table in a folder that is not there", [*CALL, "--out", "none/table"], b"there is no folder none\n"),
    refusal("a campaign with a table in the place of another file", [*CALL, "--out", "list"], b"list is there, and no SQLite file\n"),
]
