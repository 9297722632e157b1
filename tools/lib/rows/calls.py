"""Calls a program as a row asks, and compares the outcome with what the row expects."""

import contextlib
import fnmatch
import os
import resource
import signal
import subprocess
import tempfile
from dataclasses import dataclass, replace

from rows.row import FOLDER, NOBODY, Begins, Has, Link, Row, Sized, Twin

SECONDS = 60
# A longer output is accepted by its length and its hash.
MOST_BYTES = 100_000
USER_WITHOUT_RIGHTS = 65_534


@dataclass
class Outcome:
    """What came of a call: its status, what it printed, and the files of its folder before and after it."""

    status: int
    output: bytes
    error: bytes
    before: dict
    files: dict


class NotRun(Exception):
    """A call before the row's own did not end with status 0, or the row's own did not end in time."""


def make(folder, files):
    for name, file in files.items():
        if file is FOLDER:
            os.mkdir(f"{folder}/{name}")
        elif isinstance(file, Link):
            os.symlink(file.to, f"{folder}/{name}")
        elif isinstance(file, Twin):
            os.link(f"{folder}/{file.of}", f"{folder}/{name}")
        else:
            with open(f"{folder}/{name}", "wb") as made:
                made.write(file)


def files_of(folder):
    found = {}
    for entry in os.scandir(folder):
        if entry.is_symlink():
            found[entry.name] = Link(os.readlink(entry.path))
        elif entry.is_dir():
            found[entry.name] = FOLDER
        else:
            with open(entry.path, "rb") as file:
                found[entry.name] = file.read()
    return found


@contextlib.contextmanager
def output_to(place):
    """What stands for standard output: a pipe that is read, a device, or a pipe that nobody reads."""
    if place == NOBODY:
        reader, writer = os.pipe()
        os.close(reader)
        try:
            yield writer
        finally:
            os.close(writer)
    elif place:
        with open(place, "wb") as device:
            yield device
    else:
        yield subprocess.PIPE


def limits_of(row):
    """What a call's process sets for itself: its limits, and signals as a shell leaves them. A file that grows too long is an
    error of its write and no signal, unless the row's call is killed by it."""

    def set_limits():
        if row.most_memory:
            resource.setrlimit(resource.RLIMIT_AS, (row.most_memory,) * 2)
        if row.longest_file:
            resource.setrlimit(resource.RLIMIT_FSIZE, (row.longest_file,) * 2)
        if not row.is_killed:
            signal.signal(signal.SIGXFSZ, signal.SIG_IGN)

    return set_limits


def call(programs, folder, words, row=Row("a call before", [])):
    """What a call in a folder comes to: its status, and what it printed."""
    with output_to(row.prints_to) as output:
        ran = subprocess.run(
            [programs[words[0]], *words[1:]],
            cwd=folder,
            env={"TMPDIR": folder},
            input=row.reads,
            stdout=output,
            stderr=subprocess.PIPE,
            timeout=SECONDS,
            preexec_fn=limits_of(row),
            **({"user": USER_WITHOUT_RIGHTS} if row.forbidden and os.geteuid() == 0 else {}),
        )
    return ran.returncode, ran.stdout or b"", ran.stderr


def outcome_of(row, programs):
    """Runs a row in a folder of its own."""
    with tempfile.TemporaryDirectory(prefix="try-programs-") as folder:
        make(folder, row.before)
        for words in row.first:
            status, _, error = call(programs, folder, words)
            if status:
                raise NotRun(f"{' '.join(words)} ended with status {status}: {shown(error)}")
        before = files_of(folder)
        for name in row.forbidden:
            os.chmod(f"{folder}/{name}", 0)
        os.chmod(folder, 0o755)
        try:
            status, output, error = call(programs, folder, row.words, row)
        except subprocess.TimeoutExpired:
            raise NotRun(f"it had not ended after {SECONDS} seconds") from None
        return Outcome(status, output, error, before, files_of(folder))


# ---- comparing


def shown(value):
    text = value if isinstance(value, str) else repr(value) if isinstance(value, (bytes, int)) else str(value)
    return text if len(text) <= 200 or not isinstance(value, (str, bytes)) else f"{text[:200]}.. ({len(value)} bytes)"


def is_met(expected, found):
    return expected.is_met(found) if hasattr(expected, "is_met") and isinstance(found, bytes) else expected == found


def unmet(expected, found):
    """The part of an expectation that is not met, where it has parts."""
    return expected.unmet_in(found) if hasattr(expected, "unmet_in") and isinstance(found, bytes) else expected


def differences(expected, found):
    """A sentence for each item that is not what it should be."""
    for name in sorted({*expected, *found}):
        if name not in found:
            yield f"{name} is missing"
        elif name not in expected:
            yield f"{name} should not be there"
        elif not is_met(expected[name], found[name]):
            yield f"{name} is {shown(found[name])} and should be {shown(unmet(expected[name], found[name]))}"


def name_in(outcome, pattern):
    """The name of a file after the call: that of the one new file that matches, where it has a `*`."""
    new = [it for it in outcome.files if "*" in pattern and it not in outcome.before and fnmatch.fnmatch(it, pattern)]
    return new[0] if new else pattern


def faults_of_outcome(row, outcome):
    """What is wrong with an outcome, in a list of sentences."""
    after = {**outcome.before, **{name_in(outcome, name): file for name, file in row.after.items()}}
    expected = {"status": row.status, "standard output": row.output, "standard error": row.error}
    expected |= {f"file {name}": file for name, file in after.items() if file is not None}
    found = {"status": outcome.status, "standard output": outcome.output, "standard error": outcome.error}
    return [*differences(expected, found | {f"file {name}": file for name, file in outcome.files.items()})]


def faults_of(row, programs):
    """What is wrong with a row over these programs, in a list of sentences."""
    try:
        return faults_of_outcome(row, outcome_of(row, programs))
    except NotRun as fault:
        return [str(fault)]


# ---- accepting


class NotAccepted(Exception):
    """What came has no form in which a row could expect it."""


def remade(expected, found):
    """What came, in the form of what was expected."""
    if is_met(expected, found):
        return expected
    if not isinstance(found, bytes):
        raise NotAccepted("a link or a folder came, which no row can expect")
    if isinstance(expected, Sized) or len(found) > MOST_BYTES:
        return Sized.of(found)
    if isinstance(expected, Begins):
        return Begins(found[: len(expected.content)])
    if isinstance(expected, Has):
        return Has(expected.at, found[expected.at : expected.at + len(expected.content)])
    if hasattr(expected, "is_met"):
        raise NotAccepted(f"write by hand what should be there: {shown(unmet(expected, found))}")
    return found


def files_that_came(row, outcome):
    """The files after a call that its row should expect."""
    came = {}
    for pattern, expected in row.after.items():
        name = name_in(outcome, pattern)
        if expected is not None and name in outcome.files:
            if is_met(expected, outcome.files[name]) or outcome.files[name] != outcome.before.get(name):
                came[pattern] = remade(expected, outcome.files[name])
        elif name in outcome.before and name not in outcome.files:
            came[pattern] = None
    said = {name_in(outcome, pattern) for pattern in row.after}
    for name in sorted({*outcome.before, *outcome.files} - said):
        if outcome.files.get(name) != outcome.before.get(name):
            came[name] = remade(b"", outcome.files[name]) if name in outcome.files else None
    return came


def row_that_came(row, outcome):
    """The row that expects this outcome."""
    after = files_that_came(row, outcome)
    return replace(row, status=outcome.status, output=remade(row.output, outcome.output), error=remade(row.error, outcome.error), after=after)
