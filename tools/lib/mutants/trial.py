"""Holds the programs with a planted mutant against the rows that reach it."""

import contextlib
import importlib.machinery
import io
import mmap
import os
import struct
import sys
import tempfile
import time
import types

from repository import ROOT

from mutants.listing import PROGRAMS

# As in planted.c.
NAME, LONGEST_NAME = b"the file that says which mutant is planted", 256
BYTES, MARKS = 16_384, 8
NOBODY = 0xFFFF_FFFF
# With an address sanitizer a call takes some five times its seconds. A row that needs more than this does not pass, and is left out.
SECONDS = 12
SESSIONS = ["opening", "fixes", "scripts"]


@contextlib.contextmanager
def room_for_benches():
    """A folder for the folders of benches, which rows of other users may enter."""
    with tempfile.TemporaryDirectory(prefix="try-mutants-") as room:
        os.chmod(room, 0o755)
        yield room


class Words:
    """What the sessions with a server take from the command line: no random edits."""

    edits, seed = 0, 0


def gate_script(name):
    """A script of the gate, taken as a module."""
    module = types.ModuleType(name)
    module.__file__ = f"{ROOT}/tools/gate/{name}"
    asked, sys.argv = sys.argv, [name]
    importlib.machinery.SourceFileLoader(name, module.__file__).exec_module(module)
    sys.argv = asked
    return module


class Bench:
    """The rows of the gate over copies of the programs that ask a page of their own which mutant is planted."""

    def __init__(self, folder, room):
        self.folder = tempfile.mkdtemp(dir=room)
        os.chmod(self.folder, 0o755)
        at = f"{self.folder}/page"
        with open(at, "wb") as file:
            file.write(bytes(BYTES))
        # Rows run as other users, too.
        os.chmod(at, 0o666)
        with open(at, "r+b") as file:
            self.page = mmap.mmap(file.fileno(), BYTES)
        # Whether a program asks which mutant is planted; one without mutants does not.
        self.asks = False
        programs = {name: self.copied(folder, name, at.encode()) for name in PROGRAMS}
        if not self.asks:
            sys.exit(f"bugs mutate: no program of {folder} asks for a mutant")
        self.cases = dict(cases_of(programs))

    def copied(self, folder, name, page):
        with open(f"{folder}/{name}", "rb") as file:
            data = file.read()
        self.asks |= NAME in data
        copy = f"{self.folder}/{name}"
        with open(copy, "wb") as file:
            file.write(data.replace(NAME.ljust(LONGEST_NAME, b"\0"), page.ljust(LONGEST_NAME, b"\0")))
        os.chmod(copy, 0o755)
        return copy

    def plant(self, number):
        self.page[:4] = struct.pack("<I", number)

    def traced(self, name):
        """The seconds of a case without a mutant, whether it passes, and the mutants that it reaches."""
        self.page[MARKS:] = bytes(BYTES - MARKS)
        self.plant(NOBODY)
        began = time.monotonic()
        passed = self.passes(name)
        reached = [number for number, mark in enumerate(self.page[MARKS:]) if mark]
        return {"seconds": time.monotonic() - began, "passes": passed, "reached": reached}

    def passes(self, name):
        try:
            with contextlib.redirect_stdout(io.StringIO()):
                return not self.cases[name]()
        # A mutant may break off a talk at any byte, and what a trial makes of that is its own affair.
        except Exception:
            return False

    def catcher_of(self, number, names):
        """The first of these cases that passes without this mutant and does not with it, or None."""
        for name in names:
            self.plant(number)
            is_passed = self.passes(name)
            self.plant(NOBODY)
            if not is_passed and self.passes(name):
                return name
        return None


def cases_of(programs):
    """The rows and trials of `try_programs`, and the talks, questions and some sessions of `try_server`, by name."""
    server = gate_script("try_server")
    sys.path.append(f"{ROOT}/tools/lib/programs")
    import language
    import talks
    import trial
    from client import Client
    from rows import calls
    from rows.reader import all_rows, read_files

    calls.SECONDS = talks.SECONDS = SECONDS
    tools = programs["flight_tools"]

    def answer(what, ask, said):
        with Client(tools, SECONDS) as client:
            client.initialize()
            return [*language.faults_of_ask(client, 1, what, ask, said)]

    def session(part):
        return [*server.faults_of_session(tools, part, Words)]

    for number, case in enumerate(trial.all_trials()):
        yield f"trial {number} {case.title}", lambda case=case: [*case.faults(programs)]
    for number, row in enumerate(all_rows(read_files())):
        yield f"row {number} {row.title}", lambda row=row: calls.faults_of(row, programs)
    for number, talk in enumerate(talks.TALKS):
        yield f"talk {number} {talk.title}", lambda talk=talk: [*talks.faults_of_talk(tools, talk)]
    for what, asks, said in language.QUESTIONS:
        for number, ask in enumerate(asks):
            yield f"question {what} {number} {ask.title}", lambda what=what, ask=ask, said=said: answer(what, ask, said)
    for part in SESSIONS:
        yield f"session {part}", lambda part=part: session(part)
