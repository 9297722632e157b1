#!/usr/bin/env -S python3 -I -S
"""Looks at recordings of a campaign: the one command that each engine runs, on any host that has the campaign's folder.

    task ROUND NUMBER..

ROUND is the folder of a round, NUMBER a line of its list. The rows of a recording are written to a part, which gets its name once
it is complete, so two attempts beside each other do no harm. Rows that are there for the recording's path and SHA-256 are taken
over. Ends with 0 where each recording has its rows, whether the texts differ or not; with 1 where an attempt failed, and another
one may not: a program was killed, memory or the device was full, a file could not be read."""
import contextlib
import gzip
import hashlib
import json
import os
import signal
import stat
import subprocess
import sys
import tempfile
import time

PIECE = 1 << 20
RUNS = ("old", "new")
# The statuses of flight_tools that another attempt would have too: something is refused, or a stream or archive ends early.
REFUSED, ENDS_EARLY = (1, 2), 4
# A comparison ends with 0 or 1, or with 6 if in one of the runs nothing was sampled.
COMPARED, NOT_SAMPLED = (0, 1, 6), 6


class Failure(Exception):
    """What keeps an attempt from its rows: the step, the program's status, and what was said."""

    def __init__(self, step, says, status=None):
        super().__init__(f"{step}: {says}")
        self.step, self.says, self.status = step, says, status

    def is_final(self):
        """Whether another attempt would fail likewise."""
        return self.step == "check" or self.status in (*REFUSED, ENDS_EARLY)


def print_of(path):
    """The SHA-256 of a file, and what the system said of it before it was read: size, moment of its last change and place."""
    try:
        looks = looks_of(path)
        if not stat.S_ISREG(os.stat(path).st_mode):
            raise Failure("read", "it is no file")
        with open(path, "rb") as file:
            digest, piece = hashlib.sha256(), bytearray(PIECE)
            while size := file.readinto(piece):
                digest.update(memoryview(piece)[:size])
        return digest.hexdigest(), looks
    except OSError as error:
        raise Failure("read", error.strerror or str(error)) from error


def text_of(line):
    return line.decode("utf-8", "backslashreplace").removesuffix("\n")


def looks_of(path):
    found = os.stat(path)
    return found.st_size, found.st_mtime_ns, found.st_ino


@contextlib.contextmanager
def part_of(path, parts):
    """The name of a part that becomes the file, and takes its name only if nothing fails."""
    os.makedirs(os.path.dirname(path), exist_ok=True)
    part = f"{parts}/{os.urandom(12).hex()}"
    try:
        yield part
        os.replace(part, path)
    except BaseException:
        with contextlib.suppress(OSError):
            os.remove(part)
        raise


def write_object(path, parts, value):
    with part_of(path, parts) as part:
        with open(part, "w", encoding="utf-8") as file:
            json.dump(value, file)
            file.flush()
            os.fsync(file.fileno())


class Calls:
    """Calls of the programs in a folder of their own, where each file has the same name for every recording."""

    def __init__(self, programs, place):
        self.programs, self.place, self.early, self.last = programs, place, {}, None

    def lines(self, step, program, *words, fine=(0,), may_end_early=True):
        """The lines that a call prints. An early end that may be is noted, any other status that isn't fine is a failure."""
        with open(f"{self.place}/errors", "w+b") as errors:
            words = [f"{self.programs}/{program}", *words]
            ran = subprocess.Popen(words, cwd=self.place, stdin=subprocess.DEVNULL, stdout=subprocess.PIPE, stderr=errors)
            try:
                yield from ran.stdout
            except BaseException:
                ran.kill()
                raise
            finally:
                ran.stdout.close()
                status = ran.wait()
            errors.seek(0)
            said = text_of(errors.read(4_000)).strip()
            self.last = failure = Failure(step, said if status >= 0 else f"{program} was ended by signal {-status}", status)
            if status not in fine:
                if status != ENDS_EARLY or not may_end_early:
                    raise failure
                self.early[step] = failure


class Recording:
    """One recording: what `flight_tools compare --json` says of it, as rows."""

    def __init__(self, calls, inputs, write):
        self.calls, self.inputs, self.write = calls, inputs, write
        self.texts = [f"with{number}" for number in range(1, inputs["further"] + 1)]
        self.found, self.outcome, self.failures = {}, "failed", []

    def import_archive(self):
        words = ["import", *self.inputs["import"], "--out", "recording", "archive"]
        said = text_of(b"".join(self.calls.lines("import", "flight_tools", *words)))
        self.found["imported"] = said
        if early := self.calls.early.get("import"):
            lines = said.split("\n")
            early.says = ([line for line in lines if ": byte " in line] or lines)[-1]

    def compare(self):
        """The object that the comparison of both texts is."""
        further = [f"--with={text}" for text in self.texts]
        words = ["compare", "--json", "--schedule", "schedule", "--stream", "recording", *further, "old", "new"]
        text = b"".join(self.calls.lines("compare", "flight_tools", *words, fine=COMPARED))
        if early := self.calls.early.get("compare"):
            early.says = early.says.split("\n")[-1]
        try:
            return json.loads(text)
        except ValueError as error:
            raise self.calls.last from error

    def write_account(self, run, account):
        """Writes a row for each rule and each message id that the texts of a run name."""
        for it in account["rules"]:
            names = ("text", "rule", "name", "sampled", "passed", "failed", "stale", "errors", "unsampled")
            self.write("rules", run, *(it[name] for name in names))
        for it in account["packets"]:
            self.write("packets", run, it["mid"], it["packets"])

    def write_rows(self, compared):
        """Writes a row for each request, each event, each difference, and what the runs looked at."""
        for run in RUNS:
            self.write_account(run, compared["account"][run])
        for it in compared["requests"]:
            self.write("requests", it["run"], it["record"], it["time"], it["sequence"], ", ".join(it["rules"]) or None)
        for it in compared["events"]:
            self.write("events", *(it[name] for name in ("run", "record", "time", "sender", "id", "type", "rule", "text")))
        for number, it in enumerate(compared["differences"], 1):
            moved = it["kind"] == "moved"
            place, other = (it["old"], it["new"]) if moved else (it, {})
            rules = ", ".join(it["rules"]) if it.get("rules") else it.get("rule")
            row = [it["kind"], it.get("run"), place["record"], place["time"], other.get("record"), other.get("time")]
            row += [it.get(name) for name in ("command", "sequence", "sender", "id", "type", "text", "of")]
            self.write("differences", number, *row, rules)

    def count(self, compared):
        """Notes the counts and the account, and checks that the counts are those of the rows."""
        for kind, counts in compared["counts"].items():
            for run in RUNS:
                listed = sum(it["run"] == run for it in compared[kind])
                if listed != counts[run] + counts["moved"] + counts["both"]:
                    raise Failure("check", f"compare lists {listed} {kind} of the {run} text, and counts {counts}")
            self.found |= {f"{kind}_{name}": number for name, number in counts.items() if (kind, name) != ("events", "moved")}
        self.found["new_requests"] = int(compared["new_requests"])
        accounts = compared["account"]
        self.found |= {"records": accounts["old"]["records"], "steps_back": accounts["old"]["steps_back"]}
        self.found |= {f"{run}_{name}": accounts[run][name] for run in RUNS for name in ("samples", "ungiven")}

    def judge(self, compared):
        """Notes the outcome. A run without a sample is a failure, whatever it came to."""
        unsampled = [run for run in RUNS if not compared["account"][run]["samples"]]
        if unsampled:
            records = compared["account"]["old"]["records"]
            says = f"nothing was sampled in {records} records with the {' and the '.join(unsampled)} text"
            self.failures.append(Failure("compare", says, NOT_SAMPLED))
        counts = [number for of in compared["counts"].values() for name, number in of.items() if name != "both"]
        if self.calls.early:
            self.outcome = "cut"
        elif unsampled:
            self.outcome = "unsampled"
        else:
            self.outcome = "differ" if any(counts) else "same"

    def look(self):
        """Writes all rows, and returns what `recordings` says of it."""
        try:
            if self.inputs["is_archive"]:
                self.import_archive()
            compared = self.compare()
            self.write_rows(compared)
            self.count(compared)
            self.judge(compared)
        except Failure as failure:
            if not failure.is_final():
                raise
            self.failures.append(failure)
        for it in [*self.calls.early.values(), *self.failures]:
            self.write("failures", it.step, it.status, it.says)
        return {**self.found, "outcome": self.outcome}


class Round:
    """A round of a campaign: it looks at each recording of its list once."""

    def __init__(self, folder, numbers):
        self.folder, self.campaign = folder, os.path.dirname(os.path.dirname(folder))
        with open(f"{self.campaign}/inputs.json", encoding="utf-8") as file:
            self.inputs = json.load(file)
        with open(f"{folder}/directory", encoding="utf-8") as file:
            self.directory = file.read()
        wanted = set(numbers)
        with open(f"{folder}/list", encoding="utf-8") as file:
            self.paths = {number: line[:-1] for number, line in enumerate(file, 1) if number in wanted}

    def look_at(self, number):
        """Whether the recording's rows are there in the end."""
        path = self.paths[number]
        looked, failed = looked_at(self.folder, path), failed_at(self.folder, path)
        if os.path.exists(looked):
            return True
        about = {}
        try:
            sha256, looks = print_of(os.path.join(self.directory, path))
            about = {"sha256": sha256, "bytes": looks[0]}
            result = result_of(self.campaign, path, sha256)
            if not os.path.exists(result):
                self.make(path, about, looks, result)
            write_object(looked, f"{self.folder}/parts", about)
            return True
        except Failure as failure:
            why = failure
        except OSError as error:
            why = Failure("write", error.strerror or str(error))
        with contextlib.suppress(OSError):
            write_object(failed, f"{self.folder}/parts", {**about, "step": why.step, "status": why.status, "says": why.says})
        return False

    def make(self, path, about, looks, result):
        """Makes the rows of a recording, which has to be the same file before and after."""
        began, clock, full = time.strftime("%Y-%m-%dT%H:%M:%SZ", time.gmtime()), time.monotonic(), os.path.join(self.directory, path)
        inputs = {**self.inputs, "is_archive": not path.endswith(".stream")}
        with part_of(result, f"{self.folder}/parts") as part, tempfile.TemporaryDirectory(prefix="campaign-") as place:
            for name in self.inputs["names"]:
                os.symlink(f"{self.campaign}/{name}", f"{place}/{name}")
            os.symlink(full, f"{place}/{'archive' if inputs['is_archive'] else 'recording'}")
            with open(part, "wb") as raw, gzip.GzipFile(filename="", mode="wb", compresslevel=1, fileobj=raw, mtime=0) as file:
                write = lambda *row: file.write(json.dumps(row).encode() + b"\n")
                found = Recording(Calls(self.campaign, place), inputs, write).look()
                if looks_of(full) != looks:
                    raise Failure("read", "it changed while it was read")
                found.update(began=began, seconds=round(time.monotonic() - clock, 3))
                write("recordings", {"path": path, **about, **found})
            with open(part, "rb") as file:
                os.fsync(file.fileno())


def name_of(path):
    """A name for a recording's files, whatever its path has in it; the first two digits are a folder."""
    digest = hashlib.sha256(path.encode()).hexdigest()
    return f"{digest[:2]}/{digest[2:40]}"


def looked_at(round, path):
    return f"{round}/looked/{name_of(path)}"


def failed_at(round, path):
    return f"{round}/failed/{name_of(path)}"


def result_of(campaign, path, sha256):
    return f"{campaign}/results/{name_of(path)}-{sha256}"


def main(words):
    if len(words) < 2 or {"-h", "--help"} & set(words):
        print(__doc__)
        return 2
    signal.signal(signal.SIGTERM, lambda *_: sys.exit(143))
    numbers = [int(it) for it in words[1:]]
    round = Round(words[0], numbers)
    return 0 if all([round.look_at(number) for number in numbers]) else 1


if __name__ == "__main__":
    sys.exit(main(sys.argv[1:]))
