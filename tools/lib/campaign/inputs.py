"""A campaign's folder: copies of all that its rows depend on, the rows that are there, and its rounds.

Beside the table FILE it is FILE.parts/KEY. KEY is of the SHA-256 of the texts, the schedule, the programs and the task, and of
the options of `import`: rows of other inputs lie in another folder. The copies are what the tasks use, so that a text which is
edited meanwhile changes nothing."""
import contextlib
import fcntl
import hashlib
import json
import os
import shlex
import shutil
import subprocess
import tempfile

from . import task

PROGRAMS = ("flight_tools",)


class Unusable(Exception):
    """Why nothing is run."""


def print_of(path):
    try:
        return task.print_of(path)[0]
    except task.Failure as failure:
        raise Unusable(f"cannot use {path}: {failure.says}") from failure


def options_of(text):
    try:
        return shlex.split(text)
    except ValueError as error:
        raise Unusable(f"--import={text}: {error}") from error


class Inputs:
    """What the rows of a recording depend on, beside the recording."""

    def __init__(self, words):
        self.files = {"schedule": words.schedule, "old": words.old, "new": words.new}
        self.files |= {f"with{number}": text for number, text in enumerate(words.further, 1)}
        self.texts = list(self.files)
        self.files |= {name: f"{words.programs}/{name}" for name in PROGRAMS} | {"task": task.__file__}
        for name in PROGRAMS:
            if not os.access(self.files[name], os.X_OK):
                raise Unusable(f"there is no program {self.files[name]}: tools/build makes bin/{name}, and --programs names another folder")
        self.options = options_of(words.options or "")
        self.prints = {name: print_of(path) for name, path in self.files.items()}
        self.key = hashlib.sha256(json.dumps([self.prints, self.options]).encode()).hexdigest()[:16]

    def judge(self, is_import_tried):
        """Refuses texts, schedules and options with the words of the programs, which then say nothing of the texts before."""
        tools = os.path.abspath(self.files["flight_tools"])
        schedule, *texts = (self.files[it] for it in self.texts)
        for text in texts:
            self.call([tools, "check", "--schedule", schedule, text])
        if is_import_tried:
            with tempfile.TemporaryDirectory(prefix="campaign-") as place:
                open(f"{place}/archive", "wb").close()
                self.call([tools, "import", *self.options, "--out", "recording", "archive"], place)

    def call(self, words, place=None):
        try:
            ran = subprocess.run(words, cwd=place, stdin=subprocess.DEVNULL, capture_output=True, text=True)
        except OSError as error:
            raise Unusable(f"cannot use {words[0]}: {error.strerror}") from error
        if ran.returncode:
            raise Unusable(f"flight_tools {words[1]} ends with {ran.returncode}\n{(ran.stdout + ran.stderr).strip()}")

    def rows(self):
        """What the table says of the inputs."""
        programs = [(name, name, self.prints[name]) for name in PROGRAMS]
        return [(name, self.files[name], self.prints[name]) for name in self.texts] + programs + [("import", shlex.join(self.options), None)]


def judge_table(file):
    """Refuses a table's name that is there and no table, or whose folder is not there."""
    folder = os.path.dirname(file) or "."
    if not os.path.isdir(folder):
        raise Unusable(f"there is no folder {folder}")
    if os.path.exists(file):
        if not os.path.isfile(file):
            raise Unusable(f"{file} is no file")
        with open(file, "rb") as old:
            if old.read(16) not in (b"", b"SQLite format 3\0"):
                raise Unusable(f"{file} is there, and no SQLite file")


@contextlib.contextmanager
def alone(file):
    """No other campaign writes the same table meanwhile."""
    judge_table(file)
    os.makedirs(f"{file}.parts", exist_ok=True)
    with open(f"{file}.parts/lock", "wb") as lock:
        try:
            fcntl.flock(lock, fcntl.LOCK_EX | fcntl.LOCK_NB)
        except OSError as error:
            raise Unusable(f"another campaign is writing {file}") from error
        yield


class Campaign:
    """The folder of a campaign, and its newest round."""

    def __init__(self, file, inputs, paths):
        self.file, self.inputs, self.paths = file, inputs, paths
        self.folder = f"{os.path.abspath(file)}.parts/{inputs.key}"
        self.fill()
        self.round = self.begin_round()

    def fill(self):
        for it in ("results", "rounds"):
            os.makedirs(f"{self.folder}/{it}", exist_ok=True)
        for name, path in self.inputs.files.items():
            copy = f"{self.folder}/{name}"
            if not os.path.isfile(copy) or print_of(copy) != self.inputs.prints[name]:
                shutil.copyfile(path, f"{copy}.part")
                os.chmod(f"{copy}.part", 0o755 if name in (*PROGRAMS, "task") else 0o644)
                os.replace(f"{copy}.part", copy)
            if print_of(copy) != self.inputs.prints[name]:
                raise Unusable(f"{path} changed while it was copied")
        texts = self.inputs.texts
        about = {"names": texts, "further": len(texts) - 3, "import": self.inputs.options}
        task.write_object(f"{self.folder}/inputs.json", self.folder, about)

    def begin_round(self):
        """Makes the folder of a round, with the list. What earlier rounds noted goes; attempts of theirs that go on cannot disturb it."""
        rounds = sorted(os.listdir(f"{self.folder}/rounds"))
        round = f"{self.folder}/rounds/{int(rounds[-1]) + 1 if rounds else 1:06}"
        for it in rounds:
            shutil.rmtree(f"{self.folder}/rounds/{it}", ignore_errors=True)
        os.makedirs(f"{round}/parts")
        with open(f"{round}/directory", "w", encoding="utf-8") as file:
            file.write(os.getcwd())
        with open(f"{round}/list", "w", encoding="utf-8") as file:
            file.writelines(f"{path}\n" for path in self.paths)
        return round

    def looked(self, path):
        """What the round noted of a recording that it looked at, or None."""
        return read_object(task.looked_at(self.round, path))

    def failed(self, path):
        return read_object(task.failed_at(self.round, path))

    def result(self, path, sha256):
        return task.result_of(self.folder, path, sha256)


def read_object(path):
    try:
        with open(path, encoding="utf-8") as file:
            return json.load(file)
    except FileNotFoundError:
        return None


def paths_of(file, is_import_given):
    """The recordings of a list, one path a line; each once, sorted."""
    try:
        with open(file, encoding="utf-8") as lines:
            paths = [line for line in lines.read().split("\n") if line]
    except OSError as error:
        raise Unusable(f"cannot use {file}: {error.strerror}") from error
    except UnicodeDecodeError as error:
        raise Unusable(f"{file} is not UTF-8") from error
    if not paths:
        raise Unusable(f"{file} names no recording")
    ordered = sorted(paths)
    for path, following in zip(ordered, ordered[1:]):
        if path == following:
            raise Unusable(f"{file} names {path} twice")
    archives = [it for it in ordered if not it.endswith(".stream")]
    if archives and not is_import_given:
        raise Unusable(f"{archives[0]} is an archive, as its name does not end with .stream: say with --import=OPTIONS how it becomes a stream")
    return ordered, bool(archives)
