"""The engines of a campaign: each runs `task ROUND NUMBER..` for all numbers of a list, and is judged by what then is there.

Scheduling, retries and transport are theirs. What they read of the environment (PARALLEL, PARALLEL_SSH, SBATCH_PARTITION ..) holds."""
import os
import re
import shlex
import shutil
import signal
import subprocess
import time

from .inputs import Unusable

# Without these a line that is pulled is waited for without an end.
SSH = "ssh -o BatchMode=yes -o ServerAliveInterval=5 -o ServerAliveCountMax=3"
TRIES = 3
JOB = """\
#!/bin/sh
last=$((SLURM_ARRAY_TASK_ID * {chunk}))
[ "$last" -le {count} ] || last={count}
exec {task} {round} $(seq $((SLURM_ARRAY_TASK_ID * {chunk} - {chunk} + 1)) "$last")
"""


def needed(program, package):
    if shutil.which(program) is None:
        raise Unusable(f"there is no `{program}` (Debian's package {package})")


class Parallel:
    """GNU parallel on this machine."""

    def __init__(self, jobs, chunk, round, count):
        self.jobs, self.chunk, self.round, self.count = jobs, chunk or 1, round, count
        self.task = f"{os.path.dirname(os.path.dirname(round))}/task"

    @staticmethod
    def is_there():
        needed("parallel", "parallel")

    def words(self):
        # (for more jobs than tasks parallel only looks for room, which takes it many seconds)
        jobs = ["--jobs", str(min(self.jobs, -(-self.count // self.chunk)))] if self.jobs else []
        words = ["parallel", "--retries", str(TRIES), "--joblog", f"{self.round}/joblog", "--max-args", str(self.chunk), *jobs]
        return [*words, *self.places(), shlex.quote(self.task), shlex.quote(self.round)]

    def places(self):
        return []

    def reads(self):
        return "".join(f"{number}\n" for number in range(1, self.count + 1))

    def stop(self, ran):
        """The second SIGTERM ends the tasks too."""
        for _ in range(2):
            ran.send_signal(signal.SIGTERM)
            time.sleep(0.2)

    def run(self):
        """Runs all, and returns how that ended. What the engine says lies beside the list."""
        with open(f"{self.round}/numbers", "w+", encoding="ascii") as numbers, open(f"{self.round}/said", "wb") as said:
            numbers.write(self.reads())
            numbers.seek(0)
            try:
                ran = subprocess.Popen(self.words(), stdin=numbers, stdout=said, stderr=said)
            except OSError as error:
                raise Unusable(f"cannot use {self.words()[0]}: {error.strerror}") from error
            try:
                return ran.wait()
            except BaseException:
                self.stop(ran)
                ran.wait()
                raise


class Ssh(Parallel):
    """GNU parallel over the hosts of a file, which see the recordings and the campaign's folder under the same paths."""

    def __init__(self, hosts, *others):
        super().__init__(*others)
        self.hosts = hosts

    def places(self):
        ssh = os.environ.get("PARALLEL_SSH", SSH)
        return ["--ssh", ssh, "--sshloginfile", self.hosts, "--filter-hosts", "--workdir", "/"]


class Slurm(Parallel):
    """An array job of Slurm, which queues the tasks of a node again that ends."""

    def __init__(self, *others):
        super().__init__(*others)
        longest = self.longest()
        self.chunk = max(self.chunk, -(-self.count // longest))
        self.name = f"campaign-{os.path.basename(os.path.dirname(os.path.dirname(self.round)))}-{os.getpid()}"

    @staticmethod
    def is_there():
        for it in ("sbatch", "scontrol", "scancel"):
            needed(it, "slurm-client")

    @staticmethod
    def longest():
        """How many tasks an array may have."""
        ran = subprocess.run(["scontrol", "show", "config"], stdin=subprocess.DEVNULL, capture_output=True, text=True)
        found = re.search(r"^MaxArraySize\s*=\s*(\d+)", ran.stdout, re.M)
        if found is None:
            raise Unusable(f"scontrol ends with {ran.returncode}: {ran.stderr.strip()}")
        return max(int(found[1]) - 1, 1)

    def words(self):
        most = f"%{self.jobs}" if self.jobs else ""
        array = f"--array=1-{-(-self.count // self.chunk)}{most}"
        outputs = [f"--output={self.round}/task-%a", "--open-mode=append"]
        return ["sbatch", "--wait", "--requeue", f"--job-name={self.name}", "--chdir=/", *outputs, array]

    def reads(self):
        return JOB.format(chunk=self.chunk, count=self.count, task=shlex.quote(self.task), round=shlex.quote(self.round))

    def stop(self, ran):
        """Ends the job, which goes on without sbatch."""
        subprocess.run(["scancel", f"--name={self.name}"], stdin=subprocess.DEVNULL, stdout=subprocess.DEVNULL, stderr=subprocess.DEVNULL)
        ran.terminate()


def engine_of(word):
    """What makes the engine of a word, once it is known to be there."""
    name, _, file = word.partition(":")
    if name == "ssh" and file:
        Ssh.is_there()
        if not os.path.isfile(file):
            raise Unusable(f"there is no file of hosts {file}")
        return lambda *others: Ssh(os.path.abspath(file), *others)
    if word not in ("parallel", "slurm"):
        raise Unusable(f"there is no engine {word}: parallel, ssh:FILE or slurm")
    engine = Parallel if word == "parallel" else Slurm
    engine.is_there()
    return engine
