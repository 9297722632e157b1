"""Hosts on one machine: each has namespaces of its own for its network, name, processes and /run, and so can lose its power or its line.

Needs root and Debian's iproute2. A network is a bridge in a namespace of its own; nothing outside of it is reached or changed. All
is ended by `close`, by the ids of the processes that were started here."""
import os
import shutil
import signal
import subprocess
import time

SECONDS = 60
# The first process of a host does no more than to reap, as those of a killed daemon become its children.
INIT = """
set -eu
hostname "$1"
mount -t tmpfs tmpfs /run
mkdir -p /run/sshd /run/slurm
[ ! -f "$2/passwd" ] || mount --bind "$2/passwd" /etc/passwd
trap '' HUP
: > "$2/$1.up"
while :; do sleep 1; done
"""


class Failed(Exception):
    """What cannot be brought up, or did not come out as it should."""


def with_packages(packages, folder):
    """The environment in which the programs of unpacked packages are found, and those that are installed. What a killed task leaves
    lies in the folder too."""
    library = f"{packages}/usr/lib/x86_64-linux-gnu"
    paths = [f"{packages}/usr/sbin", f"{packages}/usr/bin"] if packages else []
    os.mkdir(f"{folder}/scratch")
    variables = {**os.environ, "TMPDIR": f"{folder}/scratch", "PATH": ":".join([*paths, os.environ["PATH"], "/usr/sbin", "/sbin"])}
    if packages:
        variables["LD_LIBRARY_PATH"] = f"{library}:{library}/slurm-wlm"
    return variables


def program(name, variables):
    """A program by its name, or by the one that Debian's packages give it before they are installed."""
    found = shutil.which(name, path=variables["PATH"]) or shutil.which(f"{name}-wlm", path=variables["PATH"])
    if found is None:
        raise Failed(f"there is no {name}")
    return found


def call(*words, **others):
    ran = subprocess.run(words, capture_output=True, text=True, timeout=SECONDS, **others)
    if ran.returncode:
        raise Failed(f"{' '.join(words)} ends with {ran.returncode}: {ran.stderr.strip()}")
    return ran.stdout


def wait_until(what, is_so, seconds=SECONDS, pause=0.1):
    until = time.monotonic() + seconds
    while not is_so():
        if time.monotonic() > until:
            raise Failed(f"after {seconds} s it is not so: {what}")
        time.sleep(pause)


class Network:
    """A bridge in a namespace, to which the lines of the hosts go; `desk` is where commands are given."""

    def __init__(self, folder, front, variables):
        self.folder, self.front, self.variables = folder, front, variables
        self.tag, self.hosts = f"nm{os.getpid()}", {}
        self.desk = f"{self.tag}desk"
        call("ip", "netns", "add", self.desk)
        for words in (["link", "set", "lo", "up"], ["link", "add", "hub0", "type", "bridge"], ["addr", "add", f"{front}.1/24", "dev", "hub0"], ["link", "set", "hub0", "up"]):
            call("ip", "-n", self.desk, *words)

    def add(self, name, last):
        self.hosts[name] = Host(self, name, f"{self.front}.{last}")
        return self.hosts[name]

    def at_desk(self, *words):
        return ["ip", "netns", "exec", self.desk, *words]

    def close(self):
        for host in self.hosts.values():
            host.cut()
        for space in (*(host.space for host in self.hosts.values()), self.desk):
            subprocess.run(["ip", "netns", "del", space], capture_output=True)


class Host:
    """A host with a line to the network's bridge."""

    def __init__(self, network, name, address):
        self.network, self.name, self.address = network, name, address
        self.space, self.line, self.outer, self.daemons = f"{network.tag}{name}", f"to{name}", None, {}
        call("ip", "netns", "add", self.space)
        call("ip", "-n", self.space, "link", "set", "lo", "up")
        call("ip", "-n", network.desk, "link", "add", self.line, "type", "veth", "peer", "name", "eth0", "netns", self.space)
        call("ip", "-n", network.desk, "link", "set", self.line, "master", "hub0", "up")
        call("ip", "-n", self.space, "addr", "add", f"{address}/24", "dev", "eth0")
        call("ip", "-n", self.space, "link", "set", "eth0", "up")

    def power(self):
        """Gives it power: its first process runs."""
        if self.outer is not None:
            return
        mark = f"{self.network.folder}/{self.name}.up"
        if os.path.exists(mark):
            os.remove(mark)
        words = ["ip", "netns", "exec", self.space, "unshare", "--mount", "--uts", "--pid", "--fork", "--kill-child=KILL", "--mount-proc"]
        with open(f"{self.network.folder}/{self.name}.log", "ab") as log:
            self.outer = subprocess.Popen([*words, "sh", "-c", INIT, "host", self.name, self.network.folder], stdin=subprocess.DEVNULL, stdout=log, stderr=log, start_new_session=True)
        wait_until(f"{self.name} is up", lambda: os.path.exists(mark))

    def inner(self):
        with open(f"/proc/{self.outer.pid}/task/{self.outer.pid}/children", encoding="ascii") as file:
            return file.read().split()[0]

    def daemon(self, *words):
        """Starts a daemon in it."""
        inside = ["nsenter", "--target", self.inner(), "--mount", "--uts", "--net", "--pid"]
        with open(f"{self.network.folder}/{self.name}.log", "ab") as log:
            ran = subprocess.Popen([*inside, *words], stdin=subprocess.DEVNULL, stdout=log, stderr=log, env=self.network.variables, start_new_session=True)
        self.daemons[words[0]] = ran

    def stop(self, number=signal.SIGTERM):
        """Ends its daemons alone; what they began goes on."""
        for ran in self.daemons.values():
            with open(f"/proc/{ran.pid}/task/{ran.pid}/children", encoding="ascii") as file:
                for child in file.read().split():
                    os.kill(int(child), number)
            ran.wait(SECONDS)
        self.daemons = {}

    def cut(self):
        """Takes its power: all that runs on it ends at once."""
        if self.outer is None:
            return
        self.outer.kill()
        for ran in (self.outer, *self.daemons.values()):
            ran.wait(SECONDS)
        self.outer, self.daemons = None, {}

    def unplug(self):
        call("ip", "-n", self.network.desk, "link", "set", self.line, "down")

    def plug(self):
        call("ip", "-n", self.network.desk, "link", "set", self.line, "up")
