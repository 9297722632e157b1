"""Two hosts that are reached by GNU parallel and ssh, and what a host, a line or the desk that ends in the middle costs a campaign."""
import os
import signal
import subprocess

from trial_hosts.namespaces import Network, call, program, wait_until, with_packages
from trial_hosts.trials import Trials, write

HOSTS = ("nm1", "nm2")
CLIENT = """\
IdentityFile {folder}/key
IdentitiesOnly yes
UserKnownHostsFile {folder}/known
GlobalKnownHostsFile /dev/null
StrictHostKeyChecking yes
BatchMode yes
User root
ConnectTimeout 5
ServerAliveInterval 2
ServerAliveCountMax 3
"""
SERVER = """\
ListenAddress {address}:22
HostKey {folder}/{name}.key
AuthorizedKeysFile {folder}/key.pub
PidFile none
StrictModes no
UsePAM no
PasswordAuthentication no
KbdInteractiveAuthentication no
PermitRootLogin prohibit-password
MaxStartups 50
MaxSessions 50
SetEnv TMPDIR={folder}/scratch
"""


class Hosts:
    """Two hosts with an sshd each, and a desk from which they are reached."""

    def __init__(self, folder, packages):
        parallel = {"PARALLEL_SSH": f"ssh -F {folder}/ssh", "PARALLEL_HOME": f"{folder}/parallel"}
        self.folder, self.variables = folder, {**with_packages(packages, folder), **parallel}
        self.sshd = program("sshd", self.variables)
        self.network = Network(folder, "10.77.0", self.variables)

    def close(self):
        self.network.close()

    def bring_up(self):
        os.mkdir(f"{self.folder}/parallel")
        call("ssh-keygen", "-q", "-t", "ed25519", "-N", "", "-f", f"{self.folder}/key", env=self.variables)
        with open("/etc/passwd", encoding="utf-8") as file:
            users = [line for line in file if not line.startswith("sshd:")]
        write(f"{self.folder}/passwd", "".join(users) + "sshd:x:64999:65534::/run/sshd:/usr/sbin/nologin\n")
        client, known = CLIENT.format(folder=self.folder), ""
        for number, name in enumerate(HOSTS, 11):
            host = self.network.add(name, number)
            call("ssh-keygen", "-q", "-t", "ed25519", "-N", "", "-f", f"{self.folder}/{name}.key", env=self.variables)
            with open(f"{self.folder}/{name}.key.pub", encoding="utf-8") as file:
                known += f"{host.address} {' '.join(file.read().split()[:2])}\n"
            client += f"Host {name}\nHostName {host.address}\n"
            write(f"{self.folder}/{name}.conf", SERVER.format(folder=self.folder, name=name, address=host.address))
        write(f"{self.folder}/ssh", client)
        write(f"{self.folder}/known", known)
        write(f"{self.folder}/hosts", "".join(f"2/{name}\n" for name in HOSTS))
        for name in HOSTS:
            self.start(name)

    def start(self, name):
        host = self.network.hosts[name]
        host.power()
        if not host.daemons:
            host.daemon(self.sshd, "-D", "-e", "-f", f"{self.folder}/{name}.conf")
        words = self.network.at_desk("ssh", "-F", f"{self.folder}/ssh", name, "true")
        wait_until(f"{name} answers", lambda: subprocess.run(words, env=self.variables, capture_output=True).returncode == 0)


class OverSsh(Trials):
    """Campaigns at the desk."""

    NAMES = ("quiet", "cut", "unplugged", "desk", "down", "both")
    RECORDINGS, PAUSE, VICTIM = 20, 1.5, "nm1"

    def begin(self, name, what, *others):
        return self.start(name, what, self.hosts.network.at_desk(), "--on", f"ssh:{self.hosts.folder}/hosts", *others)

    def cut(self):
        self.end(self.disturbed("cut", "a host loses power", lambda host: host.cut()), "cut")
        self.hosts.start("nm1")

    def unplugged(self):
        """What runs on the host goes on to its end, beside its repetition on the other host."""
        with self.longer("nm1", 10):
            self.end(self.disturbed("unplugged", "a host's line is pulled", lambda host: host.unplug()), "unplugged")
        self.plug_in_again("nm1")

    def desk(self):
        """The script and its parallel are killed; what they began on the hosts goes on."""
        ran = self.begin("desk", "the campaign is killed at its desk")
        self.in_the_middle("nm1")
        with open(f"/proc/{ran.pid}/task/{ran.pid}/children", encoding="ascii") as file:
            for pid in (ran.pid, *map(int, file.read().split())):
                os.kill(pid, signal.SIGKILL)
        self.end(ran, "desk", -signal.SIGKILL)
        self.same_words_again("desk", {it[1] for it in self.ledger() if it[0] == "end"})

    def down(self):
        self.hosts.network.hosts["nm1"].cut()
        self.end(self.begin("down", "a host is down from the start"), "down")
        self.hosts.start("nm1")

    def both(self):
        ran = self.disturbed("both", "both hosts lose power", lambda host: [it.cut() for it in host.network.hosts.values()])
        self.end(ran, "both", 1)
        for name in HOSTS:
            self.hosts.start(name)
        self.same_words_again("both", self.complete("both"))
