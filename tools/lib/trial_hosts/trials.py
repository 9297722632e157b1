"""A campaign over an engine, disturbed in its middle: what it leaves has to be what one worker leaves that nothing disturbs."""
import collections
import contextlib
import os
import sqlite3
import subprocess
import sys
import time

from campaign.table import dump
from repository import ROOT
from trial_hosts.namespaces import SECONDS, Failed, wait_until

SCRIPT = f"{ROOT}/tools/campaign"
BUS = f"{ROOT}/examples/power_bus/power_bus"
# Stands for flight_run: notes when a recording's first run begins, and on which host, when its last one ends, and takes a pause.
PROGRAM = """\
#!/bin/sh
name=$(basename "$(readlink recording)" .stream)
case " $* " in *" old "*) echo "begin $name $(hostname)" >> "{place}/ledger"; sleep "$(cat "{place}/pause.$(hostname)" || cat "{place}/pause")" ;; esac
"{program}" "$@"
status=$?
case " $* " in *" new "*) echo "end $name $(hostname)" >> "{place}/ledger" ;; esac
exit $status
"""


def write(path, text, mode=0o644):
    with open(path, "w", encoding="utf-8") as file:
        file.write(text)
    os.chmod(path, mode)


class Trials:
    """Recordings, texts and programs in a folder, and the lines that one worker leaves. A kind of hosts says which trials there are
    (NAMES), of how many recordings, how many seconds each takes, and which host is disturbed; `begin` starts a campaign on them."""

    NAMES, RECORDINGS, PAUSE, VICTIM = (), 0, 0, ""

    def __init__(self, hosts, folder, programs):
        self.hosts, self.folder, self.count, self.variables, self.faults = hosts, folder, self.RECORDINGS, hosts.variables, 0
        self.pause, self.pauses, self.began, self.ran = self.PAUSE, {}, 0, None
        os.makedirs(f"{folder}/programs")
        tools = os.path.abspath(f"{programs}/flight_tools")
        os.symlink(tools, f"{folder}/programs/flight_tools")
        write(f"{folder}/programs/flight_run", PROGRAM.format(place=folder, program=os.path.abspath(f"{programs}/flight_run")), 0o755)
        self.make_texts()
        self.make_recordings(tools)
        write(f"{folder}/pause", "0\n")
        self.expected = self.lines_of_one()

    def make_texts(self):
        with open(f"{BUS}.rules", encoding="utf-8") as file:
            rules = file.read()
        write(f"{self.folder}/old.txt", rules)
        write(f"{self.folder}/new.txt", rules.replace("VOLTS < 2600", "VOLTS < 2700"))

    def make_recordings(self, tools):
        """Passes whose voltage falls to another depth each."""
        with open(f"{BUS}.scenario", encoding="utf-8") as file:
            script = file.read()
        for number in range(1, self.count + 1):
            write(f"{self.folder}/script", script.replace("u16be 12 25", f"u16be 12 {25 + number % 3}"))
            subprocess.run([tools, "scenario", "--script", "script", "--out", f"{number:03}.stream"], cwd=self.folder, check=True, timeout=60)
        write(f"{self.folder}/list", "".join(f"{number:03}.stream\n" for number in range(1, self.count + 1)))

    def words(self, name, *others):
        texts = ["--schedule", f"{BUS}.schedule", "--old", "old.txt", "--new", "new.txt"]
        return [SCRIPT, *texts, "--programs", "programs", "--out", f"{name}.sqlite", *others, "list"]

    def lines_of_one(self):
        ran = subprocess.run(self.words("one", "--jobs", "1"), cwd=self.folder, capture_output=True, text=True, timeout=600)
        if ran.returncode:
            raise Failed(f"the campaign of one worker ends with {ran.returncode}: {ran.stderr}")
        print(f"one worker: {ran.stdout.strip()}")
        return list(dump(f"{self.folder}/one.sqlite"))

    def ledger(self):
        with contextlib.suppress(FileNotFoundError), open(f"{self.folder}/ledger", encoding="ascii") as file:
            return [tuple(line.split()) for line in file]
        return []

    def since(self):
        return f"{time.monotonic() - self.began:5.1f} s"

    def say(self, what):
        print(f"  {self.since()}: {what}", flush=True)

    def start(self, name, what, words, *others):
        """Begins a campaign; `words` lead to where it runs."""
        print(f"== {name}: {what}", flush=True)
        write(f"{self.folder}/pause", f"{self.pause}\n")
        for host, pause in self.pauses.items():
            write(f"{self.folder}/pause.{host}", f"{pause}\n")
        with contextlib.suppress(FileNotFoundError):
            os.remove(f"{self.folder}/ledger")
        self.began = time.monotonic()
        self.ran = subprocess.Popen([*words, *self.words(name, *others)], cwd=self.folder, env=self.variables, stdout=subprocess.PIPE, stderr=subprocess.PIPE, text=True)
        return self.ran

    def quiet(self):
        self.end(self.begin("quiet", "nothing happens"), "quiet")

    def disturbed(self, name, what, disturb):
        """Begins a campaign, and disturbs a host in its middle."""
        ran = self.begin(name, what)
        self.in_the_middle(self.VICTIM)
        disturb(self.hosts.network.hosts[self.VICTIM])
        self.say(what)
        return ran

    def plug_in_again(self, name):
        """Gives a host its line back, and starts it anew."""
        host = self.hosts.network.hosts[name]
        host.plug()
        host.cut()
        self.hosts.start(name)

    def same_words_again(self, name, ended):
        """The same words end a campaign that was broken off, and run nothing of what had ended."""
        begun = self.end(self.begin(name, "the same words again"), name)
        self.expect("whether a recording ran again that had ended before", bool(ended & set(begun)), False)

    def close(self):
        """Ends the campaign that runs, with its engine."""
        if self.ran is not None and self.ran.poll() is None:
            self.ran.terminate()
            self.ran.communicate(timeout=SECONDS)

    def in_the_middle(self, host):
        """Waits until a host has ended recordings, unless it takes long over them, and is in the middle of two others."""

        def is_so():
            begun, ended = (sum(it[0] == word and it[2] == host for it in self.ledger()) for word in ("begin", "end"))
            return (ended > 0 or host in self.pauses) and begun - ended > 1

        wait_until(f"{host} is in the middle", is_so)
        time.sleep(0.3)

    def end(self, ran, name, status=0):
        """Waits for a campaign's end, and judges it: its status, and where that is 0 each line of its table."""
        said, error = ran.communicate(timeout=600)
        ledger = self.ledger()
        begun, ended = (collections.Counter(it[1] for it in ledger if it[0] == word) for word in ("begin", "end"))
        hosts = sorted(collections.Counter(it[2] for it in ledger if it[0] == "end").items())
        self.say(f"status {ran.returncode}; {(said or error).strip() or 'no word'}")
        print(f"  begun again {sum(it > 1 for it in begun.values())}, ended twice {sum(it > 1 for it in ended.values())}; ended on {', '.join(f'{host}: {n}' for host, n in hosts)}")
        self.expect("the status", (ran.returncode, os.path.exists(f"{self.folder}/{name}.sqlite")), (status, status in (0, 1)))
        if status in (0, 1) and os.path.exists(f"{self.folder}/{name}.sqlite"):
            lines = list(dump(f"{self.folder}/{name}.sqlite"))
            is_same = lines == self.expected
            print(f"  rows {len(lines)}: {'those of one worker, byte for byte' if is_same else 'others than those of one worker'}", flush=True)
            self.expect("whether the rows are those of one worker", is_same, status == 0)
        return begun

    @contextlib.contextmanager
    def longer(self, host, pause):
        """Meanwhile a host takes so many seconds over a recording."""
        self.pauses = {host: pause}
        try:
            yield
        finally:
            self.pauses = {}
            os.remove(f"{self.folder}/pause.{host}")

    def complete(self, name):
        """The recordings of a table that have rows."""
        with contextlib.closing(sqlite3.connect(f"{self.folder}/{name}.sqlite")) as database:
            return {path.removesuffix(".stream") for (path,) in database.execute("select path from recordings where outcome != 'failed'")}

    def expect(self, what, found, expected):
        if found != expected:
            self.faults += 1
            print(f"  WRONG: {what} is {found}, and should be {expected}", flush=True)

    def finish(self):
        print(f"{'all as it should be' if not self.faults else f'{self.faults} wrong'}")
        sys.exit(1 if self.faults else 0)
