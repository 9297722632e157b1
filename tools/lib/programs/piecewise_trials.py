"""Calls that a row can't say: what comes to a program piece by piece, what goes on to one that dies, files that are holes, and several
calls behind each other."""

import contextlib
import os
import select
import signal
import socket
import subprocess
import tempfile

from records import LOW, LOW_VOLTS, NO_ENTRIES, OLD_PAGE, SAMPLE, STARTED, beginning, record, requested
from trial import SECONDS, Trial, ended, written

# The calls of the trials.
CALLS = ["flight_run compile", "flight_run run", "flight_tools format", "flight_tools live", "flight_tools report", "flight_tools scenario", "flight_tools stream", "flight_tools table"]
# What comes, and what has to be there before anything more comes.
STEPS = [(beginning(), STARTED), (LOW + SAMPLE, b""), (LOW + SAMPLE, requested(4))]


def read_exactly(descriptor, size):
    """So many bytes, or fewer where no more come in time."""
    found = b""
    while len(found) < size and select.select([descriptor], [], [], SECONDS)[0]:
        piece = os.read(descriptor, size - len(found))
        if not piece:
            break
        found += piece
    return found


def step_by_step(stream, packets):
    """Gives what comes step by step, and waits for what each leads to; answers a sentence where that isn't there."""
    for number, (given, expected) in enumerate(STEPS):
        try:
            os.write(stream, given)
        except BrokenPipeError:
            return [f"before step {number} it didn't read any more"]
        found = read_exactly(packets, len(expected))
        if found != expected:
            return [f"behind step {number} there were {len(found)} bytes of {len(expected)} before more of the stream came"]
    return []


@contextlib.contextmanager
def live(programs, **how):
    """`flight_tools live` in a folder with a schedule and a text, between pipes where nothing else is said."""
    with tempfile.TemporaryDirectory(prefix="try-programs-") as place:
        written(place, {"schedule": NO_ENTRIES, "rules": LOW_VOLTS})
        words = [programs["flight_tools"], "live", "--schedule", "schedule", "rules"]
        pipes = dict.fromkeys(["stdin", "stdout", "stderr"], subprocess.PIPE)
        yield subprocess.Popen(words, cwd=place, bufsize=0, **{**pipes, **how})


def end_of_stream(ran):
    ran.stdin.close()
    ran.stdin = None


def through_pipes(programs):
    """`flight_tools live` between two pipes."""
    with live(programs) as ran:
        faults = step_by_step(ran.stdin.fileno(), ran.stdout.fileno())
        end_of_stream(ran)
        return faults + ended(ran, 0, b"records 7, bytes 852\n")


def through_a_socket(programs):
    """`flight_tools live` at one end of a socket, as `socat` or a service manager would put it there."""
    ours, its = socket.socketpair()
    with ours, live(programs, stdin=its, stdout=its) as ran:
        its.close()
        faults = step_by_step(ours.fileno(), ours.fileno())
        ours.shutdown(socket.SHUT_WR)
        return faults + ended(ran, 0, b"records 7, bytes 852\n")


def from_writers_in_turn(programs):
    """The stream comes through a named pipe that a shell keeps open, from one writer after the other, each of which ends inside a
    record; the packets go through `cat`."""
    with tempfile.TemporaryDirectory(prefix="try-programs-") as place:
        stream = beginning() + 2 * (LOW + SAMPLE)
        pieces = {f"piece{number}": stream[number * 30 : number * 30 + 30] for number in range(len(stream) // 30 + 1)}
        written(place, {"schedule": NO_ENTRIES, "rules": LOW_VOLTS, **pieces})
        os.mkfifo(os.path.join(place, "stream"))
        turns = "; ".join(f"cat piece{number}" for number in range(len(pieces)))
        line = f"({turns}) > stream & {programs['flight_tools']} live --schedule schedule rules < stream | cat; wait"
        ran = subprocess.run(["sh", "-c", line], cwd=place, capture_output=True, timeout=SECONDS)
        found = (ran.returncode, ran.stdout, ran.stderr)
        expected = (0, STARTED + requested(4), b"records 7, bytes 852\n")
        return [] if found == expected else [f"it ended with {found} and should with {expected}"]


def through_fifos(programs):
    """`flight_run run` between two named pipes: what it says on standard output is not looked at here."""
    with tempfile.TemporaryDirectory(prefix="try-programs-") as place:
        written(place, {"schedule": NO_ENTRIES, "rules": LOW_VOLTS})
        for name in ("stream", "out"):
            os.mkfifo(os.path.join(place, name))
        words = "run --schedule schedule --stream stream --out out rules".split()
        ran = subprocess.Popen([programs["flight_run"], *words], cwd=place, stdout=subprocess.DEVNULL, stderr=subprocess.PIPE)
        packets = os.open(os.path.join(place, "out"), os.O_RDONLY | os.O_NONBLOCK)
        stream = os.open(os.path.join(place, "stream"), os.O_RDWR)
        faults = step_by_step(stream, packets)
        os.close(stream)
        faults += ended(ran, 0, b"")
        os.close(packets)
        return faults


def from_one_that_dies(programs):
    """The stream comes from a process that is killed inside a record."""
    front = subprocess.Popen(["sh", "-c", "cat; exec sleep 600 < /dev/null"], stdin=subprocess.PIPE, stdout=subprocess.PIPE)
    with live(programs, stdin=front.stdout) as ran:
        front.stdout.close()
        front.stdin.write(beginning() + LOW[:5])
        front.stdin.close()
        found = read_exactly(ran.stdout.fileno(), len(STARTED))
        front.kill()
        front.wait()
        faults = [] if found == STARTED else [f"{len(found)} bytes came of {len(STARTED)}"]
        return faults + ended(ran, 4, b"the stream ends inside record 4\n")


def to_one_that_dies(programs):
    """Who reads the packets goes away, and the next write ends the run without a word."""
    with live(programs) as ran:
        try:
            os.write(ran.stdin.fileno(), beginning())
            read_exactly(ran.stdout.fileno(), len(STARTED))
            ran.stdout.close()
            ran.stdout = None
            os.write(ran.stdin.fileno(), 2 * (LOW + SAMPLE))
        except BrokenPipeError:
            return ["it didn't read its stream"]
        return ended(ran, 0, b"")


def heed_signals():
    """Signals end this process, also where whoever started the gate ignores some, as `nohup` does."""
    for number in (signal.SIGINT, signal.SIGTERM, signal.SIGHUP):
        signal.signal(number, signal.SIG_DFL)


def by_signals(programs):
    """A signal ends `flight_tools live` between two records: what all records before led to is written, and nothing is said. SIGPIPE
    does nothing."""
    faults = []
    for number, status in ((signal.SIGINT, None), (signal.SIGTERM, None), (signal.SIGHUP, None), (signal.SIGPIPE, 4)):
        with live(programs, preexec_fn=heed_signals) as ran:
            faults += step_by_step(ran.stdin.fileno(), ran.stdout.fileno())
            os.write(ran.stdin.fileno(), LOW[:5])
            ran.send_signal(number)
            if status is not None:
                end_of_stream(ran)
            packets, said = ran.communicate(timeout=SECONDS)
            expected = (-number, b"", b"") if status is None else (status, b"", b"the stream ends inside record 8\n")
            if (ran.returncode, packets, said) != expected:
                faults.append(f"{number.name} ended it with {(ran.returncode, packets, said)} and should with {expected}")
    return faults


def of_a_sparse_file(programs):
    """No command takes the memory of a file that is a hole, of 3 GB, or of 300 MB where it is read to its end, with 256 MiB to have."""
    with tempfile.TemporaryDirectory(prefix="try-programs-") as place:
        written(place, {"schedule": NO_ENTRIES, "rules": LOW_VOLTS, "stream": b""})
        with open(os.path.join(place, "hole"), "wb") as hole:
            hole.truncate(3 << 30)
        with open(os.path.join(place, "lesser"), "wb") as lesser:
            lesser.truncate(300 << 20)
        nothing = (
            b"warning[nothing-sampled]: records: 0, and no rule was sampled: is `LC` started and enabled, are there tables, ticks, `SCH` and"
            b" a schedule that samples?\n"
        )
        calls = {
            "table hole": (3, b"cannot use hole: it has more than 32768 bytes\n"),
            "stream --stream hole": (4, b""),
            "scenario --script hole --out made": (3, b"cannot use hole: it has more than 67108864 bytes\n"),
            "report --schedule hole --stream stream --out page rules": (3, b"cannot use hole: it has more than 65536 bytes\n"),
            "report --schedule schedule --stream lesser --out page rules": (4, nothing + b"lesser: record 1 is none; of raw space packets `flight_tools import` makes a stream\n"),
            "report --schedule schedule --stream stream --out page hole": (1, b"hole: the text has over 65,536 bytes\n"),
            "live --schedule schedule hole": (1, b"hole: the text has over 65,536 bytes\n"),
        }
        faults = []
        for words, expected in calls.items():
            words = ["sh", "-c", f"ulimit -v 262144; exec {programs['flight_tools']} {words}"]
            ran = subprocess.run(words, cwd=place, stdin=subprocess.DEVNULL, capture_output=True, timeout=SECONDS)
            found = (ran.returncode, ran.stderr)
            if found != expected:
                faults.append(f"{words[2]} ended with {found} and should with {expected}")
        return faults


def in_pieces(programs):
    """A stream of many sizes of records, whose ends lie anywhere in a piece, is listed record by record; its script says it again."""
    sizes = [(number * 997) % 5_000 for number in range(200)]
    stream = b"".join(record(3, b"name".ljust(40, b"\0") + bytes(size)) for size in sizes)
    lines = b"".join(b"%d 100 0 file name %d bytes\n" % (number + 1, size) for number, size in enumerate(sizes))
    with tempfile.TemporaryDirectory(prefix="try-programs-") as place:
        written(place, {"stream": stream})
        tool = programs["flight_tools"]
        listed = subprocess.run([tool, "stream", "--stream", "stream"], cwd=place, capture_output=True, timeout=SECONDS)
        script = subprocess.run([tool, "stream", "--whole", "--stream", "stream"], cwd=place, capture_output=True, timeout=SECONDS)
        written(place, {"script": script.stdout})
        made = subprocess.run([tool, "scenario", "--script", "script", "--out", "again"], cwd=place, capture_output=True, timeout=SECONDS)
        with open(os.path.join(place, "again"), "rb") as again:
            is_again = again.read() == stream
        found = (listed.returncode, listed.stdout == lines, script.returncode, made.returncode, is_again)
        return [] if found == (0, True, 0, 0, True) else [f"it was {found}: {listed.stdout[:200]} {listed.stderr[:200]}"]


def with_the_old_rights(programs):
    """A page that takes the place of another has what the system allowed of that one."""
    with tempfile.TemporaryDirectory(prefix="try-programs-") as place:
        written(place, {"schedule": NO_ENTRIES, "rules": LOW_VOLTS, "stream": b"", "page": OLD_PAGE})
        page = os.path.join(place, "page")
        os.chmod(page, 0o604)
        words = [programs["flight_tools"], *"report --schedule schedule --stream stream --out page rules".split()]
        ran = subprocess.run(words, cwd=place, capture_output=True, timeout=SECONDS)
        found = (ran.returncode, os.stat(page).st_mode & 0o777, sorted(os.listdir(place)))
        expected = (6, 0o604, ["page", "rules", "schedule", "stream"])
        return [] if found == expected else [f"it was {found} and should be {expected}"]


def with_quotes_in_a_name(programs):
    """A table's name with quotes and a backslash reads as one name."""
    with tempfile.TemporaryDirectory(prefix="try-programs-") as place:
        written(place, {"rules": LOW_VOLTS})
        subprocess.run([programs["flight_run"], "compile", "rules", "wdt", "adt"], cwd=place, capture_output=True, timeout=SECONDS)
        with open(os.path.join(place, "wdt"), "r+b") as table:
            table.seek(76)
            table.write(b'A" description "\\'.ljust(40, b"\0"))
        ran = subprocess.run([programs["flight_tools"], "table", "wdt"], cwd=place, capture_output=True, timeout=SECONDS)
        found = (ran.returncode, ran.stdout.split(b"\n")[1:2])
        expected = (0, [b'table: "A\\x22 description \\x22\\x5c" description "" reserved 0 offset 0 bytes 4264'])
        return [] if found == expected else [f"it was {found} and should be {expected}"]


def from_no_input(programs):
    """A stream that can't be read is said as any file is."""
    with tempfile.TemporaryDirectory(prefix="try-programs-") as place:
        written(place, {"schedule": NO_ENTRIES, "rules": LOW_VOLTS})
        words = f"{programs['flight_tools']} live --schedule schedule rules < ."
        ran = subprocess.run(["sh", "-c", words], cwd=place, capture_output=True, timeout=SECONDS)
        found = (ran.returncode, ran.stdout, ran.stderr)
        expected = (3, b"", b"cannot use standard input: it is a folder\n")
        return [] if found == expected else [f"it ended with {found} and should with {expected}"]


def from_a_file_that_is_too_long(programs):
    """A rule text of standard input that is a byte too long is refused also where a file brings all but that byte in whole pieces."""
    with tempfile.TemporaryDirectory(prefix="try-programs-") as place:
        written(place, {"text": b"\n" * 65_537})
        ran = subprocess.run(["sh", "-c", f"{programs['flight_tools']} format - < text"], cwd=place, capture_output=True, timeout=SECONDS)
        found = (ran.returncode, ran.stdout, ran.stderr)
        expected = (1, b"", b"standard input: the text has over 65,536 bytes\n")
        return [] if found == expected else [f"it ended with {found} and should with {expected}"]


TRIALS = [
    Trial("packets come through pipes before more of the stream does", through_pipes),
    Trial("packets come through named pipes before more of the stream does", through_fifos),
    Trial("packets come through a socket before more of the stream does", through_a_socket),
    Trial("a stream from one writer after the other", from_writers_in_turn),
    Trial("a stream from a process that dies is cut", from_one_that_dies),
    Trial("packets to a process that dies end the run quietly", to_one_that_dies),
    Trial("a signal ends a run as it comes between two records", by_signals),
    Trial("a folder as the stream of a run as it comes", from_no_input),
    Trial("a text that is a byte too long, of a file as standard input", from_a_file_that_is_too_long),
    Trial("no memory is taken for a hole of 3 GB", of_a_sparse_file, is_slow=True),
    Trial("a stream is listed in pieces, and its script says it again", in_pieces, is_slow=True),
    Trial("a page keeps the rights of the old one", with_the_old_rights),
    Trial("a quote within a table's name ends no name", with_quotes_in_a_name),
]
