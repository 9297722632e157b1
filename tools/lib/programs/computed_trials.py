"""Rows whose bytes only code can give: archives and streams of 3,000 packets that differ, a text of 1,500 packets, and the version."""

import os
import re

from rows.reader import TOP, shared_contents
from rows.row import Row
from trial import Trial

CALLS = ["flight_tools --version", "flight_tools export", "flight_tools format", "flight_tools import"]
IMPORT = ["flight_tools", "import", "--out"]
EXPORT = ["flight_tools", "export", "--stream", "stream", "--out", "raw"]
SHARED = shared_contents()
# Ten packets of telemetry with their seconds from 100.5 on, and the stream that brings them at these times.
PLAIN, STREAM = SHARED["TEN_PACKETS"], SHARED["TEN_RECORDS"]


def telemetry(count, seconds):
    """A packet of 16 bytes, with its sequence count and its time."""
    return b"\x08\x83" + (0xC000 | count).to_bytes(2, "big") + b"\0\x09" + seconds.to_bytes(4, "big") + b"\0\0\x09\xc4\0\x05"


def recorded(packet, seconds, part=0):
    """A record that brings a packet."""
    return b"\x01" + seconds.to_bytes(4, "big") + part.to_bytes(2, "big") + len(packet).to_bytes(4, "big") + packet


def counts(packets):
    return b"raw: %d packets taken; left out: 0 idle, 0 not asked for, 0 with a fault\n" % packets


# ---- archives longer than a piece that is read at once

PACKETS = [telemetry(n, 100 + n // 10) for n in range(3_000)]
MANY = b"".join(PACKETS)
MANY_STREAM = b"".join(recorded(packet, 100 + n // 10) for n, packet in enumerate(PACKETS))
GAP = bytes(20_000)
# Stray bytes after each 500 packets, and once more of them than a piece that is read at once.
STRAY = b"\xAA\xBB\xCC"
NOISE = STRAY * 7_000
TORN = STRAY.join(b"".join(PACKETS[first : first + 500]) for first in range(0, 3_000, 500)) + NOISE + PLAIN
PLACES = [(8_000 * n + len(STRAY) * (n - 1), len(STRAY)) for n in range(1, 6)] + [(len(TORN) - len(NOISE + PLAIN), len(NOISE))]
FULL = b"the device is full"


def step_back(at):
    """What is reported of the first packet of PLAIN after those of MANY, which begins at this byte."""
    lines = ["time steps back from 399.00000 to 100.50000", "a gap in the sequence counts of 0x0883: 0 comes after 2999"]
    return "".join(f"raw: byte {at}: {line}\n" for line in lines).encode()


ARCHIVES = [
    Row(
        "stray bytes in many pieces",
        [*IMPORT, "stream", "--resync", "raw"],
        {"raw": TORN},
        output=counts(3_010)
        + step_back(len(TORN) - len(PLAIN))
        + b"".join(b"raw: byte %d: no plausible packet begins here; bytes skipped: %d\n" % it for it in PLACES),
        after={"stream": MANY_STREAM + STREAM},
    ),
    Row(
        "a long archive with a gap of many zeros",
        [*IMPORT, "stream", "raw"],
        {"raw": MANY + GAP + PLAIN},
        output=counts(3_010)
        + step_back(len(MANY + GAP))
        + b"raw: byte %d: zeros where a packet would begin, %d in all\n" % (len(MANY), len(GAP)),
        after={"stream": MANY_STREAM + STREAM},
    ),
    Row("a long import to a full device", [*IMPORT, "/dev/full", "raw"], {"raw": MANY}, status=3, error=b"cannot use /dev/full: %s\n" % FULL),
    Row("a long stream", EXPORT, {"stream": MANY_STREAM}, after={"raw": MANY}),
    Row(
        "a long stream that is cut, exported",
        EXPORT,
        {"stream": MANY_STREAM[:-1]},
        status=4,
        error=b"stream: the stream ends inside record 3000\n",
        after={"raw": MANY[:-16]},
    ),
    Row("a long archive to a full device", [*EXPORT[:-1], "/dev/full"], {"stream": MANY_STREAM}, status=3, error=b"cannot use /dev/full: %s\n" % FULL),
]

# ---- steps

STEPPED = [telemetry(n, 0) for n in range(1_000)]
STEPS = Row(
    "a thousand steps of a thousandth, rounded once",
    [*IMPORT, "stream", "--step", "0.001", "raw"],
    {"raw": b"".join(STEPPED)},
    output=counts(1_000),
    after={"stream": b"".join(recorded(packet, n // 1_000, n % 1_000 * 65_536 // 1_000) for n, packet in enumerate(STEPPED, 1))},
)

# ---- a text of over 8,192 bytes, and as it is laid out: its last item is the one that is in another layout

TEXT = b"".join(b"packet P%04d = mid 0x0883 length 16;\n" % number for number in range(1_500))
LAST, LAST_LAID_OUT = b"packet LAST=mid 0x0883 length 16;", b"packet LAST  = mid 0x0883 length 16;\n"
FORMAT = ["flight_tools", "format"]

TEXTS = [
    Row("a long text of standard input", [*FORMAT, "-"], reads=TEXT + LAST, output=TEXT + LAST_LAID_OUT),
    Row("a long text of standard input differs at its end", [*FORMAT, "--check", "-"], reads=TEXT + LAST, status=1, output=b"-\n"),
    Row("a long text of standard input that doesn't differ", [*FORMAT, "--check", "-"], reads=TEXT + LAST_LAID_OUT),
]

# ---- the version is that of the changelog's first heading

with open(os.path.join(TOP, "CHANGELOG.md"), encoding="utf-8") as changelog:
    VERSION = re.search(r"^## (\S+)$", changelog.read(), re.M)[1]
VERSION_ROW = Row("a version is no fault", ["flight_tools", "--version"], output=f"flight_tools {VERSION}\n".encode(), is_slow=True)

TRIALS = [Trial.of_row(row) for row in (*ARCHIVES, STEPS, *TEXTS, VERSION_ROW)]
