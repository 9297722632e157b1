"""Streams and packets that trials put together, all at second 100. Those that rows name, too, stand in `rows/shared.rows`."""

from rows.reader import shared_contents

MOMENT = bytes([0, 0, 0, 100, 0, 0])
SHARED = shared_contents()

# One rule: two samples in a row with a voltage below 2,400 request command sequence 7.
LOW_VOLTS = SHARED["LOW_VOLTS"]
NO_ENTRIES = b"slots 1\n"
OLD_PAGE = SHARED["OLD_PAGE"]
# Records: telemetry with message id 0x0883 and a voltage of 2,399; the request to sample all rules; a tick.
LOW, SAMPLE, TICK = SHARED["LOW"], SHARED["SAMPLE"], SHARED["TICK"]
# Both halves of a text, the start of the Limit Checker, and two samples of a low voltage.
TWO_FAILING_SAMPLES = SHARED["TWO_FAILING_SAMPLES"]
# Packets: both default files are stored, and the Limit Checker starts with their tables.
STARTED = SHARED["STARTED"]


def record(kind, body):
    return bytes([kind]) + MOMENT + len(body).to_bytes(4, "big") + body


def half(name, number, text=0):
    """The half of a rule text with this number, under a file's name."""
    return record(4, name.ljust(40, b"\0") + bytes([number]) + text.to_bytes(2, "big"))


def start(name):
    """The command to start an application."""
    return record(1, bytes([0x18, 0x06, 0xC0, 0, 0, 21, 1, 0]) + name.ljust(20, b"\0"))


def commanded(mid, code, payload):
    """A command's packet, with sequence count 0 and its checksum."""
    packet = mid.to_bytes(2, "big") + b"\xc0\0" + (len(payload) + 1).to_bytes(2, "big") + bytes([code, 0]) + payload
    check = 0xFF
    for byte in packet:
        check ^= byte
    return packet[:7] + bytes([check]) + packet[8:]


def beginning(text=0):
    """Both halves of a text are stored, and the Limit Checker is started."""
    return half(b"/cf/lc_def_wdt.tbl", 1, text) + half(b"/cf/lc_def_adt.tbl", 2, text) + start(b"LC")


def event(count, sender, number, kind, text):
    """An event's packet, of 168 bytes: type 2 is information, 3 an error."""
    head = bytes([0x08, 0x08, 0xC0, count, 0, 161]) + bytes([0, 0, 0, 100, 0, 0])
    numbers = number.to_bytes(2, "big") + bytes([0, kind, 0, 0, 0, 66, 0, 0, 0, 1])
    return head + sender.ljust(20, b"\0") + numbers + text.ljust(124, b"\0")


def requested(count):
    """The low-volts rule requests its sequence, and says so."""
    request = bytes([0x18, 0xA9, 0xC0, 0, 0, 5, 4, 0x88, 0, 7, 0, 0])
    return request + event(count, b"LC", 1001, 3, b"low volts: AP = 0, FailCount = 2, RTS = 7")
