"""A run whose page is as long as a page can be made: each of its lists is full, each time and value is long, each text is of `<`."""

import itertools
import json
import os
import random
import string
import subprocess
import sys
import tempfile

sys.path.append(os.path.join(os.path.dirname(os.path.abspath(__file__)), "..", "page_looks"))

from data_rules import faults_of
from page_bounds import LONGEST_TEXT, MOST_BYTES, RULES, most_bytes
from records import NO_ENTRIES, SAMPLE, commanded, half
from trial import SECONDS, written

PAIRS = 50  # rules that request, each over two fields of 32 bits
RECORDS = 12_000
LEAST = 0.83  # of the bytes that a page can have: these numbers of records are shorter, and no stream makes all lists longest at once
WORDS = {"at", "or", "u8", "i8"}


def rule_text():
    """Rules that fail all the time; and, as long as there is room, rules of sixteen names of one byte, which never fail."""
    first = string.ascii_letters + "_"
    names = (a + b for a in first for b in first + string.digits if a + b not in WORDS)
    parts = ["packet P=mid 0x0900 length 2048;"]
    for place in range(12, 12 + 8 * PAIRS, 8):
        one, other, rule = itertools.islice(names, 3)
        fields = f"field {one}=P i32be at {place};field {other}=P i32be at {place + 4};"
        parts.append(f'{fields}rule {rule} passive fails 1 sequence 65535 event critical 65535"{31 * "<"}"when {one}<0 or {other}<0;')
    while len(parts) <= RULES:
        fields, rule = list(itertools.islice(names, 16)), next(names)
        condition = " or ".join(f"{field}<9" for field in fields)
        parts.append("".join(f"field {field}=P u8 at 0;" for field in fields) + f'rule {rule} active fails 1 sequence 1 event info 1000""when {condition};')
    text = ""
    for part in parts:
        text += part if len(text) + len(part) <= LONGEST_TEXT else ""
    return text.encode()


class Stream:
    """Records, of which the first has the greatest time and all others small ones."""

    def __init__(self):
        self.records, self.chance = [], random.Random(1)

    def add(self, kind, body):
        moment = bytes([0, 0, len(self.records) // 256, len(self.records) % 256, 0, 0]) if self.records else 6 * b"\xff"
        self.records.append(bytes([kind]) + moment + len(body).to_bytes(4, "big") + body)

    def commands(self, *packets):
        for packet in packets:
            self.add(1, packet)

    def telemetry(self):
        values = b"".join(self.chance.randrange(2**31, 3 * 2**30).to_bytes(4, "big") for _ in range(2 * PAIRS))
        self.add(1, bytes([9, 0, 0xC0, 0]) + (5 + len(values)).to_bytes(2, "big") + bytes(6) + values)


def start(stream):
    """Both halves, and LC, whose rules' events alone are sent."""
    for name, number in [(b"/cf/lc_def_wdt.tbl", 1), (b"/cf/lc_def_adt.tbl", 2)]:
        stream.add(4, half(name, number)[11:])
    stream.commands(commanded(0x1806, 1, b"LC".ljust(20, b"\0")), commanded(0x1801, 4, b"HOST".ljust(20, b"\0") + bytes([15, 0])))
    for event in [8, 10]:
        stream.commands(commanded(0x1801, 1, b"LC".ljust(20, b"\0") + event.to_bytes(2, "big") + b"\xff\xff"))


def adopt_tables(stream):
    """Changes of the mode and of the tables in force, until no more are kept."""
    names = [name.ljust(40, b"\0") for name in [b"/cf/lc_def_wdt.tbl", b"/cf/lc_def_adt.tbl", b"LC.LC_WDT", b"LC.LC_ADT"]]
    ask = commanded(0x18A5, 0, b"")
    for number in range(500):
        stream.commands(*(commanded(0x1804, 1, name) for name in names[:2]), *(commanded(0x1804, 2, name) for name in names[2:]), ask)
        stream.commands(*(commanded(0x1804, 3, name) for name in names[2:]), ask, commanded(0x18A4, 2, bytes([0, 1 if number % 2 else 3, 0, 0])))


def request_sequences(stream):
    """Six hundred of them, each with its event."""
    for _ in range(12):
        stream.commands(commanded(0x18A4, 3, bytes([0xFF, 0xFF, 0, 1])))
        stream.telemetry()
        stream.add(1, SAMPLE[11:])


def store_files(stream):
    for _ in range(300):
        stream.add(3, 40 * b"<")


def whole_stream():
    it = Stream()
    start(it)
    for _ in range(6):
        it.telemetry()
        it.add(1, SAMPLE[11:])
    request_sequences(it)
    store_files(it)
    adopt_tables(it)
    request_sequences(it)
    while len(it.records) < RECORDS - 300:
        it.telemetry()
    store_files(it)
    return b"".join(it.records)


def longest_page(programs):
    """The page obeys crates/run_page/page/DATA.md, and is nearly as long as the bounds allow."""
    with tempfile.TemporaryDirectory(prefix="try-programs-") as place:
        written(place, {"rules": rule_text(), "stream": whole_stream(), "schedule": NO_ENTRIES})
        words = [programs["flight_tools"], *"report --schedule schedule --stream stream --out page rules".split()]
        subprocess.run(words, cwd=place, check=True, capture_output=True, timeout=SECONDS)
        with open(os.path.join(place, "page"), encoding="utf-8") as page:
            text = page.read()
    most = sum(most_bytes().values())
    sizes = [] if LEAST * most < len(text) <= MOST_BYTES else [f"the page has {len(text):,} bytes, where at most {most:,} were expected"]
    return sizes + faults_of(text.split('<script type="application/json" id="run">', 1)[1].split("</script>", 1)[0])
