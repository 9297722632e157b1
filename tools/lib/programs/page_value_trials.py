"""What pages say beyond `page_rows` and `result_rows`: signs and trees of conditions, verdicts of several comparisons, two texts, events of
all types, hashes of files, reduced values, times of parts, and pages that a device doesn't take to their end. What is expected is put
together from crates/run_page/page/DATA.md."""

import hashlib
import itertools
import json
import os
import pty
import random
import resource
import select
import signal
import subprocess
import tempfile

from page_files import parts as page_parts
from records import LOW_VOLTS, NO_ENTRIES, OLD_PAGE, TICK, record
from trial import SECONDS, Trial, written

CALLS = ["flight_tools report", "flight_tools scenario"]
# The statuses of a page that is made: 6 where no rule was sampled.
MADE = (0, 6)
# The words of a page of `stream`, before its rule texts.
PAGE = "--schedule schedule --stream stream --out page".split()
DATA = '<script type="application/json" id="run">'
TICKS = 65_536


def report(place, tool, files, words, **others):
    """A page of the stream `stream`, or of that of `script`."""
    written(place, {"schedule": NO_ENTRIES, **files})
    if "script" in files:
        subprocess.run([tool, "scenario", "--script", "script", "--out", "stream"], cwd=place, check=True, capture_output=True, timeout=SECONDS)
    return subprocess.run([tool, "report", *words], cwd=place, stderr=subprocess.PIPE, timeout=SECONDS, **others)


def read_page(place):
    with open(os.path.join(place, "page"), encoding="utf-8", newline="") as page:
        return page.read()


def data_of(page):
    return json.loads(page.split(DATA, 1)[1].split("</script>", 1)[0])


def shown(files, texts, expected, options=()):
    """Members of a page's data, each with what is expected of it: a value, or a function of the value and a value."""

    def faults(programs):
        with tempfile.TemporaryDirectory(prefix="try-programs-") as place:
            ran = report(place, programs["flight_tools"], files, [*options, *PAGE, *texts])
            if ran.returncode not in MADE:
                return [f"it ended with {ran.returncode}: {ran.stderr}"]
            data = data_of(read_page(place))
        wanted = {name: it if isinstance(it, tuple) else (None, it) for name, it in expected.items()}
        found = {name: value(data[name]) if value else data[name] for name, (value, _) in wanted.items()}
        return [f"{name} is {found[name]} and should be {it}" for name, (_, it) in wanted.items() if found[name] != it]

    return faults


def those(members, wanted):
    """These members of each entry."""
    return lambda entries: [[entry[name] for name in members.split()] for entry in entries], wanted


# ---- conditions

START = b"wdt %d /cf/lc_def_wdt.tbl\nadt %d /cf/lc_def_adt.tbl\nstart LC\n"
PACKETS = b"packet P = mid 0x0883 length 24; packet Q = mid 0x0884 length 16; "
# Each field: its declaration, and its members but for its packets.
FIELDS = {
    "A": ("P u8 at 12", ["A", "P", 0x883, "u8", 12, None, 0]),
    "B": ("P i16be at 13 mask 0x80F0 stale 4294967295", ["B", "P", 0x883, "i16be", 13, 0x80F0, 4294967295]),
    "C": ("Q u32le at 12 stale 1", ["C", "Q", 0x884, "u32le", 12, None, 1]),
    "UNUSED": ("Q u8 at 12", None),
    "D": ("P i32be at 20 mask 0xFFFFFFFF", ["D", "P", 0x883, "i32be", 20, 0xFFFFFFFF, 0]),
}
DECLARED = PACKETS + b" ".join(b"field %s = %s;" % (name.encode(), words.encode()) for name, (words, _) in FIELDS.items())


def ruled(name, condition, comparisons, tree, **others):
    """A rule: its text, and its members as a page has them, with its fields by their names."""
    it = {"state": "active", "fails": 1, "sequence": 1, "level": "info", "event": 1000, "says": "", "report": None, **others}
    limits = "" if it["report"] is None else " report {} {} {}".format(*it["report"])
    text = f' rule {name} {it["state"]} fails {it["fails"]} sequence {it["sequence"]} event {it["level"]} {it["event"]} "{it["says"]}"{limits} when {condition};'
    shown = " ".join(" ".join(line.split("#", 1)[0] for line in condition.split("\n")).split())
    return text.encode(), {"name": name, **it, "report": list(it["report"] or [0, 0, 0]), "condition": shown, "comparisons": comparisons, "tree": tree}


FIRST = [
    ruled("SIGNS", "A < 1 or A <= 2 or A != 3 or A == 4 or A >= 5 or A > 6", [["A", "<", "1"], ["A", "<=", "2"], ["A", "!=", "3"], ["A", "==", "4"],
        ["A", ">=", "5"], ["A", ">", "6"]], ["or", "or", "or", "or", "or", 0, 1, 2, 3, 4, 5], report=(1, 4, 5), says="~5 V"),
    ruled("AND", "A < 1 and C <= 2 or D == 3", [["A", "<", "1"], ["C", "<=", "2"], ["D", "==", "3"]], ["or", "and", 0, 1, 2], report=(255, 65535, 0), level="debug"),
    ruled("OR", "D > 3 or C >= 2 and A != 1", [["D", ">", "3"], ["C", ">=", "2"], ["A", "!=", "1"]], ["or", 0, "and", 1, 2], state="passive", level="error", says="\\ </a>\\n"),
    ruled("XOR", "A < 1 xor not A < 2 and B < 3 xor C > 9", [["A", "<", "1"], ["A", "<", "2"], ["B", "<", "3"], ["C", ">", "9"]],
        ["xor", "xor", 0, "and", "not", 1, 2, 3], state="disabled", level="critical"),
    ruled("DEEP", "A < 1 or (A < 2 or (A < 3 and not not (A < 4 xor A < 5)))", [["A", "<", str(n)] for n in range(1, 6)],
        ["or", 0, "or", 1, "and", 2, "not", "not", "xor", 3, 4], fails=65535, sequence=65535, event=65535, says="x" * 31),
]
SECOND = [
    ruled("NUMBERS", "D < -2147483648 # none\n or C == 0x00FF00FF or D > -0x10 and\n C != 0004294967295", [["D", "<", "-2147483648"],
        ["C", "==", "0x00FF00FF"], ["D", ">", "-0x10"], ["C", "!=", "0004294967295"]], ["or", "or", 0, 1, "and", 2, 3]),
    ruled("ALONE", "not B>=-0", [["B", ">=", "-0"]], ["not", 0], fails=2, sequence=3, event=1004, report=(0, 1, 65535)),
]
TEXTS = {"first": DECLARED + b"".join(text for text, _ in FIRST), "second": DECLARED + b"".join(text for text, _ in SECOND)}


def in_page(rules, order):
    """The rules, with the places of their fields in this order."""
    return {"rules": [{**rule, "comparisons": [[order.index(field), *rest] for field, *rest in rule["comparisons"]]} for _, rule in rules]}


def fields_of(order):
    return [dict(zip("name packet mid type at mask stale".split(), FIELDS[name][1])) | {"packets": 0, "last": None, "values": []} for name in order]


CONDITIONS = [
    Trial(
        "a page with all signs, operators, levels, states and numbers of two texts",
        shown(
            {**TEXTS, "script": b"tick\n"},
            ["first", "second"],
            {"texts": [in_page(FIRST, "ACDB"), in_page(SECOND, "ACDB")], "fields": fields_of("ACDB"), "lanes": (len, 5)},
        ),
    ),
    Trial(
        "a page with the same texts in the other order",
        shown({**TEXTS, "script": b"tick\n"}, ["second", "first"], {"texts": [in_page(SECOND, "DCBA"), in_page(FIRST, "DCBA")], "fields": fields_of("DCBA")}),
    ),
]

# ---- verdicts

FOUR = (
    b"packet P = mid 0x0883 length 16; packet Q = mid 0x0884 length 16; packet R = mid 0x0885 length 16; packet S = mid 0x0886 length 16; "
    b"field V = P u8 at 12; field W = Q i8 at 12; field X = R u8 at 12; field Y = S u8 at 12; "
    b'rule ANY active fails 2 sequence 7 event error 1001 "any" when V < 5 or W > 30 or X == 7 or Y < 9;'
)
# Packet 0885 never comes, and 0886 is too short.
OF_FOUR = (
    b"at 100 0\n" + START % (0, 0) + b"fields 0883 0 16 u8 12 4\nafter 1\nfields 0884 0 16 i8 12 -9\nfields 0886 0 12\nafter 1\n"
    b"sample 65535 65535 keep\nafter 1\nfields 0884 1 16 i8 12 31\nsample 65535 65535 keep\n"
)
NEVER, SHORT = [None, None, None, "stale"], [None, 6, TICKS, "error"]
# All of one value: the second and the fourth comparison are false, the others true.
OF_ONE_FIELD = LOW_VOLTS.split(b"rule")[0] + b'rule ALL active fails 1 sequence 7 event error 1001 "all" when V < 5 or V > 30 or V == 4 or V >= 9 or V != 7;'
LOWER = b'rule LOWER active fails 1 sequence 8 event error 1002 "lower" when VOLTS < 2000 and W < 7;'
TWO = {
    "low": LOW_VOLTS,
    "lower": b"packet P = mid 0x0883 length 16; field W = P u8 at 14; field VOLTS = P u16be at 12; "
    b'rule OTHER active fails 1 sequence 9 event error 1003 "other" when W > 200; ' + LOWER,
    "script": b"at 100 0\n" + START % (1, 1) + b"fields 0883 0 16 u16be 12 1999 u8 14 6\nsample 65535 65535 keep\n",
}

VERDICTS = [
    Trial(
        "each comparison's own value and verdict",
        shown(
            {"rules": FOUR, "script": OF_FOUR},
            ["rules"],
            {
                "requests": those("record rule text counted samples", [[9, 0, 0, 2, [
                    [7, 2 * TICKS, [[4, 4, 0, "true"], [-9, 5, TICKS, "false"], NEVER, SHORT]],
                    [9, 3 * TICKS, [[4, 4, 0, "true"], [31, 8, 3 * TICKS, "true"], NEVER, SHORT]],
                ]]]),
                "fields": those("name packets last values", [
                    ["V", 1, [4, 0], [[4, 0, 4]]],
                    ["W", 2, [8, 3 * TICKS], [[5, TICKS, -9], [8, 3 * TICKS, 31]]],
                    ["X", 0, None, []],
                    ["Y", 1, [6, TICKS], [[6, TICKS, None]]],
                ]),
            },
        ),
    ),
    Trial(
        "verdicts of five comparisons of one value",
        shown(
            {"rules": OF_ONE_FIELD, "script": b"at 100 0\n" + START % (0, 0) + b"fields 0883 0 16 u16be 12 4\nsample 65535 65535 keep\n"},
            ["rules"],
            {"requests": those("record samples", [[5, [[5, 0, [[4, 4, 0, verdict] for verdict in ("true", "false", "true", "false", "true")]]]]])},
        ),
    ),
    Trial(
        "the second text's comparisons at its rule's request",
        shown(
            TWO,
            ["low", "lower"],
            {
                "requests": those("record rule text sequence samples", [[5, 1, 1, 8, [[5, 0, [[1999, 4, 0, "true"], [6, 4, 0, "true"]]]]]]),
                "fields": those("name values", [["V", [[4, 0, 1999]]], ["W", [[4, 0, 6]]], ["VOLTS", [[4, 0, 1999]]]]),
                "texts": (
                    lambda texts: [[rule["comparisons"] for rule in text["rules"]] for text in texts],
                    [[[[0, "<", "2400"]]], [[[1, ">", "200"]], [[2, "<", "2000"], [1, "<", "7"]]]],
                ),
            },
        ),
    ),
]

# ---- events

LEVELS = ["debug"] * 4 + ["info"] + ["error"] * 3 + ["critical"] * 2
LEVELLED = b"packet P = mid 0x0883 length 16; field V = P u8 at 12; " + b" ".join(
    b'rule R%d active fails 1 sequence %d event %s %d "e%d" when V < %d;' % (n, n + 1, level.encode(), 1000 + n, n, 10 + n) for n, level in enumerate(LEVELS)
)
ALL_TYPES = b"command 1801 3 " + (b"LC".ljust(20, b"\0") + b"\x0F\0").hex().encode() + b"\n"

EVENTS = [
    Trial(
        "events of each type, with their rules",
        shown(
            {"rules": LEVELLED, "script": b"at 100 0\n" + START % (0, 0) + ALL_TYPES + b"fields 0883 0 16 u8 12 9\nsample 65535 65535 keep\n"},
            ["rules"],
            {
                "figures": {"records": 6, "telemetry": 1, "commands": 3, "ticks": 0, "files": 2, "packets": 25, "requests": 10, "housekeeping": 0,
                    "critical": 2, "error": 3, "info": 6, "debug": 4, "other": 0},
                "events": (
                    lambda events: events[5:],
                    [[7 + 2 * n, 6, 0, n, "LC", 1000 + n, level, f"e{n}: AP = {n}, FailCount = 1, RTS = {n + 1}"] for n, level in enumerate(LEVELS)],
                ),
                "requests": those("packet rule sequence count event held", [[6 + 2 * n, n, n + 1, n, 7 + 2 * n, None] for n in range(len(LEVELS))]),
            },
        ),
    ),
    Trial(
        "a start without tables, and a file that is long",
        shown(
            {"rules": LOW_VOLTS, "script": b"start LC\nafter 1\nfile /cf/w.tbl " + b"00" * 4_380 + b"\n"},
            ["rules"],
            {
                "tables": [[1, 0, None, "none"]],
                "mode": [[1, 0, "active"]],
                "lanes": [[[1, 0, 1, 0]]],
                "events": [
                    [1, 1, 0, None, "LC", 1, "info", "started without tables"],
                    [2, 1, 0, None, "HOST", 8, "info", "app command 1 done"],
                    [3, 2, TICKS, None, "HOST", 2, "info", "file stored"],
                ],
                "commands": [[1, 0, "start LC"], [2, TICKS, "file /cf/w.tbl 4380 bytes"]],
            },
        ),
    ),
]

# ---- files

PLAN = b"slots 2\n1 housekeeping\n"


def source(role, name, text):
    return {"role": role, "name": name, "bytes": len(text), "sha256": hashlib.sha256(text).hexdigest()}


NAMED = {"~a.rules": LOW_VOLTS, "b~}": b"# no rules: ~\n", "schedule": PLAN, "stream": TICK}
ENDS = b"\x09" + bytes(10) + b"more"


def with_a_stream_that_goes_on(programs):
    """All bytes of the stream count for its size and hash, also those after what is no record."""
    with tempfile.TemporaryDirectory(prefix="try-programs-") as place:
        ran = report(place, programs["flight_tools"], {**NAMED, "stream": TICK + ENDS}, [*PAGE, "~a.rules"])
        found = (ran.returncode, ran.stderr.splitlines()[-1], data_of(read_page(place))["files"])
    expected = (4, b"stream: record 2 is none", [source("rules", "~a.rules", LOW_VOLTS), source("schedule", "schedule", PLAN), source("stream", "stream", TICK + ENDS)])
    return [] if found == expected else [f"it was {found} and should be {expected}"]


def put_together(programs):
    """Before and after its data a page has what the files of crates/run_page/page have, in their order."""
    with tempfile.TemporaryDirectory(prefix="try-programs-") as place:
        report(place, programs["flight_tools"], {"rules": LOW_VOLTS, "stream": TICK}, [*PAGE, "rules"])
        front, rest = read_page(place).split(DATA, 1)
    found = front + DATA, rest[rest.index("</script>") :]
    names = ("before", "after")
    return [f"what stands {name} the data is another text" for name, part, wanted in zip(names, found, page_parts()) if part != wanted]


FILES = [
    Trial(
        "sizes and hashes of two texts, a schedule and a stream",
        shown(NAMED, ["~a.rules", "b~}"], {"files": [*(source("rules", name, NAMED[name]) for name in ("~a.rules", "b~}")), source("schedule", "schedule", PLAN), source("stream", "stream", TICK)]}),
    ),
    Trial("the size and the hash of a stream that goes on after what is no record", with_a_stream_that_goes_on),
    Trial("a page is put together in its order", put_together),
]

# ---- reduced values

MOST = 9_600
CHANGES = 14_000


def value_packet(count, payload):
    """Telemetry 0883 with a payload, at second 100."""
    return record(1, b"\x08\x83" + (0xC000 | count % 16_384).to_bytes(2, "big") + (5 + len(payload)).to_bytes(2, "big") + bytes([0, 0, 0, 100, 0, 0]) + payload)


def value_changes():
    """Values of a field of 16 bits, each another than the one before, None for a packet that is too short."""
    chance, values = random.Random(7), [None]
    while len(values) < CHANGES:
        value = None if chance.random() < 0.2 else chance.randrange(-32_768, 32_768)
        if value != values[-1]:
            values.append(value)
    return values[1:]


def size(changes, width):
    """How many entries so many changes have, one in each record, where a column is as many records as its width."""
    return changes // width * min(width, 2) + min(changes % width, 2)


def reduced(values, most):
    """The changes, one in each record, as a list of at most so many entries."""
    width = 1
    for number in range(1, len(values) + 1):
        had = size(number, width)
        while had > most and size(number, width) > had // 2:
            width *= 2
    return [entry for _, column in itertools.groupby(enumerate(values, 1), lambda it: (it[0] - 1) // width) for entry in of_column(list(column))]


def of_column(group):
    """The entries of a column: one or two stay, of more the last stays and the others become one."""
    if len(group) <= 2:
        return [[number, 0, value] for number, value in group]
    values = [value for _, value in group[:-1] if value is not None]
    return [[group[0][0], 0, min(values, default=None), max(values, default=None), len(group) - 1], [group[-1][0], 0, group[-1][1]]]


VALUES = value_changes()

REDUCED = [
    Trial(
        "more changes of a value than a page has room for",
        shown(
            {
                "rules": b"packet P = mid 0x0883 length 16; field V = P i16be at 12; " b'rule R active fails 1 sequence 1 event info 1000 "" when V < 0;',
                "stream": b"".join(value_packet(n, b"" if it is None else it.to_bytes(2, "big", signed=True) + b"\0\0") for n, it in enumerate(VALUES)),
            },
            ["rules"],
            {"fields": those("packets last values", [[len(VALUES), [len(VALUES), 0], reduced(VALUES, MOST - 1)]]), "lanes": [[[1, 0, 1, 0]]]},
        ),
    ),
]

# ---- times

AGAIN = b"at 100 0\ntick\ntick\nat 100 1\ntick\ntick\nat 101 0\ntick\n"
LATE = b"at 100 0\ntick\nat 99 0\ntick\nat 101 0\ntick\ntick\nat 102 32768\ntick\n"


def least(seconds, digits):
    """The least time in 1/65,536 s that is printed as so many seconds and digits after the point, or as a later one."""
    return seconds * TICKS + -(-int(digits.ljust(5, "0")) * TICKS // 100_000)


def page_of_times(title, script, expected, options=()):
    return Trial(f"a page {title}", shown({"rules": LOW_VOLTS, "script": script}, ["rules"], expected, options))


RECORDS = "records telemetry commands ticks files packets".split()
NO_PART = {"figures": (lambda figures: [figures[it] for it in RECORDS], [0] * 6), "start": 0, "end": 0, "ordered": True, "lanes": [[]], "tables": [], "mode": []}

TIMES = [
    page_of_times("of records of one time, which are in order", AGAIN, {"ordered": True, "start": 100 * TICKS, "end": TICKS}),
    page_of_times("of a run that writes nothing has an end", b"at 7 0\ntick\nat 9 1\ntick\n", {"start": 7 * TICKS, "end": 2 * TICKS + 1, "events": [], "requests": []}),
    page_of_times("of records that go back in time", LATE, {"ordered": False, "start": 100 * TICKS, "end": 2 * TICKS + 32768}),
    page_of_times(
        "of a part that is in order after records that are not",
        LATE,
        {"ordered": True, "start": 101 * TICKS, "end": TICKS + 32768, "figures": (lambda it: it["records"], 3), "window": {"from": 101 * TICKS, "until": None, "records": 2, "packets": 0}},
        ["--from", "101"],
    ),
    page_of_times(
        "of a part between two records",
        b"at 100 0\ntick\nat 101 0\ntick\n",
        {**NO_PART, "window": {"from": least(100, "2"), "until": least(100, "5"), "records": 1, "packets": 0}},
        ["--from", "100.2", "--until", "100.5"],
    ),
    page_of_times(
        "of a part before all records",
        b"at 100 0\ntick\nat 101 0\ntick\n",
        {**NO_PART, "window": {"from": None, "until": 50 * TICKS, "records": 0, "packets": 0}},
        ["--until", "50"],
    ),
    page_of_times(
        "of a part before second 0",
        b"at 100 0\ntick\nat 101 0\ntick\n",
        {**NO_PART, "window": {"from": None, "until": 0, "records": 0, "packets": 0}},
        ["--until", "0"],
    ),
    *(
        page_of_times(
            f"from {seconds}.{digits} on",
            b"at 104 %d\ntick\nat %d %d\ntick\n" % (least(0, digits) - 1, *divmod(least(104, digits), TICKS)),
            {"window": {"from": least(seconds, digits), "until": None, "records": 1, "packets": 0}, "start": least(seconds, digits)},
            ["--from", f"{seconds}.{digits}"],
        )
        for seconds, digits in [(104, "2"), (104, "25"), (104, "251"), (104, "2517"), (104, "25179"), (104, "07"), (104, "99999")]
    ),
    page_of_times(
        "of the last second",
        b"at 4294967294 65535\ntick\nat 4294967295 65535\ntick\n",
        {"window": {"from": 4294967295 * TICKS, "until": least(4294967295, "99999"), "records": 1, "packets": 0}, "start": 4294967295 * TICKS + 65535},
        ["--from", "4294967295", "--until", "4294967295.99999"],
    ),
]

# ---- devices


def limit_files(room):
    """No file gets longer than this: a write that goes on is an error, and no signal."""
    resource.setrlimit(resource.RLIMIT_FSIZE, (room,) * 2)
    signal.signal(signal.SIGXFSZ, signal.SIG_IGN)


def to_a_device_that_is_full_at_its_end(programs):
    """A page that a device doesn't take to its last byte leaves the old one."""
    files = {"rules": LOW_VOLTS, "stream": TICK, "page": OLD_PAGE}
    words = [*PAGE, "rules"]
    with tempfile.TemporaryDirectory(prefix="try-programs-") as place:
        report(place, programs["flight_tools"], files, words)
        size = len(read_page(place).encode())
    faults = []
    for room in (size, size - 1, size - 8_000):
        with tempfile.TemporaryDirectory(prefix="try-programs-") as place:
            ran = report(place, programs["flight_tools"], files, words, preexec_fn=lambda: limit_files(room))
            page = read_page(place)
            found = (ran.returncode, ran.stderr.splitlines()[0][:16], "old" if page.encode() == OLD_PAGE else len(page.encode()), sorted(os.listdir(place)))
        is_kept = room < size
        expected = (3, b"cannot use page:", "old") if is_kept else (6, b"warning[nothing-", size)
        expected = (*expected, ["page", "rules", "schedule", "stream"])
        if found != expected:
            faults.append(f"with room for {room} bytes it was {found} and should be {expected}")
    return faults


def on_a_terminal(programs, words, files):
    """The status of a call whose standard error is a terminal, and the lines that it prints there."""
    with tempfile.TemporaryDirectory(prefix="try-programs-") as place:
        written(place, {"schedule": NO_ENTRIES, "rules": LOW_VOLTS, **files})
        ours, its = pty.openpty()
        words = [programs["flight_tools"], *words.split()]
        ran = subprocess.Popen(words, cwd=place, stdin=subprocess.DEVNULL, stdout=subprocess.DEVNULL, stderr=its)
        os.close(its)
        said = b""
        while select.select([ours], [], [], SECONDS)[0]:
            try:
                piece = os.read(ours, 65_536)
            except OSError:
                break
            if not piece:
                break
            said += piece
        status = ran.wait(timeout=SECONDS)
        os.close(ours)
    return status, said.decode().split("\r\n")


def progress_on_a_terminal(programs):
    """How many bytes of a stream were read, after each twentieth part, which is no number of whole records."""
    stream = 64 * TICK
    size, part, lines = len(stream), len(stream) // 20, []
    next_at = part
    for read in range(len(TICK), size + 1, len(TICK)):
        if read >= next_at:
            lines.append(f"{read} of {size} bytes")
            next_at += part
    status, said = on_a_terminal(programs, "report --schedule schedule --stream stream --out page rules", {"stream": stream})
    found, expected = (status, [line for line in said if not line.startswith("warning")]), (6, [*lines, ""])
    return [] if found == expected else [f"it was {found} and should be {expected}"]


def faults_on_a_terminal(programs):
    """Each call, its status, and the line that is printed."""
    calls = [
        ("report --schedule schedule --stream stream --out page rules --until noon", 2, "--until noon: write seconds, for example 104 or 104.00000"),
        ("report --schedule none --stream stream --out page rules", 3, "cannot use none: there is none of that name"),
        ("report --schedule schedule --stream stream --out page rules", 4, "stream: the stream ends inside record 1"),
    ]
    for words, status, line in calls:
        ended, said = on_a_terminal(programs, words, {"stream": TICK[:-1]})
        found, expected = (ended, [it for it in said if not it.startswith("warning")]), (status, [line, ""])
        if found != expected:
            yield f"{words}: it was {found} and should be {expected}"


DEVICES = [
    Trial("a page that is cut at its end leaves the old one", to_a_device_that_is_full_at_its_end),
    Trial("the progress of a page on a terminal", progress_on_a_terminal),
    Trial("faults of a page on a terminal have the statuses that they have elsewhere", faults_on_a_terminal),
]

TRIALS = [*CONDITIONS, *VERDICTS, *EVENTS, *FILES, *REDUCED, *TIMES, *DEVICES]
