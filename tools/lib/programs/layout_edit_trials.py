"""What `flight_tools lsp` answers about layouts and values: formatting gives the fewest edits, a hover calls the fields of a rule as its
own condition does, and a text that is too long is published with its length. All messages stand on standard input at once."""

import json
import subprocess

from records import SHARED
from rows.reader import read_file
from trial import SECONDS, Trial

CALLS = ["flight_tools format", "flight_tools lsp"]
URI = "file:///text.rules"
BLANKS = " \t\r\n"
LAYOUTS = read_file("rows/format/layouts.rows", SHARED)
WIDE, LAID_OUT = (LAYOUTS.contents[name].decode() for name in ("WIDE", "LAID_OUT"))
NESTED = LAYOUTS.row("deep parentheses")
DEEP, DEEP_LAID_OUT = (files["text"].decode() for files in (NESTED.before, NESTED.after))


def talk(programs, text, requests):
    """The status, what is on standard error, and the results of requests about a rule text, by their order; without any, what is
    published of the text."""
    document = {"textDocument": {"uri": URI}}
    messages = [
        {"id": "begin", "method": "initialize", "params": {"processId": None, "rootUri": None, "capabilities": {}}},
        {"method": "initialized", "params": {}},
        {"method": "textDocument/didOpen", "params": {"textDocument": {"uri": URI, "languageId": "lcrules", "version": 1, "text": text}}},
        *({"id": number, "method": f"textDocument/{method}", "params": {**document, **more}} for number, (method, more) in enumerate(requests)),
        {"id": "end", "method": "shutdown"},
        {"method": "exit"},
    ]
    bodies = [json.dumps({"jsonrpc": "2.0", **it}).encode() for it in messages]
    given = b"".join(b"Content-Length: %d\r\n\r\n%b" % (len(body), body) for body in bodies)
    ran = subprocess.run([programs["flight_tools"], "lsp"], input=given, capture_output=True, timeout=SECONDS)
    found, rest = {}, ran.stdout
    while rest:
        head, _, rest = rest.partition(b"\r\n\r\n")
        size = int(head.partition(b": ")[2])
        message, rest = json.loads(rest[:size]), rest[size:]
        found[message.get("id")] = message.get("result", message.get("error"))
        if message.get("method") == "textDocument/publishDiagnostics":
            found["published"] = message["params"]["diagnostics"]
    return [ran.returncode, ran.stderr, *(found.get(number) for number in range(len(requests)) or ["published"])]


def gaps(text):
    """The blanks before each other character and before the end, with their places."""
    found, begin = [], 0
    for at, char in enumerate([*text, ""]):
        if char not in BLANKS or not char:
            found.append((begin, at))
            begin = at + 1
    return found


def place(text, at):
    line = text.count("\n", 0, at)
    return {"line": line, "character": at - (text.rfind("\n", 0, at) + 1)}


def fewest_edits(old, new):
    """An edit for each gap that differs: the texts have the same characters that are no blanks. Lines end in line feeds."""
    edits = []
    for (begin, end), (first, last) in zip(gaps(old), gaps(new), strict=True):
        if old[begin:end] != new[first:last]:
            edits.append({"newText": new[first:last], "range": {"start": place(old, begin), "end": place(old, end)}})
    return edits


def formatted(old, new):
    """Formatting leads from one text to the other by these edits, and not by others."""

    def faults(programs):
        asked = [("formatting", {"options": {"tabSize": 4, "insertSpaces": True}})]
        found, expected = talk(programs, old, asked), [0, b"", fewest_edits(old, new)]
        return [] if found == expected else [f"it was {found} and should be {expected}"]

    return faults


# Gaps of 17 blanks and more, on a line and at lines' begins.
FAR = "packet P = mid 0x0883 length 16;" + " " * 17 + "# first\n" + "\n" * 20 + "field V = P u8 at" + " " * 40 + "12;\n"
FAR_LAID_OUT = "packet P = mid 0x0883 length 16; # first\n\nfield V = P u8 at 12;\n"

TEXTS = [
    ("a text in its layout", LAID_OUT, LAID_OUT),
    ("lines inside of nine parentheses in their layout", DEEP_LAID_OUT, DEEP_LAID_OUT),
    ("lines inside of nine parentheses", DEEP, DEEP_LAID_OUT),
    ("a text in another layout", WIDE, LAID_OUT),
    ("long gaps", FAR, FAR_LAID_OUT),
    ("blanks at the begin and at the end", "  packet P = mid 0x0883 length 16;  \n\n", "packet P = mid 0x0883 length 16;\n"),
]

# Two names of one field, and a rule by each.
TWO_NAMES = """\
packet P = mid 0x0883 length 2048;
field OLD = P u16be at 300;
field NEW = P u16be at 300;
rule A active fails 1 sequence 1 event info 1001 "" when OLD < 9;
rule B active fails 1 sequence 2 event info 1002 "" when NEW > 20;
"""


def by_their_own_names(programs):
    """What a hover says of each rule."""
    asked = [("hover", {"position": {"line": line, "character": 5}}) for line in (3, 4)]
    status, error, *hovers = talk(programs, TWO_NAMES, asked)
    wanted = ["fails for OLD = 8; passes for OLD = 9", "fails for NEW = 21; passes for NEW = 20"]
    said = [json.dumps(it) for it in hovers]
    found = (status, error, [want in it and "?" not in it for want, it in zip(wanted, said)])
    return [] if found == (0, b"", [True, True]) else [f"it was {found}: {said}"]


def of_length(length):
    """What is published of a text that is too long as a whole."""

    def faults(programs):
        status, error, published = talk(programs, " " * length, [])
        found = (status, error, [it["message"].split("\n")[0] for it in published])
        expected = (0, b"", ["the file is too long: at most 65,536 bytes are allowed"])
        return [] if found == expected else [f"it was {found} and should be {expected}"]

    return faults


TRIALS = [
    *(Trial(f"a text of {length:,} bytes in an editor", of_length(length)) for length in (66_002, 1_002_003)),
    *(Trial(f"the edits that format {title}", formatted(old, new)) for title, old, new in TEXTS),
    Trial("a hover calls fields as its rule does", by_their_own_names),
]
