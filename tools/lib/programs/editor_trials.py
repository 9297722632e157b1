"""`flight_tools lsp`: where a scenario's first fault is marked while two rule texts are open, each of which declares other names."""

import json
import subprocess

from records import LOW_VOLTS, SHARED
from trial import SECONDS, Trial

CALLS = ["flight_tools lsp"]
# Names that LOW_VOLTS does not declare.
WORDS = SHARED["WORDS"]


def framed(message):
    body = json.dumps({"jsonrpc": "2.0", **message}).encode()
    return b"Content-Length: %d\r\n\r\n%s" % (len(body), body)


def opened(uri, language, text):
    document = {"uri": uri, "languageId": language, "version": 1, "text": text}
    return {"method": "textDocument/didOpen", "params": {"textDocument": document}}


def messages_in(output):
    while output:
        head, _, rest = output.partition(b"\r\n\r\n")
        size = int(head.split(b"Content-Length:", 1)[1].split(b"\r\n", 1)[0])
        yield json.loads(rest[:size])
        output = rest[size:]


def marked(scenario, line, begin, end, code, sentence):
    """The fault that is published of a scenario, after both texts."""
    talk = [
        {"id": 1, "method": "initialize", "params": {"processId": None, "rootUri": None, "capabilities": {}}},
        {"method": "initialized", "params": {}},
        opened("file:///a.rules", "lcrules", LOW_VOLTS.decode()),
        opened("file:///b.rules", "lcrules", WORDS.decode()),
        opened("file:///c.scenario", "lcscenario", scenario),
        {"id": 2, "method": "shutdown"},
        {"method": "exit"},
    ]

    def faults(programs):
        ran = subprocess.run([programs["flight_tools"], "lsp"], input=b"".join(map(framed, talk)), capture_output=True, timeout=SECONDS)
        published = [it["params"] for it in messages_in(ran.stdout) if it.get("method") == "textDocument/publishDiagnostics"]
        last = [it["diagnostics"] for it in published if it["uri"] == "file:///c.scenario"][-1:]
        found = [(it["code"], it["range"], it["message"].split("\n", 1)[0]) for it in (last[0] if last else [])]
        place = {"start": {"line": line, "character": begin}, "end": {"line": line, "character": end}}
        expected = [(code, place, sentence)]
        return [] if found == expected else [f"it was {found} and should be {expected}"]

    return faults


TRIALS = [
    Trial(
        "a scenario of an editor, with a packet of the second text before its fault",
        marked("tick\nPWR AMPS=5\nBUS VOLTS=7\n" + 5 * "tick\n" + "PWR AMPS=99999\n", 8, 9, 14, 169, "`99999` is outside the type of the field `AMPS`: `u16be` has 0 to 65,535"),
    ),
    Trial(
        "a scenario of an editor, with a misspelt packet of the second text",
        marked("PWR AMPS=5\nPWRR AMPS=5\n", 1, 0, 4, 161, "expected a packet's name or a statement, found `PWRR`: did you mean `PWR`?"),
    ),
]
