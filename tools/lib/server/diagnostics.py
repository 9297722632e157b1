"""The diagnostics that an editor gets, beside what `flight_tools check --json` says of the same text."""

import json
import subprocess

from places import place_of

ERROR, WARNING, INFORMATION = 1, 2, 3
LEVELS = {"error": ERROR, "warning": WARNING, "note": INFORMATION}
SOURCE = "flight_tools"


def index_of_column(text, line, column):
    """How many characters stand before a line and column of `check`, whose lines end with line feeds."""
    begin = 0
    for _ in range(line - 1):
        begin = text.index("\n", begin) + 1
    return begin + column - 1


def range_of_mark(text, at):
    if at is None:
        return (0, 0, 0, 0)
    begin, end = (place_of(text, index_of_column(text, at["line"], at[name])) for name in ("column", "end_column"))
    return (begin["line"], begin["character"], end["line"], end["character"])


def sentence(message):
    label = message["at"]["label"] if message["at"] else ""
    return f"{message['message']}: {label}" if label else message["message"]


def of_check(text, messages):
    """What should be published: severity, code, sentence, range, and the label and range of each other mark."""
    return [
        (
            LEVELS[it["level"]],
            it["code"] if it["warning"] is None else it["warning"],
            sentence(it),
            range_of_mark(text, it["at"]),
            tuple((mark["label"], range_of_mark(text, mark)) for mark in it["others"]),
        )
        for it in messages
        if it["level"] in LEVELS
    ]


def flat(where):
    return tuple(where[side][name] for side in ("start", "end") for name in ("line", "character"))


def of_mark(mark, uri):
    """The label and range of another mark, which stands in the document that it is about."""
    where = mark["location"]
    return (mark["message"] if where["uri"] == uri else f"{mark['message']} in {where['uri']}", flat(where["range"]))


def of_server(diagnostics, uri):
    """What was published of a document, in the same form."""
    return [
        (
            it["severity"],
            it.get("code"),
            it["message"] if it["source"] == SOURCE else f"{it['message']} by {it['source']}",
            flat(it["range"]),
            tuple(of_mark(mark, uri) for mark in it.get("relatedInformation", [])),
        )
        for it in diagnostics
    ]


def errors_of(found):
    return [it for it in found if it[0] == ERROR]


def check(program, folder, texts, options=()):
    """What `check --json` says of each of these texts, by their names, in one call."""
    for name, text in texts.items():
        with open(f"{folder}/{name}", "w", encoding="utf-8", newline="") as file:
            file.write(text)
    if not texts:
        return {}
    ran = subprocess.run([program, "check", "--json", *options, *texts], cwd=folder, stdout=subprocess.PIPE, timeout=100)
    found = {name: [] for name in texts}
    for line in ran.stdout.splitlines():
        message = json.loads(line)
        found[message["file"]].append(message)
    return found
