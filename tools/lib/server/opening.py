"""Documents that are opened, changed and closed in any order: what a server has open, in which language, and with which text."""

import random

from client import Refusal
from places import changed, range_of

SEED, STEPS = 2_029, 400
FOLDER = "file:///opening"
# The protocol's error for parameters that are wrong, and how it is told.
CLOSED = "-32602: the document is not open"
LANGUAGES = {"lcrules": "rules", "lcschedule": "schedule", "lcscenario": "scenario"}
# The languages that a client may name, and the ends of names; without a language of these the end decides.
NAMED = [*LANGUAGES, "plaintext", "LCRULES", "", None]
ENDS = {"a.rules": "rules", "a.schedule": "schedule", "a.scenario": "scenario", "a.txt": "rules"}
ENDS |= {"schedule": "rules", "a.scenario.bak": "rules"}
# What is published of an empty text: the warning that it has no rules, the refusal of a schedule without lines, nothing.
PUBLISHED = {"rules": ["no-rules"], "schedule": [131], "scenario": []}


def faults_of_languages(client):
    """A document's language is the one that the client names, or else that of the end of its name, also where it is opened again."""
    for end, by_name in ENDS.items():
        uri = f"{FOLDER}/{end}"
        for named in NAMED:
            wanted = LANGUAGES.get(named, by_name)
            client.opened[uri] = (f"lc{wanted}", 1)
            client.expect(uri, f"lc{wanted}", True)
            count = len(client.published[uri])
            language = {} if named is None else {"languageId": named}
            client.notify("textDocument/didOpen", {"textDocument": {"uri": uri, "version": 1, "text": "", **language}})
            found = [it["code"] for it in client.diagnostics(uri, count)]
            if found != PUBLISHED[wanted]:
                yield f"{end} as {named} is published with {found}, not {PUBLISHED[wanted]}"
        client.close(uri)


def names_in(client, uri):
    """The names that a server knows in a document, or why it knows none."""
    try:
        return [it["name"] for it in client.request("textDocument/documentSymbol", {"textDocument": {"uri": uri}})]
    except Refusal as error:
        return str(error)


def change_of(chance, text, name):
    """A change of a text that ends in a text of one packet: all of it, or its name by its range."""
    new = f"packet {name} = mid 0x0883 length 16;"
    kind, begin = chance.randrange(4), text.index(" ") + 1
    end = text.index(" ", begin)
    if kind == 0:
        return {"text": new}
    if kind == 1:
        return {"range": None, "text": new}
    if kind == 2:
        return {"range": {"start": {"line": 0, "character": 0}, "end": {"line": 2**32, "character": 0}}, "text": new}
    return {"range": range_of(text, begin, end), "text": name}


def faults_of_orders(client, chance):
    """Four documents are opened, also twice, changed, saved and closed by chance: each has its own text while it is open."""
    uris, texts = [f"{FOLDER}/{number}.rules" for number in range(4)], {}
    for number in range(STEPS):
        uri, name = chance.choice(uris), f"P{number}"
        what = chance.choice(("open", "change", "save", "close"))
        if what == "open":
            texts[uri] = f"packet {name} = mid 0x0883 length 16;"
            client.open(uri, "lcrules", texts[uri])
        elif uri in texts and what == "close":
            client.close(uri)
            del texts[uri]
        elif uri in texts and what == "change":
            change = change_of(chance, texts[uri], name)
            client.change(uri, [change])
            texts[uri] = changed(texts[uri], change)
        elif uri in texts:
            client.save(uri)
        found = [names_in(client, it) for it in uris]
        wanted = [[texts[it].split()[1]] if it in texts else CLOSED for it in uris]
        if found != wanted:
            yield f"step {number}, {what} {uri}: {found}, not {wanted}"
            break
    for uri in list(texts):
        client.close(uri)


def faults_of_opening(client):
    yield from faults_of_languages(client)
    yield from faults_of_orders(client, random.Random(SEED))
    print(f"{len(NAMED) * len(ENDS)} languages, {STEPS} steps")
