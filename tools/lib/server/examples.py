"""Asks a server about each word of example texts, and compares its answers with what readings of the texts say (rule_reading.py and
script_reading.py)."""

import glob
import os

import reading_rows as rows
from choices import choices_in_order, faults_of_choices, names_and_words
from diagnostics import check
from language import REFUSED, locations
from mistakes import texts
from places import edited, place_of, range_of
from rule_reading import TOP, RuleReading
from script_reading import ScriptReading, faults_of_forms
from tokens import decoded, spelled, tokens_in

FOLDER = "file:///examples"
URI = f"{FOLDER}/example.rules"
NEW, TAKEN = "NEW_NAME_9", "the text has this name already"
# A range for semantic tokens begins at each word of this number, and ends so many words later.
STEP, SPAN = 7, 5


def example_texts():
    """Rule texts that compile."""
    found = texts()
    for path in sorted(glob.glob(f"{TOP}/examples/*/*.rules") + glob.glob(f"{TOP}/crates/run_rows/data/*/*rules.txt")):
        if os.path.getsize(path) < 4_000:
            with open(path, encoding="ascii") as file:
                found.append(file.read())
    return list(dict.fromkeys(found))


def readings_of(program, folder, found):
    """The readings of rule texts, with what `check --all` says of their rules."""
    said = check(program, folder, {str(number): text for number, text in enumerate(found)}, ["--all"])
    parts = [[it["message"].partition(": ") for it in messages if it["level"] == "note"] for messages in said.values()]
    return [RuleReading(text, {name: values for name, _, values in it}) for text, it in zip(found, parts)]


# What all texts are asked.


def faults_of_outline(client, uri, reading):
    """Symbols, folds, and semantic tokens, of the whole text and of parts of it."""
    document = {"textDocument": {"uri": uri}}
    folds = client.request("textDocument/foldingRange", document)
    data = client.request("textDocument/semanticTokens/full", document)["data"]
    looks = [
        ("symbols", client.request("textDocument/documentSymbol", document), reading.symbols()),
        ("folds", [(it["startLine"], it["endLine"], it["kind"]) for it in folds], reading.folds()),
        ("tokens", spelled(reading.text, client.legend, data), reading.tokens()),
    ]
    whole, places = decoded(client.legend, data), [it[0] for it in reading.words]
    for begin, end in zip(places[::STEP], [*places[SPAN::STEP], len(reading.text)]):
        where = range_of(reading.text, begin, end)
        data = client.request("textDocument/semanticTokens/range", {**document, "range": where})["data"]
        looks.append((f"tokens in {where}", decoded(client.legend, data), tokens_in(whole, where)))
    yield from (f"{what}: {found}, not {wanted}" for what, found, wanted in looks if found != wanted)


def faults_of_word(client, uri, reading, begin, at, offered):
    """What may stand at the begin of a word, and what is said at a place of it, and where a name there is declared."""
    text, document = reading.text, {"textDocument": {"uri": uri}}
    items = client.request("textDocument/completion", {**document, "position": place_of(text, begin)})["items"]
    here = {**document, "position": place_of(text, at)}
    looks = [
        ("choices", names_and_words(choices_in_order(items)), offered),
        ("hover", client.request("textDocument/hover", here), reading.hover(at)),
        ("definition", locations(client.request("textDocument/definition", here)), reading.definition(at, uri)),
    ]
    yield from (f"{what} at {at} of {begin}: {found}, not {wanted}" for what, found, wanted in looks if found != wanted)
    yield from (f"choices at {begin}: {fault}" for fault in faults_of_choices(text, begin, items))


def faults_of_text(client, uri, language, reading, turn):
    """Each word is asked about at its begin, inside or at its end by turns."""
    client.open(uri, language, reading.text)
    yield from faults_of_outline(client, uri, reading)
    sizes = {it[0]: len(it[1]) for it in reading.words}
    for number, (begin, offered) in enumerate(reading.choice_places(), turn):
        at = begin + (0, sizes[begin] // 2, sizes[begin])[number % 3]
        yield from faults_of_word(client, uri, reading, begin, at, offered)


# What rule texts are asked besides.


def renamed(reading, name):
    """The text with another name."""
    text = reading.text
    for at, word in reversed(reading.names):
        if word == name:
            text = text[:at] + NEW + text[at + len(word) :]
    return text


def faults_of_name(client, reading, number):
    """Asks about one name where it stands: at its begin, inside and at its end by turns."""
    at, name = reading.names[number]
    here = {"textDocument": {"uri": URI}, "position": place_of(reading.text, at + (0, len(name) // 2, len(name))[number % 3])}
    uses = [(URI, reading.range_at(*it)) for it in reading.names if it[1] == name]
    declaration = [(URI, reading.range_at(it.at, name)) for it in reading.items if it.name == name]
    others = [it for it in uses if it not in declaration]
    looks = [
        ("definition", locations(client.request("textDocument/definition", here)), declaration[:1]),
        ("prepareRename", client.request("textDocument/prepareRename", here), reading.range_at(at, name)),
    ]
    # A request that does not say whether it wants declarations gets them.
    for context, wanted in (({"includeDeclaration": True}, uses), ({"includeDeclaration": False}, others), ({}, uses), (None, uses)):
        asked = here if context is None else {**here, "context": context}
        looks.append((f"references with {context}", locations(client.request("textDocument/references", asked)), wanted))
    yield from (f"{what} of {name} at {at}: {found}, not {wanted}" for what, found, wanted in looks if found != wanted)


def faults_of_new_name(client, reading, item, taken):
    """A new name stands everywhere; one that the text has already is refused."""
    here = {"textDocument": {"uri": URI}, "position": place_of(reading.text, item.at)}
    edits = client.request("textDocument/rename", {**here, "newName": NEW})["changes"][URI]
    if edited(reading.text, edits) != renamed(reading, item.name):
        yield f"rename of {item.name}: {edited(reading.text, edits)}"
    answer = client.ask("textDocument/rename", {**here, "newName": taken})
    if answer.get("error") != {"code": REFUSED, "message": TAKEN}:
        yield f"rename of {item.name} to {taken}: {answer}"


def faults_of_names(client, reading):
    for number in range(len(reading.names)):
        yield from faults_of_name(client, reading, number)
    declared = list(reading.declared.values())
    for item, other in zip(declared, declared[1:]):
        yield from faults_of_new_name(client, reading, item, other.name)


def faults_of_compiling(client, folder, readings):
    """Texts with other names compile as they did: with the same warnings, names aside."""
    made = {f"{number}-{name}": renamed(it, name) for number, it in enumerate(readings) for name in it.declared}
    said = check(client.tools, folder, {**{str(number): it.text for number, it in enumerate(readings)}, **made})
    for title in made:
        number = title.partition("-")[0]
        before, after = ([(it["level"], it["code"], it["warning"]) for it in said[key]] for key in (number, title))
        if before != after:
            yield f"rename {title}: {after}, not {before}"
    return len(made)


def faults_of_scripts(client, folder):
    """Schedules and scenarios, the latter beside two rule texts of which both have a rule of one name."""
    rules = {f"{FOLDER}/{number}.rules": it for number, it in enumerate(readings_of(client.tools, folder, [rows.BUS, rows.SECOND]))}
    for uri, it in rules.items():
        client.open(uri, "lcrules", it.text)
    count = 0
    for kind, text in (("scenario", rows.SCENARIO), ("scenario", rows.BLOCKS), ("schedule", rows.SCHEDULE)):
        for number, it in enumerate(rows.with_line_ends(text)):
            reading, uri = ScriptReading(kind, it, rules), f"{FOLDER}/script.{kind}"
            count += len(reading.words)
            yield from (f"{kind} {number}: {fault}" for fault in faults_of_text(client, uri, f"lc{kind}", reading, number))
            client.close(uri)
    for uri in rules:
        client.close(uri)
    return count


def faults_of_examples(client, folder):
    yield from faults_of_forms()
    readings = readings_of(client.tools, folder, example_texts())
    more = readings_of(client.tools, folder, rows.TEXTS)
    for number, reading in enumerate(readings + more):
        faults = list(faults_of_text(client, URI, "lcrules", reading, number))
        faults += faults_of_names(client, reading) if number < len(readings) else []
        client.close(URI)
        yield from (f"example {number}: {fault}" for fault in faults)
    count = yield from faults_of_compiling(client, folder, readings)
    script_words = yield from faults_of_scripts(client, folder)
    words = sum(len(it.words) for it in readings + more)
    print(f"{len(readings + more)} examples with {words} words; {count} new names; {script_words} words of scripts")
