"""How much of the processor a server takes for an answer about a text of 64 KB."""

import os

import worst
from places import place_of, range_of

TOP = os.path.dirname(os.path.dirname(os.path.dirname(os.path.dirname(os.path.abspath(__file__)))))
URI, RULES_URI = "file:///large", "file:///names.rules"
TIMES = 3
# Of the processor, in milliseconds: what it should take at most, and where the gate fails, since machines are shared.
ALLOWED, MOST = 50, 250
PACKET = "packet P=mid 2179 length 99;\n"


def example(name):
    with open(f"{TOP}/crates/run_rows/data/{name}/rules.txt", encoding="ascii") as file:
        return file.read()


FIELDS = PACKET + worst.filled("field FA{0}=P u8 at 12;\n")[: worst.LENGTH - len(PACKET) - 200].rpartition("\n")[0] + "\n"
TEXTS = {
    "176 rules of four comparisons": worst.ORDINARY["176 rules of four comparisons each"],
    "rules of sixteen comparisons": example("full_tables_of_sixteen_mentions_request_all"),
    "fields, and the begin of a rule": FIELDS + worst.RULE.format(0) + "F",
    "a rule of many lines": worst.filled("(V<1 or\n", PACKET + "field V=P u8 at 12;\n" + worst.RULE.format(0)),
    "bad bytes": worst.TEXTS["bad bytes on lines"],
    "ends of items with bad bytes": worst.TEXTS["ends of items with bad bytes"],
    "comparisons of fields that aren't there": worst.TEXTS["comparisons of fields that aren't there"],
    "names that are near": worst.TEXTS["names that are near"],
    "comments": worst.filled("# \u00e9\U0001f600\n"),
}
# Scripts, each beside a rule text with many fields.
SCENARIOS = {
    "packets by name": worst.filled("P FA1=1 FA2600=1\n", "at 1 0\n"),
    "lines of one word": worst.filled("tick\n", "at 1 0\n"),
    "comments of a scenario": worst.filled("# \u00e9\U0001f600\n"),
    "repetitions that are not closed": worst.filled("repeat 1 {{\n", "at 1 0\n"),
}
SCHEDULES = {"comments of a schedule": worst.filled("# \u00e9\U0001f600\n", "slots 1\n")}


def questions(text):
    """The requests, each with its parameters, about the middle of a text."""
    middle = text.find("V", len(text) // 2)
    place = place_of(text, middle if middle >= 0 else len(text) // 2)
    end, whole = place_of(text, len(text)), range_of(text, 0, len(text))
    options = {"tabSize": 4, "insertSpaces": True}
    return {
        "completion": {"position": end},
        "hover": {"position": place},
        "definition": {"position": place},
        "references": {"position": place, "context": {"includeDeclaration": True}},
        "prepareRename": {"position": place},
        "rename": {"position": place, "newName": "QQ_NEW"},
        "documentSymbol": {},
        "foldingRange": {},
        "codeAction": {"range": whole, "context": {"diagnostics": []}},
        "formatting": {"options": options},
        "semanticTokens/full": {},
        "semanticTokens/range": {"range": {"start": place, "end": end}},
    }


def milliseconds(client, ask):
    """What the shortest of several calls takes: the others may have waited for memory that another program used."""
    figures = []
    for number in range(TIMES):
        before = client.processor_seconds()
        ask(number)
        figures.append((client.processor_seconds() - before) * 1_000)
    return min(figures)


def figures_of(client, text, language):
    """The milliseconds of the processor for each question, and for a change in the middle."""
    client.open(URI, language, text)
    place = place_of(text, len(text) // 2)
    there = {"start": place, "end": place}
    after = {**place, "character": place["character"] + 1}
    changes = [{"range": there, "text": " "}, {"range": {"start": place, "end": after}, "text": ""}]
    figures = {"change": milliseconds(client, lambda number: client.change(URI, [changes[number % 2]]))}
    client.change(URI, [{"text": text}])
    for method, params in questions(text).items():
        asked = {"textDocument": {"uri": URI}, **params}
        figures[method] = milliseconds(client, lambda _: client.ask(f"textDocument/{method}", asked))
    client.close(URI)
    return figures


def faults_of_texts(client, texts, language, longest):
    for title, text in texts.items():
        if len(text.encode()) > worst.LENGTH:
            yield f"{title}: {len(text.encode())} bytes"
        for method, figure in figures_of(client, text, language).items():
            longest[method] = max(longest.get(method, (0, "")), (figure, title))
            if figure > MOST:
                yield f"{method} takes {figure:.0f} ms of the processor: {title}"


def faults_of_bounds(client):
    longest = {}
    yield from faults_of_texts(client, TEXTS, "lcrules", longest)
    client.open(RULES_URI, "lcrules", FIELDS)
    yield from faults_of_texts(client, SCENARIOS, "lcscenario", longest)
    yield from faults_of_texts(client, SCHEDULES, "lcschedule", longest)
    client.close(RULES_URI)
    said = ", ".join(f"{method} {figure:.0f}" + f" ({title})" * (figure > ALLOWED) for method, (figure, title) in longest.items())
    print(f"{len({**TEXTS, **SCENARIOS, **SCHEDULES})} texts of 64 KB, at most so many ms of the processor: {said}")
