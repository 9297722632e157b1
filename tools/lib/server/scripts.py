"""What is published of schedules and scenarios, beside what `flight_tools check --schedule` and `scenario` say of the same texts."""

import glob
import json
import os
import random
import re
import subprocess

from diagnostics import ERROR, INFORMATION, LEVELS, index_of_column, of_check, of_server
from language_rows import BUS
from places import place_of
from questions import faults_of_question
from reading_rows import SECOND
from rows.texts import ExampleTexts
from rule_reading import RuleReading
from script_reading import ScriptReading

TOP = os.path.dirname(os.path.dirname(os.path.dirname(os.path.dirname(os.path.abspath(__file__)))))
SEED = 2_028
SCENARIOS = 120
SCHEDULES = 60
URI, RULES_URI, SECOND_URI = "file:///script", "file:///names.rules", "file:///second.rules"
# What is said of a refused scenario where no rule text gives names.
NO_NAMES = (INFORMATION, None, "no rule text that compiles is open, so no packet, field or rule is known by name", (0, 0))
QUESTIONS = 3
HEAD = re.compile(r"^[^\n]+?:(\d+):(\d+): (error|warning)\[([\w-]+)\]: (.*)\n *\d+ \|[^\n]*\n *\| *\^* ?(.*)$", re.M)
WORDS = (
    "at after tick fields telemetry command packet record file half wdt adt sample housekeeping start stop restart reload load validate "
    "activate abort mode state filter ramp repeat expect no sequence event result active passive disabled off all age keep none pass fail "
    "stale error { } from by until each to LC SCH COUNTER u8 u16be 0883 18A4 0 1 7 16 100 65536 99999999999 - # LOW HOT 0:LOW BUS VOLTS "
    "VOLTS=1 DEGREES=-5 BUSS=1 slots 2 0x 0883X \u00e9 \U0001f600 \x01"
).split()
SPECIALS = ["\r", "\t", "\r\n", "\n", " ", "\n\n", "  # \U0001f600 "]


def read(path):
    with open(path, encoding="utf-8", newline="") as file:
        return file.read()


def examples():
    """Scenarios with the rule text whose names they use, none for plain scripts, and schedules."""
    data, rows = f"{TOP}/crates/run_rows/data", ExampleTexts()
    scenarios = [(read(path), "") for path in (f"{TOP}/examples/bus/bus.scenario", f"{data}/a_command_has_its_code_and_its_length/scenario.txt")]
    for front in (f"{TOP}/examples/{name}/{name}" for name in ("power_bus", "thermal_loop")):
        scenarios.append((read(f"{front}.scenario"), read(f"{front}.rules")))
    scenarios += [(text.decode(), "") for text in rows.scripts.values()]
    scenarios += [(text.decode(), BUS.replace("AMPS", "DEGREES")) for text in rows.scenarios.values()]
    scenarios = [it for it in scenarios if "repeat 1000" not in it[0]]
    schedules = [read(path) for path in sorted(glob.glob(f"{TOP}/examples/*/*.schedule") + glob.glob(f"{data}/*/schedule.txt"))]
    schedules += [text.decode() for text in rows.schedules.values()]
    return scenarios, schedules


def spoiled(chance, text):
    """The text with some of its words gone, doubled or replaced by others."""
    parts = re.split(r"(\s+)", text)
    for _ in range(chance.randrange(1, 4)):
        at = chance.randrange(len(parts))
        new = chance.choice(SPECIALS) if at % 2 else chance.choice(WORDS)
        parts[at] = chance.choice([new, new, "", parts[at] + new, parts[at] * 2])
    return "".join(parts)


def of_listing(text, listing):
    """The messages of a printed page, as `of_server` gives them, but without related places."""
    found = []
    for line, column, level, code, sentence, label in HEAD.findall(listing):
        place = place_of(text, index_of_column(text, int(line), int(column)))
        said = f"{sentence}: {label}" if label else sentence
        found.append((LEVELS[level], int(code) if code.isdigit() else code, said, (place["line"], place["character"])))
    return found


def shortened(diagnostics):
    return [(severity, code, sentence, where[:2]) for severity, code, sentence, where, _ in of_server(diagnostics, URI)]


def faults_of_outline(client, reading):
    """Symbols and folds are those of a reading of the text, also of one that is refused."""
    document = {"textDocument": {"uri": URI}}
    symbols, folds = (client.request(f"textDocument/{it}", document) for it in ("documentSymbol", "foldingRange"))
    looks = [(symbols, reading.symbols()), ([(it["startLine"], it["endLine"], it["kind"]) for it in folds], reading.folds())]
    yield from (f"{found}, not {wanted}, of {reading.text!r}" for found, wanted in looks if found != wanted)


def say_of_scenario(program, folder, text, rules):
    for name, content in (("text", text), ("rules", rules)):
        with open(f"{folder}/{name}", "w", encoding="utf-8", newline="") as file:
            file.write(content)
    words = [program, "scenario", "--script", "text", "--out", "stream", *(["rules"] if rules else [])]
    ran = subprocess.run(words, cwd=folder, stdout=subprocess.DEVNULL, stderr=subprocess.PIPE, timeout=60)
    return of_listing(text, ran.stderr.decode())


def say_of_schedule(program, folder, text):
    for name, content in (("text", text), ("rules", BUS)):
        with open(f"{folder}/{name}", "w", encoding="utf-8", newline="") as file:
            file.write(content)
    words = [program, "check", "--json", "--schedule", "text", "rules"]
    ran = subprocess.run(words, cwd=folder, stdout=subprocess.PIPE, timeout=60)
    messages = [json.loads(line) for line in ran.stdout.splitlines()]
    return of_check(text, [it for it in messages if it["file"] == "text"])


def faults_of_scenario(client, chance, folder, text, rules):
    """A scenario is opened, changed as a whole, and saved; its warnings are there at opening and saving alone."""
    wanted = say_of_scenario(client.tools, folder, text, rules)
    errors = [it for it in wanted if it[0] == ERROR]
    note = [NO_NAMES] if errors and not rules else []
    if rules:
        client.open(RULES_URI, "lcrules", rules)
    looks = [
        (shortened(client.open(URI, "lcscenario", text)), wanted + note),
        (shortened(client.change(URI, [{"text": text}])), errors + note),
        (shortened(client.save(URI)), wanted + note),
    ]
    yield from faults_of_outline(client, ScriptReading("scenario", text, {RULES_URI: RuleReading(rules)} if rules else {}))
    for _ in range(QUESTIONS):
        yield from faults_of_question(client, chance, URI, text)
    client.close(URI)
    if rules:
        client.close(RULES_URI)
    yield from (f"{found}, not {said}, of {text!r}" for found, said in looks if found != said)


def faults_of_schedule(client, chance, folder, text):
    wanted = say_of_schedule(client.tools, folder, text)
    looks = [client.open(URI, "lcschedule", text), client.change(URI, [{"text": text}]), client.save(URI)]
    yield from faults_of_outline(client, ScriptReading("schedule", text))
    for _ in range(QUESTIONS):
        yield from faults_of_question(client, chance, URI, text)
    client.close(URI)
    yield from (f"{of_server(found, URI)}, not {wanted}, of {text!r}" for found in looks if of_server(found, URI) != wanted)


# What is done with rule texts beside a scenario; the line of the scenario's error then, and whether no rule text gives names.
NAMING = "at 100 0\nBUS VOLTS=1\nLAMP BRIGHT=2\nstate 1:DARK passive\n"
STEPS = [
    ("open", RULES_URI, BUS, [2], False),
    ("open", SECOND_URI, SECOND, [], False),
    ("spoil", SECOND_URI, SECOND + "packet", [2], False),
    ("spoil", SECOND_URI, SECOND, [], False),
    ("close", RULES_URI, "", [1], False),
    ("open", RULES_URI, BUS, [3], False),
    ("close", SECOND_URI, "", [2], False),
    ("spoil", RULES_URI, BUS + "packet", [1], True),
    ("close", RULES_URI, "", [1], True),
]


def faults_of_names(client):
    """The names of a scenario are those of the rule texts that are open and compile, by the order of their opening."""
    published = client.open(URI, "lcscenario", NAMING)
    looks = [("opening", shortened(published), [1], True)]
    for what, uri, text, lines, is_alone in STEPS:
        count = len(client.published[URI])
        if what == "open":
            client.open(uri, "lcrules", text)
        elif what == "spoil":
            client.change(uri, [{"text": text}])
            client.save(uri)
        else:
            client.close(uri)
        looks.append((f"{what} {uri}", shortened(client.diagnostics(URI, count)), lines, is_alone))
    client.close(URI)
    for what, found, lines, is_alone in looks:
        if [it[3][0] for it in found if it[0] == ERROR] != lines or [it for it in found if it[0] == INFORMATION] != [NO_NAMES] * is_alone:
            yield f"after {what}: {found}, not errors in {lines}"


def faults_of_scripts(client, folder):
    chance = random.Random(SEED)
    scenarios, schedules = examples()
    scenarios += [(spoiled(chance, text), rules) for text, rules in (chance.choice(scenarios) for _ in range(SCENARIOS))]
    schedules += [spoiled(chance, chance.choice(schedules)) for _ in range(SCHEDULES)]
    for text, rules in scenarios:
        yield from (f"scenario: {fault}" for fault in faults_of_scenario(client, chance, folder, text, rules))
    for text in schedules:
        yield from (f"schedule: {fault}" for fault in faults_of_schedule(client, chance, folder, text))
    yield from faults_of_names(client)
    print(f"{len(scenarios)} scenarios, {len(schedules)} schedules")
