"""The bounds of a page, read off the sources that keep them, and what a page has at most with them.

Each list of the data has a bound on its entries. An entry is a row of constant texts of crates/page_json between items, whose widest forms
stand below. A rule text is repeated with its names, numbers and signs, which takes at most 6.4 times its bytes.
"""

import json
import re

import page_files

RECORDS = 100_000
MOST_BYTES = 2_000_000  # of a page of so many records and one rule text, with its script
LONGEST_TEXT = 65_536
RULES = 176

# The widest items. A time can be nearly 2^48 before that of the page's first record.
RECORD, TIME, PACKET, VALUE = str(RECORDS), str(1 - 2**48), "9" * 10, str(-(2**31))
RULE, TEXT, NUMBER, COUNT = str(RULES - 1), "null", "65535", "16383"
LESS = "\\u003c"  # the character that takes most bytes
FILE = f"file {40 * LESS} {NUMBER} bytes"
SAID = f"{31 * LESS}: AP = {RULE}, FailCount = {NUMBER}, RTS = {NUMBER}"
REST = 3_000  # members that are no lists, brackets, and the names of files, 1,000 bytes of them


def source(path):
    with open(f"{page_files.TOP}/crates/{path}.rt", encoding="utf-8") as file:
        return file.read()


def number_in(path, name):
    """The number that a source gives to a constant."""
    return int(re.search(rf"const {name}: usize = ([\d_]+);", source(path))[1].replace("_", ""))


MOST = {
    "entries": number_in("run_page/src/lists", "ENTRIES"),
    "bands": number_in("run_summary/src/bands", "MOST"),
    "requests": 2 * number_in("run_summary/src/sent", "REQUESTS"),
    "parts": number_in("run_summary/src/sent", "PARTS"),
    "events": 2 * number_in("run_summary/src/sent", "EVENTS"),
    "commands": 2 * number_in("run_summary/src/uplinks", "UPLINKS"),
    "gaps": number_in("run_page/src/lanes", "GAPS"),
    "around": number_in("run_summary/src/recent", "MOST"),
}


def width(module, name, *items):
    """The bytes of a row of page_json with these items."""
    texts = re.search(rf"const {name}: &\[&str\] = &(\[.*?\]);", source(f"page_json/src/{module}"), re.S)[1]
    return sum(map(len, [*json.loads(texts.replace(",\n]", "]")), *items]))


def bytes_of_entries():
    """Behind each reduced entry is the last of its column, which is none."""
    single = width("lists", "VALUE", RECORD, TIME, VALUE) + len("],")
    reduced = width("lists", "VALUE", RECORD, TIME, VALUE) + width("lists", "TO_VALUE", VALUE, RECORD) + len(",")
    return MOST["entries"] * (single + reduced) // 2


def bytes_of_requests():
    """With as many samples as they can have, each of one comparison; each with one of eight rules, or with values of four fields."""
    request = width("requests", "REQUEST", PACKET, RECORD, TIME, RULE, TEXT, NUMBER, COUNT, PACKET, "null", NUMBER)
    request += len(',"one_of":[],"samples":[],"around":[]},')
    value = width("requests", "VALUE", RECORD, TIME, VALUE) + len(f'[{RULE},[]],')
    request += max(MOST["around"] * value, 9 * len(f"{RULE},"))
    part = width("requests", "MET", VALUE, RECORD, TIME, "false") + len(",")
    sample = width("requests", "SAMPLE", RECORD, TIME) + len(",[]],")
    return MOST["requests"] * request + MOST["parts"] * (sample + part)


def bytes_of_rules():
    """What a page has of a rule text: most of one with sixteen fields in each rule, all of them of one byte of one packet."""
    field = width("lists", "FIELD", "AA", "P", "2303", "u8", "0", "null", "0", RECORD) + width("lists", "LAST", RECORD, TIME) + len(',"values":[]},')
    comparison = width("rules", "COMPARISON", "2000", LESS, "1") + len(f',AA{LESS}1 or 15,"or",')
    rule = width("rules", "HEAD", "AA", "active", "1", "1", "info", "1000", "") + width("rules", "REPORT", "0", "0", "0")
    page = 16 * (field + comparison) + rule + len('","comparisons":[],"tree":[]},')
    text = 16 * len("field AA=P u8 at 0;AA<1 or ") - len(" or ") + len('rule AA active fails 1 sequence 1 event info 1000""when ;')
    return LONGEST_TEXT * page // text


def bytes_of_sampling():
    """The samples and gaps of each lane, and what the account says of each rule of a text with names of two bytes."""
    gap = width("samples", "GAP", RECORD, TIME, RECORD, TIME, RECORD) + len(",")
    lane = width("samples", "LANE", "false", RECORD) + len(',"gaps":[]},')
    counts = ",".join(f'"{name}":{RECORD}' for name in "sampled passed failed stale errors unsampled".split())
    row = len(f'{{"text":0,"rule":{RULE},"name":"{32 * "A"}",{counts}}},')
    return MOST["gaps"] * gap + RULES * (lane + row)


def most_bytes():
    """The most bytes of each part of a page of one rule text."""
    return {
        "script": sum(len(part.encode()) for part in page_files.parts()),
        "rules": bytes_of_rules(),
        "entries": bytes_of_entries(),
        "sampling": bytes_of_sampling(),
        "bands": MOST["bands"] * (width("lists", "TABLES", RECORD, TIME, TEXT, "adopted") + width("lists", "MODE", RECORD, TIME, "disabled") + 2),
        "requests": bytes_of_requests(),
        "events": MOST["events"] * (width("requests", "EVENT", PACKET, RECORD, TIME, RULE, "LC", NUMBER, "critical", SAID) + 1),
        "commands": MOST["commands"] * (width("commands", "COMMAND", RECORD, TIME, FILE) + 1),
        "rest": REST,
    }


def faults():
    """Whether a page can have too many bytes."""
    parts = most_bytes()
    if sum(parts.values()) > MOST_BYTES:
        yield f"a page can have {sum(parts.values()):,} bytes, more than {MOST_BYTES:,}: " + ", ".join(f"{name} {size:,}" for name, size in parts.items())
