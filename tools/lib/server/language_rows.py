"""What a server answers about texts. In a text `‸` is the place that is asked about; `⟦` and `⟧` stand around what the answer names."""

from dataclasses import dataclass, replace

BUS = """packet BUS = mid 0x0883 length 16;
packet PWR = mid 0x0884 length 20;
field VOLTS = BUS u16be at 12 stale 3;
field AMPS = PWR i16le at 12 mask 0x0FFF;
rule LOW active fails 2 sequence 7 event error 1001 "low volts"
    when VOLTS < 2400 and not AMPS == 0;
rule HOT disabled fails 1 sequence 8 event info 1002 "" report 1 2 3 when AMPS > 60;
"""
PACKET = "packet P = mid 0x0883 length 16; "
FIELD = "field V = P u8 at 12; "
HEAD = "rule R active fails 1 sequence 1 event info 1001 "
WIDE = "\U0001f600\u00e9"
TYPES = "u8 i8 u16be u16le i16be i16le u32be u32le i32be i32le"

# What the server can do.
TOKEN_TYPES = ["keyword", "operator", "type", "enumMember", "class", "property", "function", "number", "string", "comment"]
CAPABILITIES = {
    "codeActionProvider": {"codeActionKinds": ["quickfix"]},
    "completionProvider": {"resolveProvider": False, "triggerCharacters": [" ", "="]},
    "definitionProvider": True,
    "documentFormattingProvider": True,
    "documentRangeFormattingProvider": True,
    "documentSymbolProvider": True,
    "foldingRangeProvider": True,
    "hoverProvider": True,
    "positionEncoding": "utf-16",
    "referencesProvider": True,
    "renameProvider": {"prepareProvider": True},
    "semanticTokensProvider": {"full": True, "legend": {"tokenModifiers": ["declaration"], "tokenTypes": TOKEN_TYPES}, "range": True},
    "textDocumentSync": {"change": 2, "openClose": True, "save": {"includeText": False}},
}


@dataclass
class Ask:
    """A question about a text; `rules` is a rule text that is open beside a scenario, and of a whole list `want` leaves nothing out."""

    title: str
    text: str
    want: object = None
    kind: str = "rules"
    rules: str = ""
    is_whole: bool = False


def rule(condition, text=""):
    return f'{HEAD}"{text}" when {condition}'


def on(word, new, text=BUS):
    """A text with another word, which has marks, in the place of its first occurrence of this one."""
    return text.replace(word, new, 1)


def named(name, place, text=BUS):
    """A text with marks around all occurrences of a name, and the place in one of them."""
    bare = place.replace("‸", "").replace("⟦", "").replace("⟧", "")
    return text.replace(name, f"⟦{name}⟧").replace(bare.replace(name, f"⟦{name}⟧"), place)


def scenario(title, text, want=None, rules=BUS):
    return Ask(title, text, want, "scenario", rules)


def schedule(title, text, want=None):
    return Ask(title, text, want, "schedule")


def whole(ask):
    """A question whose row has all that is answered."""
    return replace(ask, is_whole=True)


# Where the name at a place is declared.
DEFINITIONS = [
    Ask("a packet in a field", on("packet BUS", "packet ⟦BUS⟧", on("BUS u16be", "BUS‸ u16be"))),
    Ask("a field in a condition", on("field VOLTS", "field ⟦VOLTS⟧", on("VOLTS <", "V‸OLTS <"))),
    Ask("the end of a field's name", on("field AMPS", "field ⟦AMPS⟧", on("AMPS >", "AMPS‸ >"))),
    Ask("a declaration", on("rule LOW", "rule ⟦L‸OW⟧")),
    Ask("a number", on("2400", "24‸00")),
    Ask("a word of the language", on("sequence", "seq‸uence")),
    Ask("a blank behind a sign", "packet BUS = ‸ mid 0x0883 length 16;"),
    Ask("a quoted text", on('"low volts"', '"VOL‸TS"')),
    Ask("a comment with a name", BUS + "# VOL‸TS is low\n"),
    Ask("a name that nothing declares", rule("VOL‸TS < 1;")),
    Ask("a name that is declared later", rule("V‸ < 1; field ⟦V⟧ = P u8 at 12; ") + PACKET),
    Ask("a name that is declared twice", PACKET + FIELD.replace("V", "⟦V⟧") + FIELD + rule("‸V < 1;")),
    Ask("a field with the name of a rule", rule("V‸ < 1;").replace("R", "V") + "field ⟦V⟧ = P u8 at 12; " + PACKET),
    Ask("a rule with the name of a field", FIELD + rule("V < 1;").replace("R", "⟦V‸⟧") + PACKET),
    Ask("a packet with the name of a field", "field P = P‸ u8 at 12; packet ⟦P⟧ = mid 0x0883 length 16;"),
    Ask("behind a character of two units", PACKET + FIELD.replace("V", "⟦V⟧") + rule("V‸ < 1;", WIDE)),
    Ask("a declaration behind a character of two units", PACKET + rule("‸V < 1;", WIDE) + FIELD.replace("V", "⟦V⟧")),
    Ask("on the line behind such characters", f"# {WIDE} {WIDE}\npacket ⟦P⟧ = mid 0x0883 length 16; # {WIDE}\nfield V = P‸ u8 at 12;"),
    Ask("an empty text", "‸"),
    scenario("a packet in a scenario", "at 100 0\n‸BUS VOLTS=1\n", rules=on("packet BUS", "packet ⟦BUS⟧")),
    scenario("a field in a scenario", "at 100 0\nBUS VO‸LTS=1\n", rules=on("field VOLTS", "field ⟦VOLTS⟧")),
    scenario("a field of a ramp", "ramp AMPS‸ 1 9 by 1 each 1\n", rules=on("field AMPS", "field ⟦AMPS⟧")),
    scenario("a rule in a scenario", "expect state HO‸T disabled\n", rules=on("rule HOT", "rule ⟦HOT⟧")),
    scenario("a rule with a text's number", "state 0:LO‸W passive\n", rules=on("rule LOW", "rule ⟦LOW⟧")),
    scenario("a name in a scenario without a rule text", "BU‸S VOLTS=1\n", rules=""),
    scenario("a word of a scenario", "expect sta‸te LOW active\n"),
    schedule("a schedule", "slots 1\n0 samp‸le 0 175 age\n"),
]

# The uses of the name at a place; `want` says whether its declarations are asked for.
REFERENCES = [
    Ask("a packet with its declaration", named("BUS", "packet ⟦B‸US⟧"), True),
    Ask("a packet without its declaration", named("BUS", "packet B‸US"), False),
    Ask("a field with its declaration", named("AMPS", "⟦AM‸PS⟧ >"), True),
    Ask("a rule without its declaration", on("LOW", "LO‸W"), False),
    Ask("a name that nothing declares", rule("⟦V‸⟧ < 1 or ⟦V⟧ > 5;"), True),
    Ask("a number", on("2400", "24‸00"), True),
    Ask("in a text with errors", PACKET.replace("0x0883", "1") + "@ field ⟦V⟧ = P u8 at 12; " + rule("⟦‸V⟧ < ; rule"), True),
    Ask("behind a character of two units", FIELD.replace("V", "⟦V⟧") + rule("⟦‸V⟧ < 1;", WIDE), True),
]

# The range of a name that can get another name.
PREPARES = [
    Ask("a declaration", on("packet BUS", "packet ⟦B‸US⟧")),
    Ask("a use", on("VOLTS <", "⟦VOLTS‸⟧ <")),
    Ask("a word of the language", on("packet", "pack‸et")),
    Ask("a number", on("2400", "‸2400")),
    Ask("a comment", BUS + "# VO‸LTS\n"),
    Ask("a quoted text", on("low volts", "low‸ volts")),
    scenario("a scenario", "B‸US VOLTS=1\n"),
    schedule("a schedule", "sl‸ots 1\n"),
]

# Why a new name is refused.
NO_NAME = "a name is a letter or `_`, then letters, digits and `_`"
RESERVED = "the new name is a reserved word"
TOO_LONG = "a name has at most 32 bytes"
TAKEN = "the text has this name already"
NOTHING = "no name stands here"
NO_RULES = "only names in rule texts can be changed"

# New names: what stands in marks gets the name; or a name, and why it is refused.
RENAMES = [
    Ask("a packet", named("BUS", "packet ⟦B‸US⟧"), "MAIN_BUS"),
    Ask("a field, from a use", named("VOLTS", "⟦VOLT‸S⟧ <"), "v"),
    Ask("a field with two uses", named("AMPS", "⟦‸AMPS⟧ >"), "AMPERES_OF_ALL_THE_LOADS_TOGETHER"[:32]),
    Ask("a rule", named("LOW", "rule ⟦L‸OW⟧"), "_LOW9"),
    Ask("a name in a comment stays", "# BUS\n" + named("BUS", "packet ⟦BUS‸⟧"), "MAIN"),
    Ask("its own name", named("BUS", "packet ⟦B‸US⟧"), "BUS"),
    Ask("its own name in other letters", named("BUS", "packet ⟦B‸US⟧"), "bus"),
    Ask("a reserved word", on("BUS", "B‸US"), ("when", RESERVED)),
    Ask("a type", on("BUS", "B‸US"), ("u8", RESERVED)),
    Ask("a name with a blank", on("BUS", "B‸US"), ("MAIN BUS", NO_NAME)),
    Ask("a name that begins with a digit", on("BUS", "B‸US"), ("9BUS", NO_NAME)),
    Ask("an empty name", on("BUS", "B‸US"), ("", NO_NAME)),
    Ask("a name with a letter outside ASCII", on("BUS", "B‸US"), ("B\u00dcS", NO_NAME)),
    Ask("a name of 33 letters", on("BUS", "B‸US"), ("N" * 33, TOO_LONG)),
    Ask("the name of a field", on("BUS", "B‸US"), ("AMPS", TAKEN)),
    Ask("the name of a rule", on("VOLTS", "VOL‸TS"), ("HOT", TAKEN)),
    Ask("a name as long", on("BUS", "B‸US"), ("PWR", TAKEN)),
    Ask("a name that nothing declares", rule("VOL‸TS < 1 or AMPS < 1;"), ("AMPS", TAKEN)),
    Ask("a number's place", on("2400", "24‸00"), ("V", NOTHING)),
    Ask("a comment's place", BUS + "# VOL‸TS\n", ("V", NOTHING)),
    scenario("a scenario", "B‸US VOLTS=1\n", ("MAIN", NO_RULES)),
    schedule("a schedule", "sl‸ots 1\n", ("MAIN", NO_RULES)),
]

# Words that are said of the word at a place; no words where nothing is said.
HOVERS = [
    Ask("a packet", on("BUS u", "⟦BU‸S⟧ u"), ["BUS", "0883", "length 16", "VOLTS"]),
    Ask("a field", on("VOLTS <", "⟦‸VOLTS⟧ <"), ["VOLTS", "BUS", "0883", "u16be", "12", "65,535", "3 agings"]),
    Ask("a field with a mask", on("field AMPS", "field ⟦AMPS‸⟧"), ["AMPS", "PWR", "i16le", "0xFFF", "4,095", "never stale"]),
    Ask("a rule", on("rule LOW", "rule ⟦L‸OW⟧"), ["LOW", "active", "sequence 7", "1001", "fails for", "passes for"]),
    Ask("a rule of a text that does not compile", on("rule LOW", "rule ⟦L‸OW⟧") + "packet", ["LOW", "sequence 7"]),
    Ask("a word of the language", on("stale", "⟦sta‸le⟧"), ["stale", "agings"]),
    Ask("a type", on("i16le", "⟦i‸16le⟧"), ["signed", "high byte first", "last"]),
    Ask("a comparison", on("< 2400", "⟦‸<⟧ 2400"), ["<="]),
    Ask("a number", on("2400", "24‸00"), []),
    Ask("a comment", f"# {WIDE} pack‸et BUS\n", []),
    Ask("an empty line", BUS + "\n‸\n", []),
    scenario("a packet in a scenario", "at 100 0\nBUS‸ VOLTS=1\n", ["BUS", "0883", "VOLTS"]),
    scenario("a rule in a scenario", "expect state LO‸W active\n", ["LOW", "sequence 7"]),
    scenario("a word of a scenario", "at 100 0\n⟦ti‸ck⟧\n", ["tick"]),
    scenario("an expectation", "⟦exp‸ect⟧ no sequence 7\n", ["expect"]),
    schedule("a word of a schedule", "⟦sl‸ots⟧ 2\n0 housekeeping\n", ["slots"]),
    scenario("what is no word of a scenario", "foo ‸1\n", []),
    scenario("a comment of a scenario", "tick # ti‸ck\n", []),
    scenario("a blank line of a scenario", "tick\n ‸ \ntick\n", []),
    schedule("a word that counts ages", "slots 2\n0 sample 0 175 ⟦a‸ge⟧\n", ["age"]),
]

# Words that may stand at a place, in this order, and behind `-` words that may not.
COMPLETIONS = [
    Ask("an empty text", "‸", "packet field rule - mid when"),
    Ask("the begin of a word", "pack‸", "packet field rule"),
    Ask("behind an item", BUS + "‸", "packet field rule - mid VOLTS"),
    Ask("the name of a new item", "packet ‸", "- packet field mid"),
    Ask("behind a new name", "packet P ‸", "= - mid"),
    Ask("the first clause of a packet", "packet P = ‸", "mid - length at"),
    Ask("the packet of a field", BUS + "field V = ‸", "BUS PWR - VOLTS LOW mid"),
    Ask("the type of a field", BUS + "field V = BUS ‸", f"{TYPES} - at"),
    Ask("behind a field's place", BUS + "field V = BUS u8 at 12 ‸", "mask stale - at when"),
    Ask("the state of a rule", BUS + "rule R ‸", "active passive disabled - off fails"),
    Ask("the type of an event", BUS + "rule R active fails 1 sequence 1 event ‸", "debug info error critical - active"),
    Ask("behind an event's text", BUS + HEAD + '"" ‸', "report when - and"),
    Ask("the field of a comparison", BUS + rule("‸"), "VOLTS AMPS not ( - BUS LOW and"),
    Ask("a field of which two letters are there", BUS + rule("VO‸"), "VOLTS"),
    Ask("behind a field", BUS + rule("VOLTS ‸"), "< <= != == >= > - and"),
    Ask("behind a comparison", BUS + rule("VOLTS < 1 ‸"), "and or xor - not VOLTS )"),
    Ask("in parentheses", BUS + rule("(VOLTS < 1 ‸"), "and or xor )"),
    Ask("a comment", BUS + "# pack‸", "- packet"),
    Ask("a comment behind an item", "packet P = mid 0x0883 length 16; # ‸", "- packet field"),
    Ask("behind a character of two units", BUS + rule("VO‸", WIDE), "VOLTS"),
    schedule("the begin of a schedule", "‸", "slots"),
    schedule("an entry of a slot", "slots 2\n0 ‸", "sample housekeeping"),
    schedule("the end of a sample", "slots 2\n0 sample 0 175 ‸", "age keep - sample"),
    scenario("the begin of a line", "at 100 0\n‸", "at after tick ramp repeat expect mode state BUS PWR - VOLTS"),
    scenario("a field of a packet", "at 100 0\nBUS ‸", "VOLTS= - AMPS= tick"),
    scenario("a field of a ramp", "ramp ‸", "VOLTS AMPS - BUS"),
    scenario("a mode", "mode ‸", "active passive disabled - off"),
    scenario("a rule", "state ‸", "all LOW HOT - BUS"),
    scenario("the state of a rule", "state LOW ‸", "active passive disabled off"),
    scenario("what is expected", "expect ‸", "no sequence event state result"),
    scenario("an application", "start ‸", "LC SCH COUNTER", rules=""),
    whole(Ask("the whole begin of an item", BUS + "pa‸", "packet field rule")),
    whole(Ask("a name whose underscore is written last", BUS + rule("V_‸"), "VOLTS AMPS not (")),
    whole(Ask("the number of `fails`", BUS + "rule R active fails ‸", "")),
    whole(Ask("behind the number of `fails`", BUS + "rule R active fails 1 ‸", "sequence")),
    whole(Ask("behind the number of `sequence`", BUS + "rule R active fails 1 sequence 1 ‸", "event")),
    whole(Ask("behind one limit", BUS + HEAD + '"" report 1 ‸', "")),
    whole(Ask("behind two limits", BUS + HEAD + '"" report 1 2 ‸', "")),
    whole(Ask("behind three limits", BUS + HEAD + '"" report 1 2 3 ‸', "when")),
    whole(Ask("behind four limits", BUS + HEAD + '"" report 1 2 3 4 ‸', "")),
    whole(Ask("a rule behind a packet without its end", "packet P = mid 0x0883 length 16 rule R ‸", "active passive disabled")),
    whole(Ask("a field behind a packet without its end", "packet P = mid 0x0883 length 16 field V = ‸", "P")),
    whole(Ask("a type before another item", "field V = P ‸ packet P = mid 0x0883 length 16;", TYPES)),
    whole(Ask("a name behind bad bytes", PACKET + "@ $ field V = ‸", "P")),
    whole(Ask("behind a comment that ends", BUS + "# pack\n‸", "packet field rule")),
    whole(Ask("a number that is being written", "packet P = mid 0x08‸", "")),
    whole(Ask("behind what ends an item", "packet P = mid 0x0883 length 16;‸", "packet field rule")),
    whole(Ask("the last parenthesis", BUS + rule("(not (VOLTS < 1)) ‸"), "and or xor ;")),
    whole(scenario("behind a moment", "at 100 0 ‸", "")),
    whole(scenario("behind a statement", "tick ‸", "")),
    whole(scenario("behind what is no statement", "foo 1 ‸", "")),
    whole(scenario("the second value of a packet", "BUS VOLTS=1 ‸", "VOLTS=")),
    whole(scenario("a value", "BUS VOLTS=‸", "")),
    whole(scenario("a value that is being written", "BUS VOLTS=27‸", "")),
    whole(scenario("a field that is being written", "PWR AM‸PS=3", "AMPS=")),
    whole(scenario("a state that is expected", "expect state LOW ‸", "active passive disabled off")),
    whole(scenario("a result that is expected", "expect result LOW ‸", "none pass fail stale error")),
    whole(scenario("a result behind a rule with a text's number", "expect result 0:LOW ‸", "none pass fail stale error")),
    whole(scenario("a rule behind a text's number", "expect result 0:L‸", "LOW HOT")),
    whole(scenario("behind a number that is none", "expect sequence x ‸", "from at by until")),
    whole(scenario("a table behind its application's point", "validate LC.L‸", "LC.LC_WDT LC.LC_ADT")),
    whole(scenario("behind what is expected", "expect sequence 7 ‸", "from at by until")),
    whole(scenario("a kind of records", "record 0 0 ‸", "packet tick file half")),
    whole(scenario("a type of a field", "fields 0883 0 16 u8 12 1 ‸", TYPES)),
    whole(scenario("a comment of a scenario", "tick # ‸", "")),
    whole(scenario("a line that is indented", "repeat 2 {\n  expect result HOT ‸\n}\n", "none pass fail stale error")),
    whole(scenario("a rule of a text that does not compile", "state ‸", "all", rules=BUS + "packet")),
    whole(schedule("a word that counts ages", "slots 2\n0 sample 0 175 k‸", "age keep")),
    whole(schedule("behind an entry", "slots 2\n0 housekeeping ‸", "")),
    whole(schedule("an indented entry", "slots 2\n\t 1 ‸", "sample housekeeping")),
]

# All symbols of a text, whose names are marked: the kind of each (packet 5, field 7, rule 12; a line of a script 14).
MARKED_BUS = BUS
for name in ("packet BUS", "packet PWR", "field VOLTS", "field AMPS", "rule LOW", "rule HOT"):
    MARKED_BUS = MARKED_BUS.replace(name, name.replace(" ", " ⟦") + "⟧")
SYMBOLS = [
    Ask("a rule text", MARKED_BUS, [5, 5, 7, 7, 12, 12]),
    Ask("a text with errors", "packet ⟦P⟧ = mid 1 length; @ field ⟦V⟧ = rule ⟦R⟧ active", [5, 7, 12]),
    Ask("behind a character of two units", "packet ⟦P⟧; " + rule("V < 1;", WIDE).replace("R", "⟦R⟧") + "field ⟦V⟧", [5, 12, 7]),
    Ask("a text without items", "# nothing\n", []),
    Ask("an empty text", "", []),
    scenario("moments", f"⟦at 100  0⟧ # {WIDE}\ntick\n  ⟦after 5⟧\nBUS VOLTS=1\nexpect sequence 7 at 5\n", [14, 14]),
    scenario("repetitions", "⟦repeat 2⟧ {\n⟦repeat 3⟧ {\ntick\n}\n⟦after 1⟧\n}\n⟦repeat 4⟧ {\n", [14, 14, 14, 14]),
    scenario("a scenario without moments", "# at 5\ntick\n", []),
    schedule("a schedule", f"# two {WIDE}\n⟦slots 2⟧\n⟦0 sample 0 175 age⟧\n\n  ⟦1\thousekeeping⟧", [14, 14, 14]),
    schedule("a schedule of comments", "# slots 2\n", []),
]

# The lines of each fold, from 0, and what it is.
FOLDS = [
    Ask("a rule of two lines", BUS, [(4, 5, "region")]),
    Ask("comments of several lines", "# a\n# b\n# c\npacket P = mid 0x0883 length 16; # d\n# e\n\n# f\n", [(0, 2, "comment")]),
    Ask("an item that is not closed", "rule R active\n  fails 1\n  sequence 2\n", [(0, 2, "region")]),
    Ask("comments behind blanks", "  # a\n\t# b\n#c\n\n  # d\npacket P = mid 0x0883 length 16;\n", [(0, 2, "comment")]),
    Ask("comments in an item", "rule R\n# a\n# b\nactive;\n# c", [(0, 3, "region"), (1, 2, "comment")]),
    Ask("an empty text", "", []),
    scenario("repetitions", "at 1 0\nrepeat 2 {\n tick\n repeat 3 {\n  tick\n }\n}\n", [(1, 6, "region"), (3, 5, "region")]),
    scenario("repetitions without an end", "repeat 2 {\nrepeat 3 {\ntick\n}\n", [(1, 3, "region")]),
    scenario("comments of a scenario", "# a\n# b\nat 100 0\n", [(0, 1, "comment")]),
    schedule("comments of a schedule", "slots 2\n# a\n  # b\n0 housekeeping\n", [(1, 2, "comment")]),
]

# The words of a text with their types; `*` stands behind that of a name that an item declares.
TOKENS = [
    Ask(
        "a packet",
        f"packet BUS = mid 0x0883 length 16; # low {WIDE} volts\n",
        f"keyword packet|class* BUS|operator =|keyword mid|number 0x0883|keyword length|number 16|comment # low {WIDE} volts",
    ),
    Ask(
        "a field",
        "field VOLTS = BUS u16be at 12 mask 0xFF stale 3;",
        "keyword field|property* VOLTS|operator =|class BUS|type u16be|keyword at|number 12|keyword mask|number 0xFF"
        "|keyword stale|number 3",
    ),
    Ask(
        "a rule",
        'rule LOW active fails 2 sequence 7 event error 1001 "low volts" report 1 2 3\n when not (V < -5 and W != 1);',
        "keyword rule|function* LOW|enumMember active|keyword fails|number 2|keyword sequence|number 7|keyword event|enumMember error"
        '|number 1001|string "low volts"|keyword report|number 1|number 2|number 3|keyword when|operator not|property V|operator <'
        "|number -5|operator and|property W|operator !=|number 1",
    ),
    Ask("comments", "# a \u00e9\n  # b \U0001f600\n#\n", "comment # a \u00e9|comment # b \U0001f600|comment #"),
    Ask("a text with errors", "packet P = mid\nfield", "keyword packet|class* P|operator =|keyword mid|keyword field"),
    Ask("an empty text", "", ""),
    schedule(
        "a schedule",
        "# two\nslots 2\n0 sample 0 175 age\n1 housekeeping\n",
        "comment # two|keyword slots|number 2|number 0|keyword sample|number 0|number 175|enumMember age|number 1|keyword housekeeping",
    ),
    scenario(
        "a scenario",
        f"at 100 0 # {WIDE} start\nstart LC\nBUS VOLTS=2750\ntick\n",
        f"keyword at|number 100|number 0|comment # {WIDE} start|keyword start|string LC|class BUS|property VOLTS|operator =|number 2750"
        "|keyword tick",
    ),
    scenario("what is no statement", "foo 1\nexpect foo\nstate NONE active\n", "keyword expect|keyword state|enumMember active"),
    scenario(
        "a rule with a text's number",
        "state 0:LOW active\nexpect result 12:HOT fail\n",
        "keyword state|number 0|operator :|function LOW|enumMember active"
        "|keyword expect|keyword result|number 12|operator :|function HOT|enumMember fail",
    ),
    scenario(
        "values",
        "BUS VOLTS=0x0fA VOLT=1 AMPS= VOLTS=x =2\n",
        "class BUS|property VOLTS|operator =|number 0x0fA|operator =|number 1|property AMPS|operator =|property VOLTS|operator ="
        "|operator =|number 2",
    ),
    scenario("bytes", "telemetry 0883 0 -\npacket 18aF\n", "keyword telemetry|number 0883|number 0|number -|keyword packet|number 18aF"),
    scenario("a carriage return in a comment", "tick # a\rbc\ntick\n", "keyword tick|comment # a|comment bc|keyword tick"),
    schedule("carriage returns in a comment", "# a\r\rb \r\nslots 2\n", "comment # a|comment b |keyword slots|number 2"),
]

# Texts that formatting changes, and such that it can't or need not; or why it is refused.
NOT_WHOLE = "the text has an error, so it is not formatted"
TOO_LARGE = "the text would have over 65,536 bytes, so it is not formatted"
FORMATS = [
    Ask("loose lines", "packet BUS=mid 0x0883 length 16;\nfield V=BUS u8 at 12;field HEATER = BUS u8\n at 13;\n"),
    Ask("a text in its layout", BUS),
    Ask("a text on one line", BUS.replace("\n", " ")),
    Ask("comments with signs", f"   # {WIDE}\n\n\n\n  packet   P = mid 0x0883   length 16;# {WIDE}\n#b\n"),
    Ask("blanks at the ends", "\n\n \t packet P = mid 0x0883 length 16;  \t\n\n\n"),
    Ask("a long condition", BUS + rule(" or ".join(f"(VOLTS == {n} and AMPS > {n})" for n in range(5)) + ";")),
    Ask("no line end", PACKET.strip()),
    Ask("carriage returns in comments", "# a\r# b\r\npacket P = mid 0x0883 length 16;\r"),
    Ask("a text with an error", "packet P = mid", NOT_WHOLE),
    Ask("a text with a bad word", 'packet P = mid 1 length 1; "', NOT_WHOLE),
    Ask("a text of which none of the items is right", "packet P = mid 1 length 1; field V = W u8 at 1 mask 0;\n"),
    Ask("a text that gets too long", "field A=P u8 at 1;" * 3_600, TOO_LARGE),
    Ask("a text without items", "# nothing\n"),
    Ask("an empty text", ""),
    schedule("a schedule", "slots   1\n"),
    scenario("a scenario", "at   100 0\n"),
]
