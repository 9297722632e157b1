"""Reads schedules and scenarios as docs/TOOLS.md and docs/FORMATS.md have them, in a few lines, and what an editor should get of them."""

import functools
import itertools
import re

from grammar import WORD, Grammar
from mistakes import TYPES
from places import place_of, range_of
from rule_reading import NAMES, SYMBOL_KINDS, TOP, choice, runs

# The lines of both, in the notation of docs/RULES.md. VALUE is `FIELD=VALUE`, HEX a message id or bytes.
LINES = """
schedule := "slots" NUM | NUM entry
entry := "sample" NUM NUM ages | "housekeeping"
scenario := "at" NUM NUM | "after" NUM | "fields" HEX NUM NUM { TYPE NUM NUM } | "telemetry" HEX NUM HEX | "command" HEX NUM HEX
  | "tick" | "sample" NUM NUM ages | "housekeeping" | order APPLICATION | "load" NAME | upload TABLE | half NUM NAME | "file" NAME HEX
  | "packet" HEX | "record" NUM NUM kind HEX | "ramp" FIELD NUM NUM "by" NUM "each" NUM [ "tick" ] | "repeat" NUM "{" | "}"
  | "mode" mode | "state" "all" mode | "state" subject state | "filter" APPLICATION NUM NUM | "expect" expected | PACKET { VALUE }
ages := "age" | "keep"
order := "start" | "stop" | "restart" | "reload"
upload := "validate" | "activate" | "abort"
half := "wdt" | "adt"
kind := "packet" | "tick" | "file" | "half"
mode := "active" | "passive" | "disabled"
subject := NUM | RULE
state := mode | "off"
expected := coming | "no" coming | "state" RULE state | "result" RULE result
coming := "sequence" [ NUM ] [ span ] | "event" [ "HOST" ] [ NUM ] [ span ]
span := "from" NUM [ end NUM ] | "at" NUM | end NUM [ "from" NUM ]
end := "by" | "until"
result := "none" | "pass" | "fail" | "stale" | "error"
"""
CONSTANTS = "age keep active passive disabled off all HOST none pass fail stale error".split()
NUMBER, BYTES, WORDS = re.compile(r"-?(0x[0-9A-Fa-f]+|\d+)"), re.compile(r"-|[0-9A-Fa-f]+"), re.compile(r"[^ \t\r]+")
RULE_NAME = re.compile(r"(?:(\d+):)?(\w+)")
# The types of words that are of these kinds, and the words of a kind that the host has.
CLASSES = {"NUM": "number", "HEX": "number", "NAME": "string", "APPLICATION": "string", "TABLE": "string", "TYPE": "type"}
CLASSES |= {"PACKET": "class", "FIELD": "property", "RULE": "function"}
KNOWN = {"APPLICATION": ["LC", "SCH", "COUNTER"], "TABLE": ["LC.LC_WDT", "LC.LC_ADT"], "TYPE": TYPES}
# The statements: the words that begin one, its form, and what is said of it; nothing where that is what the document says of the form.
SCHEDULE = [
    ("slots", "slots N", "A schedule of N slots, 1 to 64."),
    (r"\d+ sample", "S sample START END age|keep", "Slot S samples rules START to END, and the watchpoints age afterwards, or not."),
    (r"\d+ housekeeping", "S housekeeping", "Slot S asks for the Limit Checker's housekeeping."),
]
SCENARIO = [
    ("at", "at S F", ""),
    ("after", "after S", ""),
    (
        "fields",
        "fields MID COUNT LENGTH {TYPE OFFSET VALUE}",
        "A telemetry packet: each field has a type of the rule language, its first byte and a decimal value; all else is 0.",
    ),
    (
        "telemetry",
        "telemetry MID COUNT BYTES",
        "A telemetry packet with this message id and sequence count, and these bytes after the header.",
    ),
    ("command", "command MID CODE BYTES", ""),
    ("tick", "tick", ""),
    ("sample", "sample FIRST LAST age|keep", ""),
    ("housekeeping", "housekeeping", ""),
    ("start|stop|restart|reload", "start|stop|restart|reload NAME", "An order to `LC`, `SCH` or `COUNTER`."),
    ("load", "load FILE", "A command to the table services: it loads a table file."),
    (
        "validate|activate|abort",
        "validate|activate|abort TABLE",
        "A command to the table services; the tables are `LC.LC_WDT` and `LC.LC_ADT`.",
    ),
    ("wdt|adt", "wdt|adt TEXT NAME", ""),
    ("file", "file NAME BYTES", ""),
    ("packet", "packet BYTES", ""),
    (
        "record",
        "record S F KIND BYTES",
        "A record of kind `packet`, `tick`, `file` or `half` at second S and F / 65,536; so are the lines that follow.",
    ),
    ("ramp", "ramp FIELD FROM TO by STEP each SECONDS [tick]", ""),
    ("repeat", "repeat NUMBER {", "The lines up to `}`, NUMBER times; may be nested."),
    ("mode", "mode active|passive|disabled", ""),
    (
        "state",
        "state RULE active|passive|disabled|off",
        "The command that sets the state of a rule, or of `all` (which cannot be off); a number is the rule's own.",
    ),
    ("filter", "filter APPLICATION EVENT MASK", ""),
    ("expect", "expect ..", "An expectation; it adds nothing to the stream."),
]
EXPECTED = [
    ("expect no", "expect no sequence|event [NUMBER] ..", "No such request or event comes."),
    ("expect sequence", "expect sequence [NUMBER] ..", "A request for this command sequence comes; without a number, any."),
    (
        "expect event",
        "expect event [HOST] [NUMBER] ..",
        "An event of LC with this number comes, or after `HOST` one of the host's own; without a number, any.",
    ),
    (
        "expect (no )?(sequence|event)( .*)? (from|at|by|until)",
        ".. from S, .. at S, .. by S, .. until S",
        "From second S on; in S; up to S; before S; else in the whole run. `from` goes with one of the last two.",
    ),
    (
        "expect state",
        "expect state RULE active|passive|disabled|off",
        "The rule is in this state after the lines before this one.",
    ),
    (
        "expect result",
        "expect result RULE none|pass|fail|stale|error",
        "The rule's last result is this one after the lines before this one.",
    ),
]


@functools.cache
def lines():
    return Grammar(LINES)


@functools.cache
def document_forms():
    """The forms of lines in the tables of the documents, with what they say of each."""
    found = {}
    for name, begin, end in (("TOOLS", "### Lines of scripts", "\n### "), ("FORMATS", "## Schedules", "\n## ")):
        with open(f"{TOP}/docs/{name}.md", encoding="utf-8") as file:
            text = file.read().partition(f"\n{begin}")[2].partition(end)[0]
        for forms, says in re.findall(r"^\| (`.*?) \| (.*) \|$", text, re.M):
            last = ""
            for form in re.findall(r"`([^`]+)`", forms):
                last = re.sub(r"\S+$", form[3:], last) if form.startswith(".. ") else form
                found[last] = says[0].upper() + says[1:] + "."
    return found


def alternatives(form):
    """The forms that one with `|` stands for."""
    return [" ".join(it) for it in itertools.product(*(word.split("|") for word in form.split()))]


def sentence_of(form, says):
    return says or document_forms().get(alternatives(form)[0], "what no document says")


def faults_of_forms():
    """The statements have the forms that the documents have."""
    forms = {it for _, form, _ in SCHEDULE + SCENARIO for it in alternatives(form)}
    others = {"PACKET FIELD=VALUE ..", "}"}
    if forms != set(document_forms()) - others:
        yield f"forms of lines: {sorted(forms ^ (set(document_forms()) - others))}"


def class_of(word):
    """The type of a word of the language."""
    return "enumMember" if word in CONSTANTS else "operator" if word in ("{", "}") else "keyword"


class ScriptReading:
    """A schedule or a scenario, with its lines' words and their places, and the rule texts whose names it uses."""

    def __init__(self, kind, text, rules=()):
        """`rules` has the readings of the rule texts by their URIs, in the order of their opening."""
        self.kind, self.text, self.rules = kind, text, dict(rules)
        self.statements = SCHEDULE if kind == "schedule" else SCENARIO + EXPECTED
        self.items = [it for rules in self.rules.values() for it in rules.items if it.is_declaration]
        self.lines, at = [], 0
        for line in text.split("\n"):
            words = [(at + it.start(), it.group()) for it in WORDS.finditer(line)]
            count = next((number for number, it in enumerate(words) if it[1][0] == "#"), len(words))
            comment = (words[count][0], line[words[count][0] - at :]) if count < len(words) else None
            self.lines.append((words[:count], comment))
            at += len(line) + 1
        self.words = list(self.read())

    def declared(self, kind):
        return [it.name for it in self.items if it.kind == kind]

    def fits(self, kind, word):
        """Whether a word can be of a kind."""
        if kind in ("NUM", "HEX"):
            return (NUMBER if kind == "NUM" else BYTES).fullmatch(word) is not None
        if kind == "RULE":
            return (named := RULE_NAME.fullmatch(word)) is not None and named[2] in self.declared("function")
        names = {"TYPE": TYPES, "PACKET": self.declared("class"), "FIELD": self.declared("property")}
        return word in names[kind] if kind in names else kind != "VALUE" or "=" in word

    def read(self):
        """For each word its place, itself, the words before it on its line, the states before it, and its kind, if it may stand there."""
        for words, _ in self.lines:
            states, before = lines().start(self.kind), []
            for at, word in words:
                parts = {it[0] for it in states if it}
                kinds = [body for sort, body in sorted(parts) if sort != WORD and self.fits(body, word)]
                yield at, word, before, states, WORD if (WORD, word) in parts else kinds[0] if kinds else None
                states, before = lines().after(states, word, self.fits), [*before, word]

    # Semantic tokens, symbols and folds.

    def parts_of(self, at, word, kind):
        """The parts of a word, each with its place and type."""
        if kind == WORD:
            return [(at, class_of(word), word)]
        if kind == "RULE":
            number, name = RULE_NAME.fullmatch(word).groups()
            front = [(at, "number", number), (at + len(number), "operator", ":")] if number else []
            return [*front, (at + len(word) - len(name), "function", name)]
        if kind == "VALUE":
            name, _, value = word.partition("=")
            front = [(at, "property", name)] if name in self.declared("property") else []
            behind = [(at + len(name) + 1, "number", value)] if NUMBER.fullmatch(value) else []
            return [*front, (at + len(name), "operator", "="), *behind]
        return [(at, CLASSES[kind], word)] if kind else []

    def tokens(self):
        """The words in the form of the rows."""
        found = [part for at, word, _, _, kind in self.words for part in self.parts_of(at, word, kind)]
        for at, comment in (it for _, it in self.lines if it):
            found += [(at + it.start(), "comment", it.group()) for it in re.finditer(r"[^\r]+", comment)]
        return "|".join(f"{kind} {word}" for _, kind, word in sorted(found))

    def blocks(self):
        """The number of each line that begins a repetition, and of the line that ends it; the same twice where none does."""
        found, opened = {}, []
        for number, (words, _) in enumerate(self.lines):
            if words and words[0][1] == "repeat" and self.kind == "scenario":
                opened.append(number)
                found[number] = number
            elif words and words[0][1] == "}" and opened:
                found[opened.pop()] = number
        return found

    def symbols(self):
        """The slots of a schedule; the moments and repetitions of a scenario, these up to their ends."""
        blocks, found = self.blocks(), []
        for number, (words, _) in enumerate(self.lines):
            if words and (self.kind == "schedule" or words[0][1] in ("at", "after", "repeat")):
                named = words[:2] if number in blocks else words
                begin, end = words[0][0], named[-1][0] + len(named[-1][1])
                last = self.lines[blocks[number]][0][0][0] + 1 if blocks.get(number, number) > number else end
                found.append(
                    {
                        "name": " ".join(word for _, word in named),
                        "kind": SYMBOL_KINDS["keyword"],
                        "detail": "",
                        "range": range_of(self.text, begin, last),
                        "selectionRange": range_of(self.text, begin, end),
                    }
                )
        return found

    def folds(self):
        """Repetitions, and lines of comments alone, by the editor's lines."""
        begins = [0, *(it.end() for it in re.finditer("\n", self.text))]
        comments = [number for number, (words, comment) in enumerate(self.lines) if comment and not words]
        found = [[(self.lines[it][0][0][0], "region") for it in block] for block in self.blocks().items() if block[0] < block[1]]
        found += [[(begins[it], "comment") for it in run] for run in runs(comments)]
        return [(*(place_of(self.text, at)["line"] for at, _ in ends), ends[0][1]) for ends in sorted(found)]

    # Names, hovers and choices.

    def word_at(self, at):
        """The word that has a byte, or its end, at a place."""
        return next(it for it in self.words if it[0] <= at <= it[0] + len(it[1]))

    def name_at(self, at):
        """The name of a rule text that has a byte, or its end, at a place, and its type."""
        begin, word, _, _, kind = self.word_at(at)
        parts = self.parts_of(begin, word, kind)
        return next(((name, kind) for start, kind, name in parts if kind in NAMES and start <= at <= start + len(name)), None)

    def declaration(self, name, kind):
        """The URI and the reading of the first rule text that declares a name, and its item."""
        return next((uri, rules, it) for uri, rules in self.rules.items() for it in rules.items if (it.name, it.kind) == (name, kind))

    def definition(self, at, _):
        """Where the name at a place is declared."""
        if not self.name_at(at):
            return []
        uri, rules, item = self.declaration(*self.name_at(at))
        return [(uri, rules.range_at(item.at, item.name))]

    def statement(self, words):
        """What is said of the statement that the last of these words belongs to."""
        for count in range(len(words), 0, -1):
            for begin, form, says in self.statements:
                if re.fullmatch(begin, " ".join(words[:count])):
                    return f"`{form}`\n\n{sentence_of(form, says)}"
        return None

    def hover(self, at):
        """What is said of the name or the word of the language at a place; of a word with its range."""
        if self.name_at(at):
            _, rules, item = self.declaration(*self.name_at(at))
            return {"contents": {"kind": "markdown", "value": rules.said_of_item(item)}}
        begin, word, before, _, kind = self.word_at(at)
        if kind != WORD or class_of(word) == "operator":
            return None
        value = self.statement([*before, word])
        return {"contents": {"kind": "markdown", "value": value}, "range": range_of(self.text, begin, begin + len(word))}

    def form(self, words):
        """The form of the statement that the last of these words begins."""
        return next((form for begin, form, _ in self.statements if re.fullmatch(begin, " ".join(words))), "")

    def choices_after(self, states, before):
        """What may stand after these words of a line: names in the order of the rule texts, then words."""
        names, words = [], []
        for sort, body in {it[0] for it in states if it}:
            if sort == WORD:
                words.append(choice(class_of(body), body, self.form([*before, body]) if class_of(body) == "keyword" else ""))
            elif body in KNOWN:
                words += [choice(CLASSES[body], it, "") for it in KNOWN[body]]
            elif body == "VALUE":
                fields = [it.name for it in self.items if it.kind == "property" and it.after("=") == before[0]]
                names += [choice("property", f"{it}=", "") for it in fields]
            elif body in ("PACKET", "FIELD", "RULE"):
                names += [choice(CLASSES[body], it, "") for it in self.declared(CLASSES[body])]
        return names, sorted(words)

    def choice_places(self):
        """The begin of each word, and what may stand there."""
        for at, _, before, states, _ in self.words:
            yield at, self.choices_after(states, before)
