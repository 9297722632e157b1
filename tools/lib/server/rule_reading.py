"""Reads a rule text without bad words as docs/RULES.md has it, in a few lines: its items, and what an editor should get of them."""

import functools
import os
import re

from documents.keywords import rows_of
from grammar import KIND, WORD, Grammar
from mistakes import TOKEN, TYPES, WORDS
from places import lines_of, place_of, range_of

TOP = os.path.dirname(os.path.dirname(os.path.dirname(os.path.dirname(os.path.abspath(__file__)))))
NAME = re.compile(r"[A-Za-z_]\w*")
KINDS = {
    "TYPE": TYPES,
    "STATE": "active passive disabled".split(),
    "LEVEL": "debug info error critical".split(),
    "OP": "< <= != == >= >".split(),
}
SETS = (
    (KINDS["STATE"] + KINDS["LEVEL"], "enumMember"),
    ("or xor and not = ( ) ;".split() + KINDS["OP"], "operator"),
    (TYPES, "type"),
    (WORDS, "keyword"),
)
SIGNS = ("(", ")", ";")
ITEMS = {"packet": "class", "field": "property", "rule": "function"}
NAMES = tuple(ITEMS.values())
# The protocol's numbers for what semantic tokens are called so: as kinds of symbols, and of choices.
SYMBOL_KINDS = {"class": 5, "property": 7, "function": 12, "keyword": 14}
CHOICE_KINDS = {"class": 7, "property": 10, "function": 3, "enumMember": 20, "operator": 24, "type": 25, "keyword": 14, "string": 12}
# How many fields of a packet are named.
MOST_FIELDS = 20


@functools.cache
def language():
    """The grammar of rule texts, and of each word its first sentence and all sentences."""
    with open(f"{TOP}/docs/RULES.md", encoding="utf-8") as file:
        text = file.read()
    explained = {word: (first, whole) for words, first, whole in rows_of(text) for word in words}
    return Grammar(re.search(r"^(file := .*?)^```", text, re.M | re.S)[1]), explained


def is_name(word):
    return NAME.fullmatch(word) is not None and word not in WORDS + TYPES


def fits(kind, word):
    """Whether a word is of a kind of the grammar."""
    if kind in KINDS:
        return word in KINDS[kind]
    return is_name(word) if kind == "NAME" else word[0] == '"' if kind == "STRING" else word[0] in "-0123456789"


def class_of(word):
    """The type of a word that is no name."""
    for words, name in SETS:
        if word in words:
            return name
    return "comment" if word[0] == "#" else "string" if word[0] == '"' else "number"


def explanation_of(word):
    """The first sentence and all sentences about a word of the language."""
    return language()[1].get(word, ("", None))


def choice(kind, label, detail):
    return CHOICE_KINDS[kind], label, detail


def runs(lines):
    """The first and last of two or more numbers that follow one another."""
    first = [it for it in lines if it - 1 not in lines and it + 1 in lines]
    last = [it for it in lines if it + 1 not in lines and it - 1 in lines]
    return list(zip(first, last))


class Item:
    """An item of a rule text: its words with their places, and the name that it declares."""

    def __init__(self, words):
        self.words = words
        self.texts = [word for _, word in words]
        self.is_declaration = self.texts[0] in ITEMS and len(words) > 1 and is_name(self.texts[1])
        self.kind, (self.at, self.name) = ITEMS.get(self.texts[0]), words[1] if self.is_declaration else (0, "")

    def after(self, word):
        """What stands after a word; nothing if that is not there."""
        return self.texts[self.texts.index(word) + 1] if word in self.texts[:-1] else None

    def span(self, *ends):
        """Its words from the third to the first of these, without signs."""
        found = self.texts[2:]
        for end in ends:
            found = found[: found.index(end)] if end in found else found
        return " ".join(it for it in found if it not in ("=", ";"))

    def detail(self):
        """What lists show beside its name: of a rule its sequence, of a field its packet, type and place, of a packet all."""
        if self.kind == "function":
            begin = self.texts.index("sequence") if "sequence" in self.texts else len(self.texts)
            return " ".join(self.texts[begin : begin + 2])
        return self.span("mask", "stale")


class RuleReading:
    """A rule text, its words with their places, its items, and where its names are declared."""

    def __init__(self, text, outcomes=None):
        """`outcomes` has what `check --all` says of rules, by their names."""
        self.text, self.outcomes = text, outcomes or {}
        self.words = [(it.start(), it.group()) for it in TOKEN.finditer(text)]
        self.code = [it for it in self.words if not it[1].startswith("#")]
        self.items = [Item(it) for it in self.split()]
        self.declared = {}
        for it in self.items:
            if it.is_declaration:
                self.declared.setdefault(it.name, it)
        self.names = [it for it in self.code if is_name(it[1])]

    def split(self):
        """The words of each item: up to its `;`, or to the next one's first word."""
        words = []
        for it in self.code:
            if it[1] in ITEMS and words:
                yield words
                words = []
            words.append(it)
            if it[1] == ";":
                yield words
                words = []
        if words:
            yield words

    def range_at(self, at, word):
        return range_of(self.text, at, at + len(word))

    # Symbols, folds and semantic tokens.

    def symbols(self):
        return [
            {
                "name": it.name,
                "kind": SYMBOL_KINDS[it.kind],
                "detail": it.detail(),
                "range": range_of(self.text, it.words[0][0], it.words[-1][0] + len(it.words[-1][1])),
                "selectionRange": self.range_at(it.at, it.name),
            }
            for it in self.items
            if it.is_declaration
        ]

    def folds(self):
        """Items of several lines, and lines of comments alone."""
        ends = [[place_of(self.text, at)["line"] for at, _ in (it.words[0], it.words[-1])] for it in self.items]
        lines = [number for number, (begin, end) in enumerate(lines_of(self.text)) if self.text[begin:end].lstrip()[:1] == "#"]
        found = [(first, last, "region") for first, last in ends if first < last]
        return sorted(found + [(first, last, "comment") for first, last in runs(lines)])

    def class_at(self, at, word):
        """The type of a word, with `*` behind it at a declaration; `None` for signs that have none."""
        if word in self.declared:
            return self.declared[word].kind + "*" * any(it.is_declaration and it.at == at for it in self.items)
        return None if word in SIGNS else class_of(word)

    def tokens(self):
        """The words in the form of the rows."""
        found = ((self.class_at(at, word), word) for at, word in self.words)
        return "|".join(f"{kind} {word.rstrip()}" for kind, word in found if kind)

    # Names and hovers.

    def definition(self, at, uri):
        """Where the name is declared that has a byte, or its end, at a place."""
        found = [word for begin, word in self.names if begin <= at <= begin + len(word) and word in self.declared]
        return [(uri, self.range_at(self.declared[word].at, word)) for word in found[:1]]

    def said_of_packet(self, item):
        fields = [it.name for it in self.items if it.kind == "property" and it.after("=") == item.name]
        said = f"`{item.name}`: packet\n\n```lcrules\n{item.span()}\n```"
        said += "\n\nfields " + ", ".join(f"`{it}`" for it in fields[:MOST_FIELDS]) if fields else ""
        return said + f" and {len(fields) - MOST_FIELDS} more" * (len(fields) > MOST_FIELDS)

    def said_of_field(self, item):
        """The bits under the mask count; the type's first bit is a sign's, if it is signed."""
        packet, kind, stale = item.after("="), item.texts[4], int(item.after("stale") or "0", 0)
        said = f"`{item.name}`: field of packet `{packet}` ({self.declared[packet].after('mid')})\n\n`{kind}` at {item.after('at')}"
        bits = int(re.search(r"\d+", kind)[0])
        mask = int(item.after("mask") or hex(2**bits - 1), 0)
        numbers = [-(mask >> bits - 1 << bits - 1), mask & 2 ** (bits - 1) - 1] if kind[0] == "i" else [0, mask]
        if 0 < mask < 2**bits:
            said += f", mask 0x{mask:X}, {numbers[0]:,} to {numbers[1]:,}"
        return said + (f", stale after {stale:,} aging{'s' * (stale != 1)}" if stale else ", never stale")

    def said_of_rule(self, item):
        said = f"`{item.name}`: rule that requests command sequence {item.after('sequence')}\n\n```lcrules\n{item.span('when')}\n```"
        return said + (f"\n\n`{self.outcomes[item.name]}`" if item.name in self.outcomes else "")

    def said_of_item(self, item):
        say = {"class": self.said_of_packet, "property": self.said_of_field, "function": self.said_of_rule}[item.kind]
        return say(item)

    def hover(self, at):
        """What is said of the word at a place, or else of that which ends there, with its range."""
        for place in (at, at - 1):
            for begin, word in self.code:
                if begin <= place < begin + len(word):
                    said = self.said_of_item(self.declared[word]) if word in self.declared else explanation_of(word)[1]
                    if said is not None:
                        return {"contents": {"kind": "markdown", "value": said}, "range": self.range_at(begin, word)}
        return None

    # Choices.

    def named(self, kind):
        """The choices of all names of a kind."""
        return [choice(kind, it.name, it.detail()) for it in self.items if it.kind == kind]

    def choices_after(self, states, before):
        """What the grammar allows after these words of the text: names in the order of the text, then words."""
        names, words = [], []
        for sort, body in {it[0] for it in states if it}:
            if sort == WORD:
                words.append(body)
            elif sort == KIND and body == "NAME":
                names = self.named("class") if before[-1] == "=" else self.named("property") if before[-1] not in ITEMS else []
            else:
                words += KINDS.get(body, [])
        return names, sorted(choice(class_of(it), it, explanation_of(it)[0]) for it in words)

    def choice_places(self):
        """The begin of each word, and what may stand there: after the words before it, but for one that goes on up to that place."""
        states, before = language()[0].start("file"), []
        offered = self.choices_after(states, before)
        for at, word in self.code:
            is_open = before and self.text[at - 1] == before[-1][-1] and re.match(r"\w", before[-1][-1])
            if not is_open:
                offered = self.choices_after(states, before)
            yield at, offered
            states, before = language()[0].after(states, word, fits), [*before, word]


