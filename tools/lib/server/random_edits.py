"""Edits of rule texts by chance, from a seed: a server's text has to stay that of the editor, and its errors those of `check`."""

import random

from diagnostics import check, errors_of, of_check, of_server
from examples import example_texts
from mistakes import TYPES, WORDS, Mistakes
from places import changed, place_of, units
from questions import faults_of_question

URI = "file:///edits.rules"
# So many changes have one text, so many of them at most stand in one message, and so many states are checked in one call.
CHANGES_OF_TEXT = 25
MOST_AT_ONCE = 4
STATES = 500
SAVED = 50
ASKED = 4
LARGE = 400
# The greatest number of a place (LSP 3.17, "uinteger"), and greater ones, which clients write for "up to the end".
BEYOND = (2**31 - 1, 2**32 - 1, 2**32, 2**53, 2**63)
# Megabytes that the server may have in memory.
MOST_MEMORY = 64
PARTS = [f" {word} " for word in WORDS + TYPES] + [
    *(" P ", "VOLTS", "BUS", " V9_", "12", "0x", " 0x883 ", "-", "99999999999", "2400", " 1", ";", ";", "=", " == ", "<", "(", ")"),
    *('"', '"', '"ok"', "#", "# a", "\n", "\n", "\r\n", "\r", "\r\r\n", "\n\n", " ", "\t", "", "@", "$", ",", "\\", "\x00", "\x1b", "\x7f"),
    *("\u00e9", "\u20ac", "\u0301", "\u2028", "\ufeff", "\ufffd", "\U0001f600", "\U00010000\U0010ffff", '"\u00b1"', "# \U0001f600\n"),
    *("\U0001f600\r", "rule R active", "packet P = mid 0x0883 length 16;\n", "field V = P u8 at 12;\n", 'event info 1001 "" when V < 1;\n'),
]


class Editor:
    """Someone who edits a text without a plan."""

    def __init__(self, seed):
        self.random = random.Random(seed)
        self.mistakes = Mistakes(seed)
        self.texts = example_texts()
        self.large = "".join(it.replace("packet ", "packet L_").replace("rule ", "rule L_") for it in self.texts)

    def new_text(self, number):
        """A text that compiles, one with a mistake, or, seldom, a large or an empty one."""
        if number % LARGE == LARGE - 1:
            return self.large
        kind = self.random.random()
        return "" if kind < 0.04 else self.mistakes.one()[1] if kind < 0.4 else self.random.choice(self.texts)

    def index(self, text):
        return self.random.randrange(len(text) + 1)

    def size(self, text):
        """How many characters an edit takes away: mostly none or few."""
        kind = self.random.random()
        few, many = self.random.randrange(1, 6), self.random.randrange(1, 80)
        return 0 if kind < 0.4 else few if kind < 0.85 else many if kind < 0.99 else len(text)

    def part(self, text):
        """What an edit puts in: nothing, a part of the language, bytes that are none, or a part of the text."""
        kind = self.random.random()
        if kind < 0.3:
            return ""
        if kind < 0.85:
            return "".join(self.random.choice(PARTS) for _ in range(self.random.choice((1, 1, 1, 2, 3))))
        at = self.index(text)
        return text[at : at + self.random.randrange(1, 120)]

    def moved(self, text, at):
        """The place of a character, or one that means the same: beyond its line's end or the text's end, or inside a pair of units."""
        place, kind = place_of(text, at), self.random.random()
        if at == len(text) and kind < 0.05:
            return {"line": self.random.choice((place["line"] + 1, place["line"] + 9, *BEYOND)), "character": self.random.randrange(9)}
        if (at == len(text) or text[at] in "\r\n") and kind < 0.1 and text[at - 1 : at + 1] != "\r\n":
            return {**place, "character": self.random.choice((place["character"] + 1, place["character"] + 7, *BEYOND))}
        if at < len(text) and units(text[at]) == 2 and kind < 0.5:
            return {**place, "character": place["character"] + 1}
        return place

    def change(self, text):
        kind = self.random.random()
        if kind < 0.015:
            return {"text": self.part(text) + text, **({"range": None} if kind < 0.005 else {})}
        begin = self.index(text)
        end = min(len(text), begin + self.size(text))
        start, stop = self.moved(text, begin), self.moved(text, end)
        if (stop["line"], stop["character"]) < (start["line"], start["character"]):
            stop = start
        length = {"rangeLength": units(text[begin:end])} if self.random.random() < 0.2 else {}
        return {"range": {"start": start, "end": stop}, **length, "text": self.part(text)}

    def changes(self, text):
        """The changes of one message, and the text after them."""
        made = []
        for _ in range(self.random.randrange(2, MOST_AT_ONCE + 1) if self.random.random() < 0.12 else 1):
            made.append(self.change(text))
            text = changed(text, made[-1])
        return made, text


class Record:
    """The states of a text, with what was published of each."""

    def __init__(self, program, folder):
        self.program, self.folder, self.states, self.errors = program, folder, [], 0

    def add(self, number, text, published, is_whole):
        self.states.append((number, text, of_server(published, URI), is_whole))

    def faults(self):
        """Where what was published is not what `check` says of the same text; the states are forgotten then."""
        said = check(self.program, self.folder, {f"state-{number}": text for number, (_, text, _, _) in enumerate(self.states)})
        for (number, text, published, is_whole), messages in zip(self.states, said.values()):
            wanted = of_check(text, messages)
            if not is_whole:
                wanted = errors_of(wanted)
            self.errors += len(errors_of(wanted))
            if published != wanted:
                yield f"edit {number}: {published}, not {wanted}, of {text!r}"
        self.states = []


def faults_of_edits(client, folder, count, seed):
    editor, record, text, parts = Editor(seed), Record(client.tools, folder), "", 0
    for number in range(count):
        if number % CHANGES_OF_TEXT == 0:
            if number:
                client.close(URI)
            text = editor.new_text(number // CHANGES_OF_TEXT)
            record.add(number, text, client.open(URI, "lcrules", text), True)
        changes, text = editor.changes(text)
        parts += len(changes)
        record.add(number, text, client.change(URI, changes), False)
        if number % ASKED == 0:
            yield from faults_of_question(client, editor.random, URI, text)
        if number % SAVED == SAVED - 1:
            record.add(number, text, client.save(URI), True)
        if len(record.states) >= STATES:
            yield from record.faults()
    yield from record.faults()
    client.close(URI)
    questions = (count + ASKED - 1) // ASKED
    memory = client.most_memory()
    if memory > MOST_MEMORY:
        yield f"{memory:.0f} MB in memory"
    seen = f"{count} messages with {parts} changes and {questions} questions (seed {seed})"
    print(f"{seen}: {record.errors} errors published, {memory:.0f} MB in memory")
