"""Texts as an editor counts them: lines that end with a line feed, a carriage return or both, and UTF-16 units (LSP 3.17, "Position")."""

import bisect
import functools
import re

LINE_END = re.compile(r"\r\n|\r|\n")


def units(text):
    """How many UTF-16 units a text has."""
    return len(text) if text.isascii() else len(text) + sum(char > "\uffff" for char in text)


@functools.lru_cache(4)
def lines_of(text):
    """Where each line begins and ends, its line end left out."""
    found, begin = [], 0
    for end in LINE_END.finditer(text):
        found.append((begin, end.start()))
        begin = end.end()
    return [*found, (begin, len(text))]


def place_of(text, at):
    """The place of the character that has `at` characters before it."""
    line = bisect.bisect_right(lines_of(text), at, key=lambda it: it[0]) - 1
    return {"line": line, "character": units(text[lines_of(text)[line][0] : at])}


def index_of(text, place):
    """How many characters stand before a place: beyond a line's end those up to its end, inside a pair of units those before it."""
    lines = lines_of(text)
    if place["line"] >= len(lines):
        return len(text)
    begin, end = lines[place["line"]]
    left = place["character"]
    if text[begin:end].isascii():
        return min(begin + left, end)
    for at in range(begin, end):
        left -= units(text[at])
        if left < 0:
            return at
    return end


def range_of(text, begin, end):
    return {"start": place_of(text, begin), "end": place_of(text, end)}


def word_of(text, where):
    """What stands in a range."""
    return text[index_of(text, where["start"]) : index_of(text, where["end"])]


def is_inside(text, where):
    """Whether a range begins and ends at characters of the text, and does not end before it begins."""
    ends = [(index_of(text, place), place) for place in (where["start"], where["end"])]
    return ends[0][0] <= ends[1][0] and all(place_of(text, at) == place for at, place in ends)


def changed(text, change):
    """The text after one change of `textDocument/didChange`."""
    if change.get("range") is None:
        return change["text"]
    begin, end = (index_of(text, change["range"][side]) for side in ("start", "end"))
    return text[:begin] + change["text"] + text[max(begin, end) :]


def edited(text, edits):
    """The text after edits of which each counts places in the text as it is before all of them."""
    found = sorted((index_of(text, it["range"]["start"]), index_of(text, it["range"]["end"]), number) for number, it in enumerate(edits))
    for (_, end, _), (begin, _, _) in zip(found, found[1:]):
        if begin < end:
            raise ValueError("two edits overlap")
    for begin, end, number in reversed(found):
        text = text[:begin] + edits[number]["newText"] + text[end:]
    return text
