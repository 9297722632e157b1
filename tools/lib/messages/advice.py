"""Edits of messages, as `flight_tools check --json` writes them, applied to texts."""

import json


def messages(said):
    """The errors among these lines of JSON."""
    return [it for it in map(json.loads, said.splitlines()) if it["level"] == "error"]


def is_inside(text, edit):
    return 0 <= edit["from"] <= edit["to"] <= len(text.encode())


def applied(text, edit):
    """The text with the edit."""
    old = text.encode()
    return (old[: edit["from"]] + edit["text"].encode() + old[edit["to"] :]).decode()


def place_of(message, text):
    """The bytes before a message's place; `None` if it has none."""
    if not message["at"]:
        return None
    lines = text.split("\n")
    line, column = message["at"]["line"] - 1, message["at"]["column"] - 1
    return sum(len(it.encode()) + 1 for it in lines[:line]) + len(lines[line][:column].encode())


def moved(place, edit):
    """Where the bytes at a place stand after the edit; the edit's own place for bytes that it replaces."""
    if place < edit["from"]:
        return place
    if place < edit["to"]:
        return edit["from"]
    return place + edit["from"] + len(edit["text"].encode()) - edit["to"]


def is_kept(message, text, others, changed):
    """Whether one of the messages for the changed text is of the same error: the same number at the same place of the text, or the same
    number and sentence at the place to which the edit has moved it."""
    place = place_of(message, text)
    for other in others:
        if other["code"] != message["code"]:
            continue
        now = place_of(other, changed)
        if now == place or (now == moved(place, message["edit"]) and other["message"] == message["message"]):
            return True
    return False
