"""Words of a call as a shell reads them: bare, in quotes, `$'\\xff'` for bytes that are no text, and `text{0..9}` for ten words."""

import re

BARE = r"[A-Za-z0-9_@%+=:,./*^~-]+"
RANGE = r"\{\d+\.\.\d+\}"
PART = re.compile(rf"(?P<bare>{BARE})|(?P<range>{RANGE})|'(?P<single>[^']*)'|\"(?P<double>[^\"$`\\!]*)\"|\$'(?P<escaped>(?:[^'\\]|\\.)*)'")
ESCAPE = re.compile(rb"\\(x[0-9a-fA-F]{2}|.)", re.S)
MEANINGS = {b"n": b"\n", b"t": b"\t", b"r": b"\r", b"\\": b"\\", b"'": b"'", b'"': b'"'}


def unescaped(text):
    """The bytes of a text with escapes; ValueError for an unknown one."""

    def meaning(found):
        it = found[1]
        if len(it) == 3:
            return bytes([int(it[1:], 16)])
        if it not in MEANINGS:
            raise ValueError(f"`\\{it.decode()}` is no escape: write \\n, \\t, \\r, \\\\, \\', \\\" or \\xNN")
        return MEANINGS[it]

    return ESCAPE.sub(meaning, text.encode())


def as_word(content):
    """A word as text where it is UTF-8, else as bytes."""
    try:
        return content.decode()
    except UnicodeDecodeError:
        return content


def expanded(parts):
    """The words of parts, of which a range stands for each of its numbers."""
    words = [b""]
    for part in parts:
        choices = [str(number).encode() for number in part] if isinstance(part, range) else [part]
        words = [word + choice for word in words for choice in choices]
    return [as_word(it) for it in words]


def part_of(found):
    """A part of a word: its bytes, or the numbers of a range."""
    if found["range"]:
        first, last = map(int, found["range"].strip("{}").split(".."))
        return range(first, last + 1)
    if found["escaped"] is not None:
        return unescaped(found["escaped"])
    return next(it for it in (found["bare"], found["single"], found["double"]) if it is not None).encode()


def take_word(line, at=0):
    """The words for which the word at a place stands, and the place after it; ValueError where a shell would read more into it."""
    parts = []
    while at < len(line) and line[at] != " ":
        found = PART.match(line, at)
        if not found:
            raise ValueError(f"quote `{line[at:]}`: '..' for a text, $'..' with escapes")
        parts.append(part_of(found))
        at = found.end()
    return expanded(parts), at


def split(line):
    """The words of a line."""
    words, at = [], 0
    while at < len(line):
        more, at = take_word(line, at) if line[at] != " " else ([], at + 1)
        words += more
    return words


def quoted(word):
    """A word as `split` reads it."""
    if isinstance(word, str) and re.fullmatch(BARE, word):
        return word
    if isinstance(word, str) and "'" not in word and word.isprintable():
        return f"'{word}'"
    content = word.encode() if isinstance(word, str) else word
    return "$'" + "".join(chr(it) if 32 <= it < 127 and it not in b"'\\" else f"\\x{it:02x}" for it in content) + "'"


def joined(words):
    """Words in one line; three or more that end in numbers one after the other are a range."""
    line, at = [], 0
    while at < len(words):
        end = end_of_range(words, at)
        if end - at >= 3:
            front, first = re.fullmatch(r"(.*?)(\d+)", words[at]).groups()
            line.append(f"{quoted(front)}{{{first}..{int(first) + end - at - 1}}}")
            at = end
        else:
            line.append(quoted(words[at]))
            at += 1
    return " ".join(line)


def end_of_range(words, at):
    """The end of the words from a place on that differ by a number that grows by one."""
    found = re.fullmatch(r"(\D+)(0|[1-9]\d*)", words[at]) if isinstance(words[at], str) else None
    if not found or not re.fullmatch(BARE, words[at]):
        return at
    end = at
    while end < len(words) and words[end] == f"{found[1]}{int(found[2]) + end - at}":
        end += 1
    return end
