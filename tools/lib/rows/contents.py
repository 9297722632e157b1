"""Contents of files and outputs as lines of a file of rows, read and written."""

import re
import unicodedata

from rows.words import unescaped

LINE = re.compile(r"(?P<text>>(?: .*)?)|\"(?P<quoted>(?:[^\"\\]|\\.)*)\"|hex (?P<hex>[0-9A-Fa-f ]+)|= (?P<name>\S+)")
TIMES = re.compile(r"(\d+) times (.*)")
CHANGE = re.compile(r"at (\d+) hex ([0-9A-Fa-f ]+)")
NO_NEWLINE = "\\ no newline"
BYTES_OF_A_LINE = 32
LEAST_RUN = 64  # bytes of a repetition that is written as one
LEAST_TIMES = 4
LONGEST_UNIT = 128
LEAST_LINES = 8  # that are equal and are written as one
LONGEST_LINE = 2_000


class ContentError(Exception):
    """A line of a content that has no meaning: its place, and why."""


def is_content(line):
    """Whether a line is a part of a content and no statement."""
    return line.startswith((">", '"', "hex ", "= ", "at ", "\\")) or bool(TIMES.match(line))


def piece_of(line, named):
    """The bytes of a line; `named` gives those of a name."""
    times = TIMES.fullmatch(line)
    found = LINE.fullmatch(times[2] if times else line)
    if not found:
        raise ValueError(f"`{line[:60]}` is no part of a content: write > TEXT, \"TEXT\\n\", hex BYTES, = NAME, at 9 hex BYTES, or 9 times and one of the first four")
    if found["text"] is not None:
        piece = found["text"][2:].encode() + b"\n"
    elif found["quoted"] is not None:
        piece = unescaped(found["quoted"])
    elif found["hex"] is not None:
        piece = bytes.fromhex(found["hex"])
    else:
        piece = named(found["name"])
    return piece * int(times[1]) if times else piece


def changed(content, place, others):
    """A content with other bytes from a place on."""
    if place + len(others) > len(content):
        raise ValueError(f"the content has {len(content)} bytes, so none of these stand at {place}")
    return content[:place] + others + content[place + len(others) :]


def take_line(pieces, line, named):
    """The pieces of a content with those of its next line."""
    change = CHANGE.fullmatch(line)
    if change:
        return [changed(b"".join(pieces), int(change[1]), bytes.fromhex(change[2]))]
    if line != NO_NEWLINE:
        return [*pieces, piece_of(line, named)]
    if not pieces or not pieces[-1].endswith(b"\n"):
        raise ValueError(f"`{NO_NEWLINE}` follows a line of text")
    return [*pieces[:-1], pieces[-1][:-1]]


def content_of(lines, named):
    """The bytes of a content's lines, each with its place in the file; ContentError where one of them has no meaning."""
    pieces = []
    for place, line in lines:
        try:
            pieces = take_line(pieces, line, named)
        except (ValueError, OSError) as error:
            raise ContentError(place, error) from None
    return b"".join(pieces)


def is_visible(character):
    """Whether a character shows what it is: no control, no invisible one, no other blank."""
    return character == " " or unicodedata.category(character) not in ("Cc", "Cf", "Zs", "Zl", "Zp", "Cs", "Co", "Cn")


def is_text(content):
    """Whether bytes are read as text, but for a few of them."""
    text = content.decode(errors="replace")
    strange = sum(it == "\ufffd" or (it < " " and it not in "\n\t\r") for it in text)
    return "\0" not in text and strange * 16 <= len(text)


def quoted(content):
    """Bytes as a quoted text, whose escapes show invisible characters."""
    names = {"\n": "\\n", "\t": "\\t", "\r": "\\r", "\\": "\\\\", '"': '\\"'}
    text = content.decode(errors="surrogateescape")
    shown = (names.get(it) or (it if is_visible(it) else escaped(it)) for it in text)
    return f'"{"".join(shown)}"'


def escaped(character):
    return "".join(f"\\x{it:02x}" for it in character.encode(errors="surrogateescape"))


def run_at(content, at):
    """The shortest unit that is repeated from a place on over many bytes, and how often; 1 and b"" where there is none."""
    for size in range(1, LONGEST_UNIT + 1):
        unit, count = content[at : at + size], 1
        if content[at + size : at + size + 1] != unit[:1]:
            continue
        while content.startswith(unit, at + count * size):
            count += 1
        if count >= LEAST_TIMES and count * size >= LEAST_RUN:
            return count, unit
    return 1, b""


def runs_of(content):
    """A content cut into long repetitions and what stands between them: pairs of a count and bytes."""
    begin, at = 0, 0
    while at < len(content):
        count, unit = run_at(content, at)
        if not unit:
            at += 1
            continue
        if content[begin:at]:
            yield 1, content[begin:at]
        yield count, unit
        begin = at = at + count * len(unit)
    if content[begin:]:
        yield 1, content[begin:]


def times(count):
    return f"{count} times " if count > 1 else ""


def lines_of_text_line(line):
    """One line of a text, with its newline or without."""
    plain = line.removesuffix(b"\n")
    text = plain.decode(errors="surrogateescape")
    if len(plain) > LONGEST_LINE:
        return [times(count) + quoted(piece) for count, piece in runs_of(line)]
    if all(map(is_visible, text)) and not text.endswith(" "):
        return [f"> {text}".rstrip(" ")] + ([] if line.endswith(b"\n") else [NO_NEWLINE])
    return [quoted(line)]


def lines_of_text(content):
    """The lines of a text, of which many equal ones stand once with their count."""
    lines, at = re.findall(rb"[^\n]*\n|[^\n]+", content), 0
    while at < len(lines):
        count = 1
        while at + count < len(lines) and lines[at + count] == lines[at]:
            count += 1
        shown = lines_of_text_line(lines[at])
        if count >= LEAST_LINES and len(shown) == 1:
            yield times(count) + shown[0]
        else:
            yield from shown * count
        at += count


def lines_of_hex(content):
    """Bytes in hexadecimal, 32 in a line, and a repetition in one."""
    for count, piece in runs_of(content):
        for at in range(0, len(piece), BYTES_OF_A_LINE if count == 1 else len(piece)):
            part = piece[at : at + BYTES_OF_A_LINE] if count == 1 else piece
            yield times(count) + "hex " + part.hex(" ", -4).upper()


def units_of(content, head, size_of):
    """The records or packets of which bytes consist, where they consist of such; else None."""
    units, at = [], 0
    while at < len(content):
        size = size_of(content[at : at + head]) if len(content) - at >= head else 0
        if not size or at + size > len(content):
            return None
        units.append(content[at : at + size])
        at += size
    return units


def record_size(head):
    """The length of a stream's record by its first 11 bytes, or 0."""
    return 11 + int.from_bytes(head[7:11], "big") if 1 <= head[0] <= 4 else 0


def packet_size(head):
    """The length of a space packet by its first 6 bytes, or 0 where these are none's."""
    return 7 + int.from_bytes(head[4:6], "big") if head[0] >> 5 == 0 and head[2] >> 6 == 3 else 0


def lines_of(content):
    """A content as lines: a text line by line; a stream or packets in hexadecimal, each of which begins a line; other bytes alike."""
    if not content:
        return ['""']
    if is_text(content):
        return list(lines_of_text(content))
    units = units_of(content, 11, record_size) or units_of(content, 6, packet_size) or [content]
    lines, at = [], 0
    while at < len(units):
        count = 1
        while at + count < len(units) and units[at + count] == units[at]:
            count += 1
        shown = list(lines_of_hex(units[at]))
        lines += [times(count) + shown[0]] if len(shown) == 1 and not shown[0][0].isdigit() else shown * count
        at += count
    return lines
