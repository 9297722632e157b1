"""Semantic tokens: five numbers each (LSP 3.17, "Integer Encoding for Tokens")."""

from places import word_of


def decoded(legend, data):
    """The range and the type of each token, and whether it is a declaration."""
    found, line, character = [], 0, 0
    for lines, units, size, kind, modifiers in zip(*(data[at::5] for at in range(5)), strict=True):
        line, character = line + lines, units + (0 if lines else character)
        where = {"start": {"line": line, "character": character}, "end": {"line": line, "character": character + size}}
        modifier = [name for bit, name in enumerate(legend["tokenModifiers"]) if modifiers >> bit & 1]
        found.append((where, legend["tokenTypes"][kind], modifier == ["declaration"]))
    return found


def spelled(text, legend, data):
    """Semantic tokens in the form of the rows."""
    return "|".join(f"{kind}{'*' * is_declared} {word_of(text, where)}" for where, kind, is_declared in decoded(legend, data))


def is_before(place, other):
    return (place["line"], place["character"]) < (other["line"], other["character"])


def tokens_in(tokens, where):
    """The tokens of which a range has a character."""
    return [it for it in tokens if is_before(it[0]["start"], where["end"]) and is_before(where["start"], it[0]["end"])]
