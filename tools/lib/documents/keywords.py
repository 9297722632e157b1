"""What an editor shows of the words of the rule language: what docs/RULES.md says of each, as a constant of crates/rule_outline."""
import re
import textwrap

from documents.sentences import END

SOURCE = "crates/rule_outline/src/keywords.rt"
# How long `rt fmt` lets a list's lines be.
WIDTH = 100
TYPES, OPERATORS = "**TYPE** is", "OP is"
# The words of a row, and how the bullets begin that explain them. The words for types and signs are those of their bullets.
ROWS = [
    (["mid"], ["**`mid`**"]),
    (["length"], ["**`length`**"]),
    (TYPES, [TYPES]),
    (["at"], ["**`at`**"]),
    (["mask"], ["**`mask`**"]),
    (["stale"], ["**`stale`**"]),
    (["active", "passive", "disabled"], ["**STATE** is"]),
    (["fails", "sequence"], ["**`fails`**"]),
    (["event", "debug", "info", "error", "critical"], ["**`event`**"]),
    (["report"], ["**`report`**"]),
    (["when"], ["**`when`**"]),
    (OPERATORS, [OPERATORS]),
    (["not", "and", "xor", "or"], ["`not` binds", "False decides an `and`"]),
]
NAMES = "Packets, fields and rules share one space of names"
HEAD = """//! The words of the rule language, as docs/RULES.md explains them. Written by tools/dev/write_explanations.

/// Words of the language with one explanation.
pub struct Keyword {
    /// The words.
    pub words: &'static [&'static [u8]],
    /// The first sentence, as plain text.
    pub first: &'static str,
    /// All sentences, in Markdown.
    pub text: &'static str,
}

/// The words that have an explanation.
"""


def bullets_of(text):
    """The texts of all bullets, without links."""
    return [re.sub(r"\[([^\]]*)\]\([^)]*\)", r"\1", it) for it in re.findall(r"^- (.*)$", text, re.M)]


def bullet(bullets, begin):
    """The one bullet that begins so."""
    (found,) = (it for it in bullets if it.startswith(begin))
    return found


def sentence(bullets, begin):
    """The one sentence of the bullets that begins so."""
    (found,) = (it for text in bullets for it in END.split(text) if it.startswith(begin))
    return found


def plain(text):
    """A sentence of Markdown as plain text."""
    return text.replace("**", "").replace("`", "")


def words_of(bullets, words):
    """The words of a row: as they are listed, or those that the bullet has as code before its first colon."""
    if isinstance(words, list):
        return words
    return [word for span in re.findall(r"`([^`]+)`", bullet(bullets, words).split("`: ")[0] + "`") for word in span.split()]


def items_of(text):
    """The first word of each item and its form, as the grammar has it."""
    grammar = re.search(r"^item := (.*?)^cond := ", text, re.M | re.S)[1]
    for form in re.split(r"^\s*\|", grammar, flags=re.M):
        form = " ".join(form.replace('"', "").split())
        yield form.split()[0], form


def rows_of(text):
    """Words, first sentence and all sentences of each row."""
    bullets = bullets_of(text)
    for word, form in items_of(text):
        yield [word], form, f"`{form}`\n\n{sentence(bullets, NAMES)}"
    for words, begins in ROWS:
        found = [bullet(bullets, it) for it in begins]
        yield words_of(bullets, words), plain(END.split(found[0])[0]), "\n\n".join(found)


def reserved_of(text):
    """The reserved words."""
    bullets = bullets_of(text)
    listed = re.findall(r"`([^`]+)`", bullet(bullets, "**Reserved words**"))
    return {word for it in listed for word in it.split()} | set(words_of(bullets, TYPES))


def quoted(text):
    return '"' + text.replace("\\", "\\\\").replace('"', '\\"').replace("\n", "\\n") + '"'


def list_of(words):
    """The words as a list of Rust, broken where `rt fmt` breaks it."""
    listed = ", ".join(f"b{quoted(it)}" for it in words)
    if len(listed) <= WIDTH - len("        words: &[],"):
        return f"[{listed}]"
    lines = textwrap.wrap(f"{listed},", WIDTH, initial_indent=" " * 12, subsequent_indent=" " * 12)
    return "\n".join(["[", *lines, "        ]"])


def source_of(text):
    """The source file for the text of docs/RULES.md."""
    rows = list(rows_of(text))
    missing = reserved_of(text) - {word for words, _, _ in rows for word in words}
    assert not missing, f"no explanation of {' '.join(sorted(missing))}"
    out = [HEAD, f"pub const KEYWORDS: [Keyword; {len(rows)}] = [\n"]
    for words, first, whole in rows:
        out.append(f"    Keyword {{\n        words: &{list_of(words)},\n        first: {quoted(first)},\n        text: {quoted(whole)},\n    }},\n")
    return "".join([*out, "];\n"])
