"""Sentences of Markdown documents: how long they are. Tables, lists, headings and code are left out."""
import re

from documents.links import unfenced

MOST_WORDS = 35
MOST_ON_AVERAGE = 18
LEFT_OUT = re.compile(r"\s*(\||#|>|!\[|<|[-*+] |\d+\. )")
END = re.compile(r"(?<=[.!?])[\"')*_]*\s+(?=[\"'(*_\[]*[A-Z0-9`])")
ABBREVIATION = re.compile(r"\b(e\.g|i\.e|No|vs)\.$")


def paragraphs_of(lines):
    """The paragraphs of prose, each with the number of its first line."""
    text, first, is_left_out = [], 0, False
    for number, line in [*unfenced(lines), (0, "")]:
        if not line.strip():
            if text:
                yield first, " ".join(text)
            text, is_left_out = [], False
            continue
        # what is indented, or follows a line of a list, belongs to that list
        is_left_out = is_left_out or bool(LEFT_OUT.match(line)) or line.startswith("    ")
        if is_left_out:
            continue
        if not text:
            first = number
        text.append(line.strip())


def sentences_of(lines):
    """Each sentence of prose with its line and its number of words; a span of code or a link's text is as long as its words."""
    for number, text in paragraphs_of(lines):
        plain = re.sub(r"`[^`]*`", "Code", re.sub(r"!?\[([^\]]*)\]\([^)]*\)", r"\1", text))
        for sentence in END.split(plain):
            words = [it for it in sentence.split() if re.search(r"\w", it)]
            if words:
                yield number, sentence, len(words)


def faults_of(document, lines):
    """What is too long in a document, and how many words and sentences it has."""
    found, count, words = [], 0, 0
    for number, sentence, length in sentences_of(lines):
        count, words = count + 1, words + length
        if length > MOST_WORDS:
            found.append(f"{document}:{number}: {length} words, where {MOST_WORDS} may be: {sentence[:60]}..")
    if words > count * MOST_ON_AVERAGE:
        found.append(f"{document}: {words / count:.1f} words a sentence, where {MOST_ON_AVERAGE} may be on average")
    return found, count, words
