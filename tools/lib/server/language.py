"""Asks a server the rows of language_rows.py, with line feeds, both signs or carriage returns alone at the ends of lines."""

import subprocess
from dataclasses import replace

import language_rows as rows
from choices import choices_in_order, faults_of_choices
from client import Refusal
from mistakes import TYPES, WORDS
from places import edited, index_of, is_inside, lines_of, place_of, range_of, word_of
from rule_reading import KINDS, NAMES, SIGNS, RuleReading, choice, class_of, explanation_of
from script_reading import ScriptReading
from tokens import decoded, spelled, tokens_in
from unproved import MARK
from version import version

REFUSED = -32_803
BLANKS = set(" \t\r\n")


def unmarked(text):
    """A text without its marks, the place that is asked about, and what stands in marks, as numbers of characters before them."""
    plain, place, begins, ranges = "", None, [], []
    for char in text:
        if char == "‸":
            place = len(plain)
        elif char == "⟦":
            begins.append(len(plain))
        elif char == "⟧":
            ranges.append((begins.pop(), len(plain)))
        else:
            plain += char
    return plain, place, ranges


def variants(ask):
    """The question with other line ends. In a comment, and in scripts, a carriage return ends no line of the language."""
    yield ask
    if "\n" in ask.text and "\r" not in ask.text:
        ends = ["\r\n", "\r"] if ask.kind == "rules" and "#" not in ask.text else ["\r\n"]
        for end in ends:
            yield replace(ask, title=f"{ask.title} ({end!r})", text=ask.text.replace("\n", end))


class Desk:
    """A question on a server's desk: its document is open, and the rule text beside it."""

    def __init__(self, client, ask, number):
        self.client, self.ask = client, ask
        self.text, at, ranges = unmarked(ask.text)
        self.rules, _, rule_ranges = unmarked(ask.rules)
        self.uri, self.rules_uri = f"file:///{number}/text.{ask.kind}", f"file:///{number}/bus.rules"
        self.place = None if at is None else place_of(self.text, at)
        self.ranges = [range_of(self.text, *it) for it in ranges]
        self.places = [(self.uri, it) for it in self.ranges] + [(self.rules_uri, range_of(self.rules, *it)) for it in rule_ranges]

    def __enter__(self):
        if self.rules:
            self.client.open(self.rules_uri, "lcrules", self.rules)
        self.client.open(self.uri, f"lc{self.ask.kind}", self.text)
        return self

    def __exit__(self, *_):
        if not self.client.is_over:
            self.client.close(self.uri)
            if self.rules:
                self.client.close(self.rules_uri)

    def ask_for(self, method, **more):
        """The whole answer to a request about the text, or its place."""
        place = {} if self.place is None else {"position": self.place}
        return self.client.ask(f"textDocument/{method}", {"textDocument": {"uri": self.uri}, **place, **more})

    def request(self, method, **more):
        """The result of such a request."""
        answer = self.ask_for(method, **more)
        if "error" in answer:
            raise Refusal(answer["error"])
        return answer["result"]


def locations(result):
    """The places of an answer, which may be one, a list or null."""
    found = [] if result is None else result if isinstance(result, list) else [result]
    return [(it["uri"], it["range"]) for it in found]


def said_of_definition(desk):
    found = locations(desk.request("definition"))
    return found, desk.places


def said_of_references(desk):
    found = locations(desk.request("references", context={"includeDeclaration": desk.ask.want}))
    return found, desk.places


def said_of_prepare(desk):
    found = desk.request("prepareRename")
    return ([] if found is None else [found.get("range", found)]), desk.ranges


def said_of_rename(desk):
    """The text with the new name, or why it is refused."""
    new, sentence = desk.ask.want if isinstance(desk.ask.want, tuple) else (desk.ask.want, None)
    answer = desk.ask_for("rename", newName=new)
    if "error" in answer or sentence:
        return answer.get("error", answer), {"code": REFUSED, "message": sentence}
    expected, changes = desk.ask.text.replace("‸", ""), answer["result"]["changes"]
    while "⟦" in expected:
        head, _, rest = expected.partition("⟦")
        expected = head + new + rest.partition("⟧")[2]
    return (list(changes), edited(desk.text, changes[desk.uri])), ([desk.uri], expected)


def said_of_hover(desk):
    """Which of the words are said, and of which range: of a name of another text there is none."""
    found = desk.request("hover")
    if found is None:
        return [], desk.ask.want
    said = found["contents"]
    if said["kind"] != "markdown" or not said["value"].strip():
        return found, "Markdown"
    words = [it for it in desk.ask.want if it in said["value"]] or said
    return (words, [found["range"]] if "range" in found else []), (desk.ask.want, desk.ranges)


def known_choices(desk):
    """The choices of all names and words of a rule text's language."""
    reading = RuleReading(desk.text)
    words = [*WORDS, *TYPES, "=", *SIGNS, *KINDS["OP"]]
    names = [it for kind in NAMES for it in reading.named(kind)]
    return names + [choice(class_of(it), it, explanation_of(it)[0]) for it in words]


def said_of_completion(desk):
    """The words of the row that are there, in its order, without those that it does not want; all are known in this form."""
    found = desk.request("completion", context={"triggerKind": 1})
    choices = choices_in_order(found["items"])
    labels = [it[1] for it in choices]
    wanted, _, unwanted = (f" {desk.ask.want} ").partition(" - ")
    wrong = [it for it in labels if it in unwanted.split()]
    wrong += [it for it in choices if desk.ask.kind == "rules" and it not in known_choices(desk)]
    wrong += faults_of_choices(desk.text, index_of(desk.text, desk.place), found["items"])
    there = [it for it in labels if it in wanted.split() or desk.ask.is_whole]
    return (there, found["isIncomplete"], wrong), (wanted.split(), False, [])


def flat_symbols(symbols):
    for it in symbols:
        yield it
        yield from flat_symbols(it.get("children") or [])


def reading_of(desk):
    """A reading of the text."""
    if desk.ask.kind == "rules":
        return RuleReading(desk.text)
    return ScriptReading(desk.ask.kind, desk.text, {desk.rules_uri: RuleReading(desk.rules)} if desk.rules else {})


def said_of_symbols(desk):
    """The kinds and names of the row, and all of each symbol as a reading of the text has it."""
    found = desk.request("documentSymbol")
    names = [(it["kind"], it["selectionRange"]) for it in found]
    return (names, found), (list(zip(desk.ask.want, desk.ranges, strict=True)), reading_of(desk).symbols())


def is_part(inner, outer):
    """Whether a range lies in another."""
    ends = [(it["line"], it["character"]) for it in (outer["start"], inner["start"], inner["end"], outer["end"])]
    return ends == sorted(ends)


def said_of_folds(desk):
    found = desk.request("foldingRange")
    return [(it["startLine"], it["endLine"], it["kind"]) for it in found], desk.ask.want


def said_of_tokens(desk):
    """The tokens, and those of each line and of all lines up to it: the ones that have a character there."""
    legend = desk.client.legend
    data = desk.request("semanticTokens/full")["data"]
    found, wrong = decoded(legend, data), []
    for begin, end in lines_of(desk.text):
        for where in (range_of(desk.text, begin, end), range_of(desk.text, 0, end), range_of(desk.text, end, len(desk.text))):
            part = decoded(legend, desk.request("semanticTokens/range", range=where)["data"])
            wrong += [] if part == tokens_in(found, where) else [(where, part)]
    wrong += [it for it in found if not is_inside(desk.text, it[0]) or it[0]["start"] == it[0]["end"]]
    return (spelled(desk.text, legend, data), wrong), (desk.ask.want, [])


def formatted(program, text):
    """What `format` makes of a text; `None` where it refuses it."""
    ran = subprocess.run([program, "format", "-"], input=text.encode(), stdout=subprocess.PIPE, stderr=subprocess.DEVNULL, timeout=20)
    return ran.stdout.decode() if ran.returncode == 0 else None


def only_blanks(text, edits):
    return all(set(word_of(text, it["range"]) + it["newText"]) <= BLANKS for it in edits)


def wrong_parts(desk, edits, options):
    """Ranges that begin or end at an edit or inside one, where what they give is not the edits that lie in them."""
    ends = [tuple(index_of(desk.text, it["range"][side]) for side in ("start", "end")) for it in edits]
    places = sorted({at for begin, end in ends for at in (begin, (begin + end) // 2, end) if desk.text[at - 1 : at + 1] != "\r\n"})
    for where in (it for at in places for it in (range_of(desk.text, 0, at), range_of(desk.text, at, len(desk.text)))):
        part = desk.request("rangeFormatting", options=options, range=where)
        if part != [it for it in edits if is_part(it["range"], where)]:
            yield where, part


def said_of_format(desk):
    """The text with the edits, whether they are of blanks alone, and what ranges give; or why it is refused."""
    expected = formatted(desk.client.tools, desk.text) if desk.ask.kind == "rules" else None
    options, answers = {"tabSize": 4, "insertSpaces": True}, []
    for method, more in (("formatting", {}), ("rangeFormatting", {"range": range_of(desk.text, 0, len(desk.text))})):
        answer = desk.ask_for(method, options=options, **more)
        edits = answer.get("result")
        answers.append(answer.get("error", edits and (edited(desk.text, edits), only_blanks(desk.text, edits))))
    answers += wrong_parts(desk, edits or [], options)
    refused = {"code": REFUSED, "message": desk.ask.want} if desk.ask.want else None
    unchanged = [] if expected == desk.text else (expected, True)
    return answers, 2 * [refused if expected is None else unchanged]


QUESTIONS = [
    ("definition", rows.DEFINITIONS, said_of_definition),
    ("references", rows.REFERENCES, said_of_references),
    ("prepareRename", rows.PREPARES, said_of_prepare),
    ("rename", rows.RENAMES, said_of_rename),
    ("hover", rows.HOVERS, said_of_hover),
    ("completion", rows.COMPLETIONS, said_of_completion),
    ("symbols", rows.SYMBOLS, said_of_symbols),
    ("folds", rows.FOLDS, said_of_folds),
    ("tokens", rows.TOKENS, said_of_tokens),
    ("format", rows.FORMATS, said_of_format),
]


def faults_of_ask(client, number, what, ask, said):
    """What is wrong with the answer to a row, whose documents have this number."""
    with Desk(client, ask, number) as desk:
        try:
            found, wanted = said(desk)
        except (Refusal, KeyError, TypeError, ValueError) as error:
            found, wanted = f"{type(error).__name__} {error}", "an answer"
    if found != wanted:
        yield f"{what}: {ask.title}: {found}, not {wanted}"


def faults_of_rows(client):
    """The rows whose answers are other ones."""
    offers = [{"capabilities": rows.CAPABILITIES, "serverInfo": {"name": "flight_tools", "version": f"{version()}{mark}"}} for mark in ("", MARK)]
    if client.offer not in offers:
        yield f"initialize: {client.offer}, not {offers[0]}"
    count = 0
    for what, asks, said in QUESTIONS:
        for ask in (variant for ask in asks for variant in variants(ask)):
            count += 1
            yield from faults_of_ask(client, count, what, ask, said)
    print(f"{count} questions about texts")
