"""Questions about any text, valid or not: whatever the answer is, it has to be of the form that the protocol wants, and inside the text."""

from choices import faults_of_choices
from client import Refusal
from language import REFUSED, flat_symbols, formatted, is_part, locations, only_blanks
from places import edited, index_of, is_inside, lines_of, place_of, range_of, word_of
from tokens import decoded, tokens_in

NEW = "QQ_NEW_NAME"
MARKUP = "markdown"
UNFORMATTED = "the text has an error, so it is not formatted"


def wrong_ranges(text, ranges):
    return [it for it in ranges if not is_inside(text, it)]


def faults_of_uses(text, found, uri):
    """The places of one name have one word."""
    words = {word_of(text, where) for place, where in locations(found) if place == uri}
    yield from wrong_ranges(text, [where for place, where in locations(found) if place == uri])
    if len(words) > 1:
        yield f"the words {words}"


def faults_of_tokens(client, uri, text, method, where, found):
    """Tokens have a size, lie inside a line each, and follow one another; those of a range are those that have a character there."""
    last = 0
    if method == "semanticTokens/range":
        whole = decoded(client.legend, client.request("textDocument/semanticTokens/full", {"textDocument": {"uri": uri}})["data"])
        if decoded(client.legend, found["data"]) != tokens_in(whole, where):
            yield f"{decoded(client.legend, found['data'])}, not {tokens_in(whole, where)}"
    for where, kind, _ in decoded(client.legend, found["data"]):
        begin, end = index_of(text, where["start"]), index_of(text, where["end"])
        if not is_inside(text, where) or not last <= begin < end <= lines_of(text)[where["start"]["line"]][1]:
            yield f"the {kind} {where}"
        last = end


def faults_of_answer(client, uri, text, method, where, found):
    """What is wrong with the form of an answer about a range, or about its begin."""
    if method == "completion":
        yield from faults_of_choices(text, index_of(text, where["start"]), found["items"])
    elif method == "hover" and found:
        yield from wrong_ranges(text, [found["range"]] if "range" in found else [])
        if found["contents"]["kind"] != MARKUP or not found["contents"]["value"]:
            yield found
    elif method in ("definition", "references"):
        yield from faults_of_uses(text, found, uri)
    elif method == "prepareRename" and found:
        yield from wrong_ranges(text, [found])
    elif method == "rename":
        edits = found["changes"][uri]
        words = {word_of(text, it["range"]) for it in edits}
        if len(words) != 1 or edited(text, edits).count(NEW) < len(edits):
            yield f"the words {words}"
    elif method == "documentSymbol":
        symbols = list(flat_symbols(found))
        yield from wrong_ranges(text, [it["range"] for it in symbols])
        yield from (it for it in symbols if not it["name"] or not is_part(it["selectionRange"], it["range"]))
    elif method == "foldingRange":
        count = len(lines_of(text))
        yield from (it for it in found if not 0 <= it["startLine"] < it["endLine"] < count)
    elif method == "codeAction":
        yield from wrong_ranges(text, [edit["range"] for it in found for edit in it["edit"]["changes"][uri]])
    elif method.startswith("semanticTokens"):
        yield from faults_of_tokens(client, uri, text, method, where, found)


def faults_of_formatting(client, uri, text, where):
    """Formatting leads to what `format` writes, by edits of blanks, and is refused where that is. In a range it makes some of them."""
    wanted = formatted(client.tools, text)
    params = {"textDocument": {"uri": uri}, "range": where, "options": {"tabSize": 4, "insertSpaces": True}}
    whole, part = (client.ask(f"textDocument/{method}", params) for method in ("formatting", "rangeFormatting"))
    if wanted is None:
        if [it.get("error") for it in (whole, part)] != 2 * [{"code": REFUSED, "message": UNFORMATTED}]:
            yield f"{whole} and {part} of a text that can't be formatted"
    elif edited(text, whole["result"]) != wanted or not only_blanks(text, whole["result"]):
        yield f"{whole}, not {wanted!r}"
    elif part["result"] != [it for it in whole["result"] if is_part(it["range"], where)]:
        yield f"{part} in {where}, of {whole}"


METHODS = {
    "completion": {},
    "hover": {},
    "definition": {},
    "references": {"context": {"includeDeclaration": True}},
    "prepareRename": {},
    "rename": {"newName": NEW},
    "documentSymbol": {},
    "foldingRange": {},
    "codeAction": {"context": {"diagnostics": []}},
    "semanticTokens/full": {},
    "semanticTokens/range": {},
}


def faults_of_question(client, chance, uri, text):
    """Asks one question by chance at a place by chance."""
    method = chance.choice([*METHODS, "formatting"])
    begin = chance.randrange(len(text) + 1)
    where = range_of(text, begin, chance.randrange(begin, len(text) + 1))
    if method == "formatting":
        if uri.endswith(".rules"):
            yield from (f"formatting: {fault}, of {text!r}" for fault in faults_of_formatting(client, uri, text, where))
        return
    params = {"textDocument": {"uri": uri}, "position": place_of(text, begin), "range": where, **METHODS[method]}
    try:
        found = client.request(f"textDocument/{method}", params)
        faults = list(faults_of_answer(client, uri, text, method, where, found))
    except Refusal as error:
        faults = [] if method == "rename" and error.code == REFUSED else [str(error)]
    except (KeyError, TypeError, ValueError) as error:
        faults = [f"{type(error).__name__} {error}: {found}"]
    yield from (f"{method} at {params['position']}: {fault}, of {text!r}" for fault in faults)
