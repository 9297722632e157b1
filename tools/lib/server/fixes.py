"""Takes the quick fixes for mistakes in rule texts, beside the edits of `flight_tools check --json`."""

import advice
from diagnostics import check, errors_of, of_check, of_server
from language_rows import FIELD, PACKET, rule
from mistakes import Mistakes
from places import changed, edited, range_of, word_of

SEED = 2_027
MISTAKES = 150
# Of 100 fixes so many take their error away.
LEAST_SOLVED = 95
URI = "file:///mistake.rules"
# Longer texts, in bytes, no title shows.
MOST_SHOWN = 60
# The kinds of actions that a client asks for, and whether it gets fixes: all if it names none (LSP 3.17, `CodeActionContext`).
KINDS = [(["refactor"], 0), (["refactor", "quickfix"], 1), (["quickfix"], 1), ([], 0), (None, 1)]
LATER = [("aat", "at"), ("packt", "packet"), ("att", "at")]
# Mistakes with one fix each, whose titles are as long as they may be, longer, or have what can't be shown.
TITLED = [
    *(f"packet P = mid 0x0883 length {'16x'.rjust(size, '0')};" for size in (MOST_SHOWN, MOST_SHOWN + 1)),
    f"{PACKET}{FIELD}rule R active fails 1 sequence 1 event info 1001 \u201ca\u200eb\u201d when V < 1;",
    PACKET + FIELD + rule("1\t< V;"),
]


def fixes_in(client, where, only=("quickfix",)):
    """The fixes of a range; `only` has the kinds that are asked for, or nothing."""
    context = {"diagnostics": [], **({} if only is None else {"only": list(only)})}
    return client.request("textDocument/codeAction", {"textDocument": {"uri": URI}, "range": where, "context": context})


def all_fixes(client, text):
    return fixes_in(client, range_of(text, 0, len(text)))


def applied(text, fix):
    return edited(text, fix["edit"]["changes"][URI])


def title_of(text, edit):
    """What an edit does, if that is short: a tab is shown as four blanks, and what can't be shown as U+FFFD (docs/TOOLS.md, "Errors")."""
    parts = (word_of(text, edit["range"]), edit["newText"])
    old, new = ("".join("    " if it == "\t" else it if it.isprintable() else "\ufffd" for it in part) for part in parts)
    if max(len(it.encode()) for it in parts) > MOST_SHOWN:
        return "apply the advice"
    return f"replace `{old}` by `{new}`" if old and new else f"insert `{new}`" if new else f"remove `{old}`"


def faults_of_form(text, fix, published):
    (edit,) = fix["edit"]["changes"][URI]
    wanted = {"kind": "quickfix", "isPreferred": True, "title": title_of(text, edit), "edit": {"changes": {URI: [edit]}}}
    found = {name: value for name, value in fix.items() if name != "diagnostics"}
    if found != wanted:
        yield f"the form of {found}, not {wanted}"
    if len(fix["diagnostics"]) != 1 or fix["diagnostics"][0] not in published:
        yield f"the diagnostics of {fix}"


def faults_of_mistake(client, text, messages, after):
    """The fixes for one text. Its first fix is made, and what is published then goes to `after`, with the text and the fixes for it."""
    published = client.open(URI, "lcrules", text)
    with_edit = [(it, diagnostic) for it, diagnostic in zip(messages, published) if it["edit"]]
    fixes = all_fixes(client, text)
    yield from (fault for fix in fixes for fault in faults_of_form(text, fix, published))
    found, wanted = [applied(text, fix) for fix in fixes], [advice.applied(text, it["edit"]) for it, _ in with_edit]
    if found != wanted:
        yield f"the fixes give {found}, not {wanted}"
    for fix, (_, diagnostic) in zip(fixes, with_edit):
        if fix not in fixes_in(client, diagnostic["range"]):
            yield f"no fix at {diagnostic['range']}"
    if fixes:
        edits = fixes[0]["edit"]["changes"][URI]
        changes = [{"range": it["range"], "text": it["newText"]} for it in edits]
        new = changed(text, changes[0]) if len(changes) == 1 else edited(text, edits)
        published = of_server(client.change(URI, changes), URI)
        after.append((with_edit[0][0], text, new, published, [applied(new, fix) for fix in all_fixes(client, new)]))
    client.close(URI)


def faults_after(client, folder, after):
    """Where the errors that are published, or their fixes, are not those of the text with the fix, or too many fixes leave their error."""
    said = check(client.tools, folder, {f"fixed-{number}": new for number, (_, _, new, _, _) in enumerate(after)})
    kept, further = [], 0
    for (message, old, new, published, fixed), messages in zip(after, said.values()):
        errors = [it for it in messages if it["level"] == "error"]
        wanted = [advice.applied(new, it["edit"]) for it in errors if it["edit"]]
        further += len(wanted)
        if (published, fixed) != (errors_of(of_check(new, errors)), wanted):
            yield f"after a fix: {published} with {fixed}, not {of_check(new, errors)} with {wanted}"
        if advice.is_kept(message, old, errors, new):
            kept.append(message)
    if len(kept) * 100 > len(after) * (100 - LEAST_SOLVED):
        yield from (f"the fix leaves its error: {message}" for message in kept)
    print(f"{MISTAKES} mistakes, {len(after)} with a fix: in {len(after) - len(kept)} it takes the error away; {further} fixes after it")
    if not after or not further:
        yield "no mistake has a fix, or none has one after it"


def faults_of_ranges(client):
    """The fixes of a range are those of the marks that it touches."""
    text = "packt BUS = mid 0x0883 length 16;\nfield V = BUS u8 att 12;\nfield W = BUS u8 at 13;\n"
    at = text.index("att")
    places = [(0, 5, "packet"), (5, 5, "packet"), (6, at - 1, ""), (at - 1, at, "at"), (at + 3, at + 9, "at"), (at + 4, len(text), "")]
    places.append((0, len(text), "packet at"))
    client.open(URI, "lcrules", text)
    for begin, end, wanted in places:
        fixes = fixes_in(client, range_of(text, begin, end))
        found = " ".join(edit["newText"] for fix in fixes for edit in fix["edit"]["changes"][URI])
        if found != wanted:
            yield f"fixes from {begin} to {end}: {found!r}, not {wanted!r}"
    for only, wanted in KINDS:
        found = " ".join(applied(text, fix) for fix in fixes_in(client, range_of(text, at, at), only))
        if found != wanted * text.replace("att", "at"):
            yield f"fixes where {only} are asked for: {found!r}"
    # A mistake that comes later has its fix, and each fix stands where its text has gone.
    client.change(URI, [{"range": range_of(text, 0, 0), "text": "field T = BUS u8 aat 14;\n"}])
    new = "field T = BUS u8 aat 14;\n" + text
    found, wanted = [applied(new, it) for it in all_fixes(client, new)], [new.replace(old, word, 1) for old, word in LATER]
    if found != wanted:
        yield f"fixes after a change: {found}, not {wanted}"
    client.close(URI)


def faults_of_titles(client):
    for text in TITLED:
        published = client.open(URI, "lcrules", text)
        fixes = all_fixes(client, text)
        yield from (fault for fix in fixes for fault in faults_of_form(text, fix, published))
        if len(fixes) != 1:
            yield f"{len(fixes)} fixes of {text!r}"
        client.close(URI)


def faults_of_fixes(client, folder):
    yield from faults_of_ranges(client)
    yield from faults_of_titles(client)
    made = Mistakes(SEED)
    texts = {f"mistake-{number}": made.one()[1] for number in range(MISTAKES)}
    said, after = check(client.tools, folder, texts), []
    for name, text in texts.items():
        messages = [it for it in said[name] if it["level"] in ("error", "warning")]
        yield from (f"{name}: {fault}" for fault in faults_of_mistake(client, text, messages, after))
    yield from faults_after(client, folder, after)
