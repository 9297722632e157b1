"""What is published of the rule texts of rows/messages and rows/check, beside what `check` says of them."""

import worst
from diagnostics import INFORMATION, check, of_check, of_server
from rows.texts import ExampleTexts

URI = "file:///published.rules"
# Longer texts `check` reads no further.
LONGEST = 65_536
# Two rules, of which the second fails wherever the first does, for their last field: too much stands before it for that to be found.
UNDECIDED = "packet P=mid 2179 length 99;\n" + "".join(f"field F{it}=P u16be at {12 + 2 * it};\n" for it in range(16))
UNDECIDED += worst.RULE.format(0) + f"({' xor '.join(f'(F{it}<1 or F{it + 1}<2)' for it in range(1, 15, 2))}) and F0<1;\n"
UNDECIDED += worst.RULE.format(1) + f"F0<3 or ({' xor '.join(f'(F{it}<3 and F{15 - it}<2)' for it in range(1, 8))});\n"


def example_texts():
    """The texts by names: with line feeds, both signs and carriage returns alone at the ends of lines."""
    found = {"undecided": UNDECIDED}
    rows = ExampleTexts()
    for title, content in {**rows.rules, **rows.warned_rules}.items():
        try:
            text = content.decode("utf-8")
        except UnicodeDecodeError:
            continue
        name = title.replace(" ", "_")
        found |= {name: text, f"{name}-crlf": text.replace("\n", "\r\n"), f"{name}-cr": text.replace("\n", "\r")}
    return {name: text for name, text in found.items() if len(text.encode()) <= LONGEST}


def faults_of_published(client, folder):
    texts, count, notes = example_texts(), 0, 0
    said = check(client.tools, folder, texts)
    for name, text in texts.items():
        found, wanted = of_server(client.open(URI, "lcrules", text), URI), of_check(text, said[name])
        client.close(URI)
        count += len(wanted)
        notes += sum(it[0] == INFORMATION for it in wanted)
        if found != wanted:
            yield f"{name}: {found}, not {wanted}"
    print(f"{len(texts)} texts with {count} messages, {notes} of what is undecided")
    if not count or not notes:
        yield "no text has a message, or none has something undecided"
