"""The examples of what `flight_tools check --explain` explains, typed; and whether it explains all that rows print."""

import os
import re
import subprocess
import tempfile

from documents.explanations import entries_of
from repository import ROOT
from rows.texts import ExampleTexts

PLAIN = "packet P = mid 0x0883 length 16; field V = P i8 at 12; "
RULE = 'rule R active fails 1 sequence 1 event info 1001 "" when '
# The texts of examples that are words for a text.
EXAMPLES = {
    "65,537 blanks": " " * 65_537,
    "a name of 33 letters": "N" * 33,
    "65 times `(`": RULE + "(" * 65,
    "a text of 32 letters": '"' + "t" * 32 + '"',
    "`V < -129` where V is an `i8`": PLAIN + RULE + "V < -129;",
    "`fails 0`": PLAIN + RULE.replace("fails 1", "fails 0") + "V < 0;",
    "177 comparisons in twelve rules": PLAIN.replace("i8", "u32be")
    + " ".join(
        RULE.replace("rule R", f"rule R{rule}") + " or ".join(f"V == {number}" for number in range(15 * rule, min(15 * rule + 15, 177))) + ";"
        for rule in range(12)
    ),
    "177 rules": PLAIN + " ".join(RULE.replace("rule R", f"rule R{rule}") + "V < 0;" for rule in range(177)),
    "`not (a and b and .. and p)` over sixteen comparisons": PLAIN
    + RULE
    + "not ("
    + " and ".join(f"V == {number}" for number in range(16))
    + ");",
    "nine entries": "slots 1\n" + "0 housekeeping\n" * 9,
    "a block that is repeated 0 times": "repeat 0 {\ntick\n}\n",
}
# The words that print an example, by the place that it comes from, and whether they print it on standard output.
CALLS = {
    "rule texts": (["check", "text"], True),
    "schedules": (["check", "--schedule", "text", "rules"], True),
    "scripts": (["scenario", "--script", "text", "--out", "stream"], False),
    "trials": (["try", "--script", "text", "--schedule", "schedule", "rules"], False),
}
# Errors of these places have examples.
LANGUAGES = tuple(CALLS)
HEAD = re.compile(r"^\S+: (error|warning)\[([\w-]+)\]: ", re.M)


def said_of(program, entry, text):
    """What the program prints of an example."""
    words, is_output = CALLS[entry.of]
    with tempfile.TemporaryDirectory(prefix="try-messages-") as folder:
        for name, content in (("text", text), ("rules", ""), ("schedule", "slots 1\n")):
            with open(os.path.join(folder, name), "w", encoding="utf-8", newline="") as file:
                file.write(content)
        ran = subprocess.run([program, *words], cwd=folder, capture_output=True, timeout=100)
    return (ran.stdout if is_output else ran.stderr).decode()


def faults_of_examples(program):
    """Each example gets its number or name, its place if it states one, and its sentence; each error of a language has an example."""
    entries = entries_of(ROOT)
    count = 0
    for entry in entries:
        for example in entry.examples:
            count += 1
            said = said_of(program, entry, EXAMPLES.get(example.text, example.text.strip("`")))
            place = r"(:\d+:\d+)?" if example.place is None else f":1:{example.place + 1}"
            if not re.match(rf"text{place}: {entry.kind}\[{entry.name}\]: {re.escape(example.prints)}\n", said):
                yield f"{entry.kind} {entry.name}: {example.text} gets {said.splitlines()[:1]}"
    bare = [it.name for it in entries if it.of in LANGUAGES and it.kind == "error" and it.name.isdigit() and not it.examples]
    if bare:
        yield f"no example of {', '.join(bare)}"
    print(f"{count} examples of errors and warnings")


def faults_of_names():
    """Each number and each name that a row prints is explained."""
    explained = {(it.kind, it.name) for it in entries_of(ROOT)}
    texts = (it for row in ExampleTexts().rows for it in (row.output, row.error) if isinstance(it, bytes))
    printed = {it for text in texts for it in HEAD.findall(text.decode(errors="replace"))}
    for kind, name in sorted(printed - explained):
        yield f"a row prints {kind}[{name}], which `check --explain` does not explain"
    print(f"{len(printed)} numbers and names in rows, all of them explained" if printed <= explained else f"{len(printed)} numbers and names in rows")
