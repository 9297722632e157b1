"""Sees that each edit still applies: its texts stand where it says, once, and it names the clause that must refuse it.

    tools/dev/bugs apply

The gate runs it; it takes seconds. It also sees that the edits that the gate tries are few: none in programs, tools and crates of tests,
and at most five in another crate."""
from edits import Bad, edits_of
from repository import ROOT, crates_of

# The crates whose edits the gate does not try by itself: programs, tools, and what only tests.
UNTRIED = ("flight_run", "flight_tools", "packet_listing", "table_listing", "stream_script", "run_page")
UNTRIED_ENDS = ("_tests", "_rows", "_commands", "_examples")
MOST_OF_GATE = 5


def add_words(_):
    """It takes no words."""


def faults_of_edit(edit):
    """What is wrong with an edit."""

    def text_of(file):
        with open(f"{ROOT}/crates/{edit.crate}/{file}", encoding="utf-8") as it:
            return it.read()

    try:
        edit.applied(text_of)
        if not edit.refused_by or not edit.refused_by[1]:
            yield f"{edit.place()}: it has no line 'refused-by: FUNCTION CLAUSE'"
    except (Bad, OSError) as error:
        yield f"{edit.place()}: {error}"


def run(_):
    faults, count, of_gate = [], 0, 0
    for crate in crates_of():
        try:
            edits = edits_of(crate)
        except Bad as error:
            faults += str(error).split("\n")
            continue
        faults += [fault for it in edits for fault in faults_of_edit(it)]
        own = sum(it.is_tried_by_gate for it in edits)
        most = 0 if crate in UNTRIED or crate.endswith(UNTRIED_ENDS) else MOST_OF_GATE
        if own > most:
            faults.append(f"crates/{crate}/edits.txt: {own} edits are tried by the gate, where {most} may be")
        count, of_gate = count + len(edits), of_gate + own
    for fault in faults:
        print(fault)
    print(f"edits: {count} apply, {of_gate} of them tried by the gate" if not faults else f"edits: {len(faults)} faults")
    return 1 if faults or not count else 0
