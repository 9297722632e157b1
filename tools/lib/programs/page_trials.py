"""What pages of runs say: a script makes a stream, `report` makes its page, and members of the page's data are compared."""

import json
import os
import subprocess
import tempfile

import longest_page
from records import NO_ENTRIES
from trial import SECONDS, Trial, written

CALLS = ["flight_tools report", "flight_tools scenario"]
RULES = {
    "rules": b"packet P = mid 0x0883 length 16; field V = P u16be at 12 stale 2; "
    b'rule LOW active fails 2 sequence 7 event error 1001 "low volts" when V < 2400;',
    "other": b"packet P = mid 0x0883 length 16; field V = P u16be at 12 stale 2; "
    b'rule LOW active fails 2 sequence 8 event error 1001 "low volts" when V < 2000;',
    "debug": b"packet P = mid 0x0883 length 16; field V = P u16be at 12 stale 2; "
    b'rule LOW active fails 2 sequence 7 event debug 1001 "low volts" when V < 2400;',
}
# The statuses of a page that is made: 6 where no rule was sampled.
MADE = (0, 6)
START = "at 100 0\nwdt 0 /cf/lc_def_wdt.tbl\nadt 0 /cf/lc_def_adt.tbl\nstart LC\n"
ADOPTION = (
    "load {0}_wdt.tbl\nload {0}_adt.tbl\nvalidate LC.LC_WDT\nvalidate LC.LC_ADT\nhousekeeping\n"
    "activate LC.LC_WDT\nactivate LC.LC_ADT\nhousekeeping\nafter 1\n"
)
PASS = "fields 0883 0 16 u16be 12 2400\nsample 65535 65535 keep\nafter 1\n"
FAILURE = "fields 0883 0 16 u16be 12 1999\nsample 65535 65535 keep\nafter 1\n"


def page_data(place, tool, script, texts, options=()):
    """The data of the page of a script's stream with these texts."""
    written(place, {**RULES, "script": script.encode(), "schedule": NO_ENTRIES})
    subprocess.run([tool, *"scenario --script script --out stream rules".split()], cwd=place, check=True, capture_output=True, timeout=SECONDS)
    words = [tool, "report", *options, *"--schedule schedule --stream stream --out page".split(), *texts]
    ran = subprocess.run(words, cwd=place, capture_output=True, timeout=SECONDS)
    if ran.returncode not in MADE:
        raise subprocess.CalledProcessError(ran.returncode, words, ran.stdout, ran.stderr)
    with open(os.path.join(place, "page"), encoding="utf-8") as page:
        return json.loads(page.read().split('<script type="application/json" id="run">', 1)[1].split("</script>", 1)[0])


def shown(script, texts, expected, options=()):
    """Members of the data, each with what is expected of it: a value, or a function of the value."""

    def faults(programs):
        with tempfile.TemporaryDirectory(prefix="try-programs-") as place:
            data = page_data(place, programs["flight_tools"], script, texts, options)
        found = {name: value(data[name]) if callable(value) else data[name] for name, (value, _) in expected.items()}
        return [f"{name} is {found[name]} and should be {wanted}" for name, (_, wanted) in expected.items() if found[name] != wanted]

    return faults


def whole(wanted):
    return None, wanted


def contents_of(page):
    """What a page says of its records, with times since second 0."""

    def since(entry, *places):
        return [what + page["start"] if number in places and what is not None else what for number, what in enumerate(entry)]

    def samples(request):
        return [[*since(sample[:2], 1), [since(met, 2) for met in sample[2]]] for sample in request["samples"]]

    lists = [*page["lanes"], *(field["values"] for field in page["fields"]), page["tables"], page["mode"]]
    return {
        "figures": list(page["figures"].values()) + [field["packets"] for field in page["fields"]],
        "changes": [[since(entry, 1) for entry in each] for each in lists],
        "items": [
            *({**each, "time": each["time"] + page["start"], "samples": samples(each)} for each in page["requests"]),
            *(since(event, 2) for event in page["events"]),
            *(since(command, 1) for command in page["commands"]),
        ],
    }


def without_repetitions(entries):
    """Changes, without those that say what the one before says: a part begins with what holds there."""
    return [entry for number, entry in enumerate(entries) if not number or entry[2:] != entries[number - 1][2:]]


def parts_add_up(script, texts, seconds):
    """The pages of the parts between these seconds say, one behind the other, what the page of the whole run says."""
    options = [[], ["--until", seconds[0]], *(["--from", one, "--until", two] for one, two in zip(seconds, seconds[1:])), ["--from", seconds[-1]]]

    def faults(programs):
        with tempfile.TemporaryDirectory(prefix="try-programs-") as place:
            pages = [page_data(place, programs["flight_tools"], script, texts, words) for words in options]
        whole, *parts = map(contents_of, pages)
        before = [[sum(page["figures"][name] for page in pages[1 : number + 1]) for name in ("records", "packets")] for number in range(len(parts))]
        compared = {
            "figures": ([sum(each) for each in zip(*(part["figures"] for part in parts))], whole["figures"]),
            "changes": ([without_repetitions(sum(each, [])) for each in zip(*(part["changes"] for part in parts))], whole["changes"]),
            "items": (sorted(sum((part["items"] for part in parts), []), key=str), sorted(whole["items"], key=str)),
            "what is before": ([[page["window"][name] for name in ("records", "packets")] for page in pages[1:]], before),
        }
        return [f"{name} of the parts are {found} and should be {wanted}" for name, (found, wanted) in compared.items() if found != wanted]

    return faults


def those(members, wanted):
    """These members of each request."""
    return lambda requests: [[request[name] for name in members.split()] for request in requests], wanted


BACK_IN_TIME = START + "at 102 0\ntick\nat 99 0\ntick\nat 104 0\ntick\nat 101 0\ntick\n"
ADOPTED_BACK = START + "filter LC 2 65535\nwdt 1 /cf/b_wdt.tbl\nadt 1 /cf/b_adt.tbl\n" + ADOPTION.format("/cf/b") + ADOPTION.format("/cf/lc_def")
MANY_TURNS = ADOPTED_BACK + 3 * FAILURE + 2 * PASS + "stop LC\nafter 1\nstart LC\n" + 2 * FAILURE
WHY = "record rule text sequence event held counted"

TRIALS = [
    Trial(
        "a page has the text in force where its event is filtered",
        shown(
            ADOPTED_BACK + 2 * FAILURE,
            ["rules", "other"],
            {
                "format": whole(3),
                "window": whole(None),
                "tables": whole([[1, 0, None, "none"], [3, 0, 0, "started"], [14, 0, 1, "adopted"], [22, 65536, 0, "adopted"]]),
                "requests": those(WHY, [[26, 0, 0, 7, 30, None, 2]]),
            },
        ),
    ),
    Trial(
        "an adoption of the same tables isn't seen where its event is filtered",
        shown(
            ADOPTED_BACK + 2 * FAILURE,
            ["other", "other"],
            {"tables": whole([[1, 0, None, "none"], [3, 0, 0, "started"], [14, 0, 0, "adopted"]])},
        ),
    ),
    Trial(
        "events of a rule's type are off",
        shown(START + 2 * FAILURE, ["debug"], {"requests": those(WHY, [[7, 0, 0, 7, None, "type", 2]])}),
    ),
    Trial(
        "a filter holds the event of a second request back",
        shown(
            START + "filter LC 1001 65535\n" + 2 * FAILURE + "state LOW active\n" + FAILURE,
            ["rules"],
            {"requests": those(WHY, [[8, 0, 0, 7, 7, None, 2], [11, 0, 0, 7, None, "filter", 3]])},
        ),
    ),
    Trial(
        "no tables are in force while no Limit Checker runs",
        shown(
            START + "after 1\nstop LC\nafter 1\nstart LC\n",
            ["rules"],
            {
                "tables": whole([[1, 0, None, "none"], [3, 0, 0, "started"], [4, 65536, None, "none"], [5, 131072, 0, "started"]]),
                "mode": whole([[1, 0, "absent"], [3, 0, "active"], [4, 65536, "absent"], [5, 131072, "active"]]),
            },
        ),
    ),
    Trial(
        "a part begins and ends at the first record of its times, also where times go back",
        shown(
            BACK_IN_TIME,
            ["rules"],
            {
                "window": whole({"from": 6619136, "until": 6750208, "records": 3, "packets": 4}),
                "figures": (lambda figures: figures["records"], 2),
                "ordered": whole(False),
                "start": whole(6684672),
                "end": whole(-196608),
                "tables": whole([[4, 0, 0, "started"]]),
            },
            ["--from", "101", "--until", "103"],
        ),
    ),
    Trial(
        "no comparison meets a value that comes while LC is disabled",
        shown(
            START + FAILURE + "mode disabled\nfields 0883 0 16 u16be 12 2500\nmode active\nsample 65535 65535 keep\n",
            ["rules"],
            {
                "fields": (
                    lambda fields: [[field["packets"], field["last"], field["values"]] for field in fields],
                    [[2, [7, 65536], [[4, 0, 1999], [7, 65536, 2500]]]],
                ),
                "requests": those("record counted samples", [[9, 2, [[5, 0, [[1999, 4, 0, "true"]]], [9, 65536, [[1999, 4, 0, "true"]]]]]]),
            },
        ),
    ),
    Trial("parts of a run add up to it", parts_add_up(MANY_TURNS, ["rules", "other"], ["101", "103", "104.5", "106"])),
    Trial("the longest page", longest_page.longest_page, is_slow=True),
    *(
        Trial(f"a page {title}", shown(START + 3 * FAILURE, ["rules"], expected, options))
        for title, options, expected in (
            (
                "of a part",
                ["--from", "101", "--until", "102.00000"],
                {
                    "window": whole({"from": 6619136, "until": 6684672, "records": 5, "packets": 4}),
                    "start": whole(6619136),
                    "end": whole(0),
                    "figures": (lambda figures: [figures[name] for name in ("records", "packets", "requests")], [2, 2, 1]),
                    "tables": whole([[6, 0, 0, "started"]]),
                    "mode": whole([[6, 0, "active"]]),
                    "fields": (lambda fields: [[field["packets"], field["last"], field["values"]] for field in fields], [[1, [6, 0], [[6, 0, 1999]]]]),
                    "requests": those(
                        WHY + " samples", [[7, 0, 0, 7, 6, None, 2, [[5, -65536, [[1999, 4, -65536, "true"]]], [7, 0, [[1999, 6, 0, "true"]]]]]]
                    ),
                    "commands": (lambda commands: [command[:2] for command in commands], [[7, 0]]),
                },
            ),
            (
                "from a second on",
                ["--from", "101.5"],
                {"window": whole({"from": 6651904, "until": None, "records": 7, "packets": 6}), "requests": whole([])},
            ),
            (
                "up to a second",
                ["--until", "101"],
                {
                    "window": whole({"from": None, "until": 6619136, "records": 0, "packets": 0}),
                    "start": whole(6553600),
                    "figures": (lambda figures: [figures[name] for name in ("records", "packets", "requests")], [5, 4, 0]),
                },
            ),
            (
                "of no record",
                ["--from", "103"],
                {
                    "window": whole({"from": 6750208, "until": None, "records": 9, "packets": 6}),
                    "figures": (lambda figures: [figures[name] for name in ("records", "packets", "requests")], [0, 0, 0]),
                    "end": whole(0),
                    "tables": whole([]),
                    "mode": whole([]),
                    "lanes": whole([[]]),
                },
            ),
        )
    ),
]
