"""A run that is made up, as the page's data (crates/run_page/page/DATA.md).

No Limit Checker: it samples, ages, counts failures, requests and reports as far as a page's look needs it, so that its numbers go together.
"""

import hashlib

from conditions import Condition, compared
from kept import Changes, Ends, Pool, joined_bits, joined_values
from page_bounds import MOST

TICK = 65_536
RESULT = {"absent": 1, "none": 2, "pass": 4, "stale": 8, "error": 16, "fail": 32}
STATE = {None: 0, "active": 1, "passive": 2, "disabled": 4, "off": 8}


class Rule:
    def __init__(self, name, condition, fails=1, sequence=1, event=1001, state="active", level="error", says="", report=(1, 4, 4)):
        self.name, self.fails, self.sequence, self.event = name, fails, sequence, event
        self.state, self.level, self.says, self.report = state, level, says, list(report)
        self.condition = Condition(condition)


class Standing:
    """How a rule of the tables in force stands."""

    def __init__(self, rule):
        self.state, self.result, self.row, self.samples = rule.state, "none", 0, []
        self.told = {"fail": 0, "pass": 0}


class Course:
    """`off` and `filtered` are levels of events that are off for LC, and numbers of events that a filter holds back. `window` is a pair of
    seconds, None where the page begins with the run or goes on to its end."""

    def __init__(self, fields, texts, start, epoch=None, off=(), filtered=(), window=None):
        self.fields, self.texts, self.epoch, self.off, self.filtered = fields, texts, epoch, off, filtered
        self.window, self.before, self.how, self.begins_later = window, [0, 0], "none", window is not None and window[0] is not None
        self.time = self.first = round(start * TICK)
        self.used = list(dict.fromkeys(field for rules in texts for rule in rules for field, _, _ in rule.condition.comparisons))
        self.rules = max((len(rules) for rules in texts), default=0)
        self.met = {}  # field: record, time, value, agings, of the last packet that LC took since the tables are in force
        self.text, self.standings, self.mode = None, [], "absent"
        self.count, self.written_packets = 0, 0  # of the whole run
        self.counts, self.ordered = 0, True
        self.begin()

    def begin(self):
        """The page's lists, empty."""
        self.figures = dict.fromkeys(
            "records telemetry commands ticks files packets requests housekeeping critical error info debug other".split(), 0
        )
        pool = Pool(MOST["entries"])
        self.lanes = [Changes(pool, joined_bits) for _ in range(self.rules)]
        self.values = {name: Changes(pool, joined_values) for name in self.used}
        self.seen = dict.fromkeys(self.used, 0)
        self.came = {}  # field: record, time, of its last packet on the page that the host accepted
        self.tables, self.modes = [], []
        self.requests, self.events, self.commands = Ends(MOST["requests"]), Ends(MOST["events"]), Ends(MOST["commands"])
        self.parts, self.full = 0, False
        self.samples, self.sampled = 0, [0] * self.rules

    def begin_window(self):
        """The page begins here: what came before is forgotten, and times count from this record."""
        self.begin()
        self.begins_later = False
        self.before = [self.count, self.written_packets]
        moved, self.first = self.time - self.first, self.time
        for met in self.met.values():
            met[1] -= moved
        for sample in (sample for standing in self.standings for sample in standing.samples):
            sample[1] -= moved
            for part in (part for part in sample[2] if part[2] is not None):
                part[2] -= moved

    # What comes.

    @property
    def is_over(self):
        """Whether what comes now is after the page's window."""
        return self.window is not None and self.window[1] is not None and self.time >= self.window[1] * TICK

    def after(self, seconds):
        self.time += round(seconds * TICK)
        self.ordered = self.ordered and seconds >= 0

    def record(self, kind, says=None):
        """A record of this kind; `says` is what a command, a file or a half says."""
        self.last = self.time
        if self.count == 0:
            self.first = self.time
        if self.begins_later and self.time >= self.window[0] * TICK:
            self.begin_window()
        self.count += 1
        self.figures["records"] += 1
        self.figures[kind] += 1
        if self.figures["records"] == 1:
            self.tables.append([self.count, 0, self.text, self.how])
            self.modes.append([self.count, 0, self.mode])
        if says is not None:
            self.commands.add([*self.here, says], self.count)
        self.keep()
        return self.count

    @property
    def here(self):
        return self.count, self.time - self.first

    @property
    def is_watching(self):
        """Whether LC takes packets, samples and ages."""
        return self.mode in ["active", "passive"]

    def telemetry(self, packet, **values):
        """A packet with these fields; None stands for one that it doesn't reach."""
        self.record("telemetry")
        for name in self.used:
            if self.fields[name]["packet"] == packet:
                value = values.get(name)
                self.seen[name] += 1
                self.came[name] = self.here
                self.values[name].add(*self.here, (value,))
                if self.is_watching:
                    self.met[name] = [*self.here, value, 0]

    def faulty(self, reason):
        """A packet that the host refuses for this reason, whatever its fields are."""
        self.record("telemetry")
        self.event("HOST", 1, "error", f"bad packet {reason}")

    def tick(self, housekeeping=False):
        self.record("ticks")
        if self.is_watching:
            self.samples += bool(self.standings)
            for number, standing in enumerate(self.standings):
                self.sample(number, standing)
            for met in self.met.values():
                met[3] += 1
        if housekeeping:
            self.packet("housekeeping")
        self.keep()

    def packet(self, kind):
        self.written_packets += 1
        self.figures["packets"] += 1
        self.figures[kind] += 1
        return self.written_packets

    def started(self, text):
        self.record("files", f"half wdt {text} /cf/lc_def_wdt.tbl")
        self.record("commands", "start LC")
        self.mode = "active"
        self.band(self.modes, ["active"])
        self.put_in_force(text, "started")
        self.event("LC", 1, "info", "started with tables")

    def adopted(self, text):
        self.record("files", "file /cf/w.tbl 1316 bytes" if text is None else f"half wdt {text} /cf/w.tbl")
        self.record("commands", "housekeeping")
        self.put_in_force(text, "adopted")
        self.event("LC", 2, "info", "tables adopted")

    def command(self, what, *values):
        """A command that sets the mode, or the state of a rule."""
        named = values if what == "mode" else (self.texts[self.text][values[0]].name, *values[1:])
        self.record("commands", " ".join((what, *named)))
        if what == "mode":
            self.mode = values[0]
            self.band(self.modes, [self.mode])
        else:
            self.standings[values[0]].state = values[1]
        self.event("LC", 9, "debug" if what == "mode" else "info", f"{what} set: {', '.join(map(str, values))}")
        self.keep()

    # What it leads to.

    def put_in_force(self, text, how):
        self.text, self.how, self.met = text, how, {}
        self.standings = [Standing(rule) for rule in ([] if text is None else self.texts[text])]
        self.band(self.tables, [text, how])
        self.keep()

    def band(self, entries, what):
        if len(entries) < MOST["bands"] - 1:
            entries.append([*self.here, *what])
        elif len(entries) == MOST["bands"] - 1:
            entries.append([*self.here, *([None, "untold"] if entries is self.tables else ["untold"])])

    def keep(self):
        for number, lane in enumerate(self.lanes):
            if number < len(self.standings):
                standing = self.standings[number]
                lane.add(*self.here, (RESULT[standing.result], STATE[standing.state]))
            else:
                lane.add(*self.here, (RESULT["absent"], 0))

    def sample(self, number, standing):
        if standing.state in ["disabled", "off"]:
            return
        rule = self.texts[self.text][number]
        self.sampled[number] += 1
        met = [self.part(*comparison) for comparison in rule.condition.comparisons]
        parts = [part for part, _ in met]
        truth = rule.condition.truth([truth for _, truth in met])
        result = {"true": "fail", "false": "pass"}.get(truth, truth)
        turned = {result, standing.result} == {"fail", "pass"}
        standing.result = result
        if result != "fail":
            standing.row, standing.samples = 0, []
        else:
            standing.row += 1
            standing.samples.append([*self.here, parts])
            if len(standing.samples) > 6:
                del standing.samples[3]
        if turned and standing.told[result] < rule.report[1]:
            standing.told[result] += 1
            way = "pass to fail" if result == "fail" else "fail to pass"
            self.event("LC", 5 if result == "fail" else 6, "info", f"actionpoint {number} {way}", number)
        if result == "fail" and standing.row >= rule.fails and standing.state == "active" and self.mode == "active":
            self.request(number, rule, standing)

    def part(self, name, operator, number):
        """A comparison: the value that it met, its record and time, and what it makes of it; and its truth in the sample."""
        if name not in self.met:
            return [None, None, None, "stale"], "stale"
        record, time, value, agings = self.met[name]
        stale = self.fields[name]["stale"]
        verdict = "error" if value is None else compared(value, operator, number)
        return [value, record, time, verdict], "stale" if stale and agings >= stale else verdict

    def request(self, number, rule, standing):
        packet = self.packet("requests")
        lines = sum(len(sample[2]) for sample in standing.samples)
        self.full = self.full or self.parts + lines > MOST["parts"]
        self.parts += 0 if self.full else lines
        record, time = self.here
        held = "type" if rule.level in self.off else "filter" if rule.event in self.filtered else None
        request = {
            "packet": packet, "record": record, "time": time, "rule": number, "text": self.text,
            "sequence": rule.sequence, "count": self.counts, "event": None if held else packet + 1, "held": held, "counted": standing.row,
            "one_of": [], "samples": [] if self.full else [[*sample[:2], [list(part) for part in sample[2]]] for sample in standing.samples],
            "around": [],
        }  # fmt: skip
        self.requests.add(request, record)
        self.counts += 1
        standing.state = "passive"
        self.event("LC", rule.event, rule.level, f"{rule.says}: AP = {number}, FailCount = {standing.row}, RTS = {rule.sequence}", number)

    def event(self, sender, number, level, text, rule=None):
        if sender == "LC" and (level in self.off or number in self.filtered):
            return
        self.events.add([self.packet(level), *self.here, rule, sender, number, level, text], self.here[0])

    # What is written.

    def data(self, status=0, says=None, whole=True):
        names = {name: place for place, name in enumerate(self.used)}
        return {
            "format": 3, "program": "flight_tools 0.10.0",
            "ended": {"status": status, "says": says or f"records {self.count}", "whole": whole},
            "window": self.window_of(),
            "files": [file_of("rules", f"rules_{text}.txt") for text in range(len(self.texts))]
            + [file_of("schedule", "schedule.txt"), file_of("stream", "out/run.stream")],
            "figures": self.figures, "start": self.first if self.figures["records"] else 0,
            "end": self.last - self.first if self.figures["records"] else 0, "ordered": self.ordered, "epoch": self.epoch,
            "texts": [{"rules": [rule_of(rule, names) for rule in rules]} for rules in self.texts],
            "fields": [self.field_of(name) for name in self.used],
            "lanes": [lane.written() for lane in self.lanes], **self.looked_at(), "tables": self.tables, "mode": self.modes,
            "requests": self.requests.items(), "requests_left_out": self.requests.left_out(),
            "events": self.events.items(), "events_left_out": self.events.left_out(),
            "commands": self.commands.items(), "commands_left_out": self.commands.left_out(),
        }  # fmt: skip

    def looked_at(self):
        """What the run looked at; its gaps are left out."""
        rules = [
            {"text": text, "rule": number, "name": rule.name, "sampled": self.sampled[number], "passed": 0, "failed": 0, "stale": 0, "errors": 0, "unsampled": 0}
            for text, rules in enumerate(self.texts) for number, rule in enumerate(rules)
        ]  # fmt: skip
        account = {"records": self.count, "samples": self.samples, "ungiven": 0, "steps_back": 0, "packets": [], "rules": rules}
        lanes = [{"due": True, "sampled": sampled, "gaps": []} for sampled in self.sampled]
        return {"account": account, "samples": self.samples, "sampling": lanes}

    def window_of(self):
        if self.window is None:
            return None
        since, until = (None if second is None else round(second * TICK) for second in self.window)
        return {"from": since, "until": until, "records": self.before[0], "packets": self.before[1]}

    def field_of(self, name):
        field = self.fields[name]
        last = self.came.get(name)
        return {
            "name": name, "packet": field["packet"], "mid": field["mid"], "type": field["type"], "at": field["at"], "mask": field.get("mask"),
            "stale": field["stale"], "packets": self.seen[name], "last": list(last) if last else None, "values": self.values[name].written(),
        }  # fmt: skip


def file_of(role, name):
    return {"role": role, "name": name, "bytes": 100 * len(name), "sha256": hashlib.sha256(name.encode()).hexdigest()}


def rule_of(rule, names):
    return {
        "name": rule.name, "state": rule.state, "fails": rule.fails, "sequence": rule.sequence, "level": rule.level, "event": rule.event,
        "says": rule.says, "report": rule.report, "condition": rule.condition.text,
        "comparisons": [[names[field], operator, number] for field, operator, number in rule.condition.comparisons], "tree": rule.condition.tree,
    }  # fmt: skip
