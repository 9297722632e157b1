"""Whether the data of a page obeys crates/run_page/page/DATA.md, as far as it says so of itself."""

import json
import re

from page_bounds import MOST, MOST_BYTES, RECORDS, REST, most_bytes

RESULT_BITS = {1, 2, 4, 8, 16, 32}
STATE_BITS = {0, 1, 2, 4, 8}
MEMBERS = {
    "object": "format program ended window files figures start end ordered epoch texts fields lanes account samples sampling tables mode requests requests_left_out events "
    "events_left_out commands commands_left_out",
    "ended": "status says whole",
    "window": "from until records packets",
    "file": "role name bytes sha256",
    "figures": "records telemetry commands ticks files packets requests housekeeping critical error info debug other",
    "rule": "name state fails sequence level event says report condition comparisons tree",
    "field": "name packet mid type at mask stale packets last values",
    "request": "packet record time rule text sequence count event held counted one_of samples around",
    "sampling": "due sampled gaps",
}


class Data:
    def __init__(self, text):
        self.text, self.faults = text, []
        self.run = json.loads(text)
        self.records = self.run["figures"]["records"]
        window = self.run["window"] or {"records": 0}
        self.first = window["records"] + 1
        self.last = window["records"] + self.records

    def expect(self, so, what):
        if not so and len(self.faults) < 20:
            self.faults.append(f"data: {what}")

    def members(self, kind, each):
        self.expect(list(each) == MEMBERS[kind].split(), f"members of {kind}: {' '.join(each)}")

    def whole(self):
        run = self.run
        self.members("object", run)
        self.expect(run["format"] == 3, f"format {run['format']}")
        self.members("ended", run["ended"])
        if run["window"] is not None:
            self.window(run["window"])
        self.members("figures", run["figures"])
        self.expect("<" not in self.text, "a < that isn't escaped")
        self.expect(": " not in re.sub(r'"(\\.|[^"\\])*"', "", self.text), "blanks between tokens")
        figures = run["figures"]
        self.expect(figures["records"] == sum(figures[kind] for kind in ["telemetry", "commands", "ticks", "files"]), "records by kind")
        kinds = ["requests", "housekeeping", "critical", "error", "info", "debug", "other"]
        self.expect(figures["packets"] == sum(figures[kind] for kind in kinds), "packets by kind")
        for file in run["files"]:
            self.members("file", file)
            self.expect(re.fullmatch("[0-9a-f]{64}", file["sha256"]), f"SHA-256 of {file['name']}")
        roles = [file["role"] for file in run["files"]]
        self.expect(roles == ["rules"] * len(run["texts"]) + ["schedule", "stream"], f"files are {roles}")
        self.expect(len(run["lanes"]) == max((len(text["rules"]) for text in run["texts"]), default=0), "the number of lanes")

    def window(self, window):
        """Its times are of what was asked for, its counts of what came before the page."""
        self.members("window", window)
        since, until = window["from"], window["until"]
        self.expect(since is None and window["records"] == window["packets"] == 0 or since is not None, "a window without a start leaves out records")
        start, end = self.run["start"], self.run["start"] + self.run["end"]
        if self.records and self.run["ordered"]:
            self.expect(since is None or since <= start, "the page's first record is before its window")
            self.expect(until is None or end < until, "the page's last record is after its window")

    def rules(self):
        for text in self.run["texts"]:
            for rule in text["rules"]:
                self.members("rule", rule)
                self.expect(self.is_tree(rule), f"the tree of {rule['name']}")

    def is_tree(self, rule):
        """Each comparison once, in order, and as many operands as the words take."""
        wanted = 1
        for item in rule["tree"]:
            wanted += {"and": 1, "or": 1, "xor": 1, "not": 0}.get(item, -1)
            if wanted < 0:
                return False
        numbers = [item for item in rule["tree"] if isinstance(item, int)]
        return wanted == 0 and numbers == list(range(len(rule["comparisons"])))

    def places(self, entries, what):
        """Records ascend, or stay where several things happen at one, and times with them."""
        before = (self.first, 0)
        for record, time in ((entry[0], entry[1]) for entry in entries):
            self.expect(before[0] <= record <= self.last, f"{what}: record {record} behind {before[0]}")
            self.expect(time >= before[1] or not self.run["ordered"], f"{what}: time {time} behind {before[1]}")
            self.expect(time <= self.run["end"] or not self.run["ordered"], f"{what}: time {time} behind the end")
            before = (record, time)

    def lanes(self):
        for number, lane in enumerate(self.run["lanes"]):
            what = f"lane {number}"
            self.places(lane, what)
            self.expect(not self.records or lane[:1] and lane[0][0] == self.first, f"{what} doesn't begin at the first record")
            for entry, after in zip(lane, lane[1:] + [None]):
                if len(entry) == 4:
                    self.expect(entry[2] in RESULT_BITS and entry[3] in STATE_BITS, f"{what}: {entry}")
                    self.expect(after is None or after[2:] != entry[2:], f"{what}: two alike at record {entry[0]}")
                else:
                    self.expect(len(entry) == 5 and entry[4] >= 2 and after is not None, f"{what}: {entry}")

    def sampling(self):
        self.expect(len(self.run["sampling"]) == len(self.run["lanes"]), "the lanes of samples")
        for number, lane in enumerate(self.run["sampling"]):
            what = f"samples of lane {number}"
            self.members("sampling", lane)
            self.expect(lane["sampled"] <= self.run["samples"] <= self.records, f"{what}: more than there are")
            self.expect(lane["due"] or not lane["gaps"], f"{what}: gaps that are not due")
            ends = [self.first] + [gap[2] for gap in lane["gaps"]]
            for gap, end in zip(lane["gaps"], ends):
                self.expect(end <= gap[0] <= gap[2] <= self.last + 1 and gap[4] >= 1, f"{what}: {gap}")

    def fields(self):
        for field in self.run["fields"]:
            what = f"field {field['name']}"
            self.members("field", field)
            self.places(field["values"], what)
            self.expect((field["last"] is None) == (field["packets"] == 0) == (not field["values"]), f"{what}: its last packet")
            for entry, after in zip(field["values"], field["values"][1:] + [None]):
                if len(entry) == 3:
                    self.expect(after is None or len(after) > 3 or after[2] != entry[2], f"{what}: two alike at record {entry[0]}")
                else:
                    self.expect(len(entry) == 5 and entry[4] >= 2 and after is not None, f"{what}: {entry}")
                    self.expect(entry[2] is None or entry[2] <= entry[3], f"{what}: {entry}")

    def bands(self):
        for name, words in [("tables", "none started adopted untold"), ("mode", "absent active passive disabled untold")]:
            band = self.run[name]
            self.places(band, name)
            self.expect(len(band) <= MOST["bands"], f"{name} has {len(band)} entries")
            self.expect(bool(band) == bool(self.records) and (not band or band[0][0] == self.first), f"{name} doesn't begin at the first record")
            self.expect(all(entry[-1] in words.split() for entry in band), f"{name} has another word")
            self.expect(all(entry[-1] != "untold" for entry in band[:-1]), f"{name}: untold isn't the last")

    def is_watching(self, record):
        """Whether LC took packets and samples at a record, as far as the page says its mode there."""
        modes = [mode for since, _, mode in self.run["mode"] if since <= record]
        return not modes or modes[-1] in ["active", "passive", "untold"]

    def sent(self):
        run = self.run
        parts = 0
        for request in run["requests"]:
            self.members("request", request)
            may_be_held = request["event"] is None and request["rule"] is not None and request["text"] is not None
            self.expect(request["rule"] is None or not request["one_of"], f"packet {request['packet']} has a rule, and others that may have requested it")
            self.expect(sum(len(values) for _, values in request["around"]) <= MOST["around"], f"values around packet {request['packet']}")
            self.expect(request["held"] in (["type", "filter"] if may_be_held else [None]), f"packet {request['packet']} held {request['held']}")
            known = request["text"] is not None and request["rule"] is not None
            rule = run["texts"][request["text"]]["rules"][request["rule"]] if known else None
            for record, _, met in request["samples"]:
                parts += len(met)
                self.expect(record <= request["record"] and len(met) == len(rule["comparisons"]), f"samples of packet {request['packet']}")
                taken = [record, *(came for _, came, _, _ in met if came is not None)]
                self.expect(all(map(self.is_watching, taken)), f"a sample of packet {request['packet']} while LC took nothing")
            self.expect(len(request["samples"]) <= min(6, request["counted"] or 6), f"packet {request['packet']} has {len(request['samples'])} samples")
        self.expect(parts <= MOST["parts"], f"{parts} parts")
        self.places([[each["record"], each["time"]] for each in run["requests"]], "requests")
        self.places([event[1:3] for event in run["events"]], "events")
        self.places(run["commands"], "commands")
        self.expect(all(len(entry) == 3 and entry[2] for entry in run["commands"]), "a command without words")
        packets = [each["packet"] for each in run["requests"]] + [event[0] for event in run["events"]]
        self.expect(len(packets) == len(set(packets)), "two with one packet")
        events = sum(run["figures"][level] for level in ["critical", "error", "info", "debug"])
        commands = run["figures"]["commands"] + run["figures"]["files"]
        bounds = [("requests", run["figures"]["requests"], MOST["requests"]), ("events", events, MOST["events"]), ("commands", commands, MOST["commands"])]
        for name, all_, most in bounds:
            left = run[f"{name}_left_out"]
            self.expect(len(run[name]) <= most, f"{len(run[name])} {name}")
            self.expect(len(run[name]) + (left[0] if left else 0) == all_, f"{name} and those left out aren't all")

    def size(self):
        """No list has more entries, and none has more bytes, than the longest page of so many records."""
        run = self.run
        lists = run["lanes"] + [field["values"] for field in run["fields"]]
        entries = sum(map(len, lists))
        self.expect(entries <= max(MOST["entries"], 2 * len(lists)), f"{entries} entries")
        if self.records > RECORDS or len(run["texts"]) > 1:
            return
        most = most_bytes()
        self.expect(sum(len(lane["gaps"]) for lane in run["sampling"]) <= max(MOST["gaps"], 2 * len(run["lanes"])), "too many gaps")
        parts = {"entries": lists, "bands": [run["tables"], run["mode"]], **{name: run[name] for name in ["requests", "events", "commands"]}}
        for name, part in parts.items():
            size = len(json.dumps(part, separators=(",", ":")).replace("<", "\\u003c"))
            self.expect(size <= most[name] + REST, f"{size:,} bytes of {name}, at most {most[name]:,} are allowed")
        size = len(self.text) + most["script"]
        self.expect(size <= MOST_BYTES, f"a page of {size:,} bytes")


def faults_of(text):
    data = Data(text)
    for look in [data.whole, data.rules, data.lanes, data.sampling, data.fields, data.bands, data.sent, data.size]:
        look()
    return data.faults
