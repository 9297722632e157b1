"""What a page has to say of a run of the model, written from crates/run_page/page/DATA.md alone. It shares no code with the page."""

import hashlib
import os
import sys

sys.path.insert(0, os.path.join(os.path.dirname(os.path.abspath(__file__)), "page_looks"))

from kept import Changes, Ends, Pool, joined_bits, joined_values
from page_bounds import MOST
from page_model_account import TICK, Looking, is_accepted
from page_model_texts import OPERATORS, comparisons, fields_compared, texts_of_page

RESULT_BITS = {None: 2, "pass": 4, "stale": 8, "error": 16, "fail": 32}
STATE_BITS = {"active": 1, "passive": 2, "disabled": 4, "off": 8}
FIGURES = "records telemetry commands ticks files packets requests housekeeping critical error info debug other".split()
AROUND = 4
MAY = 8


def is_command(packet):
    return len(packet) >= 8 and packet[0] >> 4 & 1 == 1


def kind_of(standing):
    kind = standing.bytes[0]
    if kind in (2, 3, 4):
        return {2: "ticks", 3: "files", 4: "files"}[kind]
    return "commands" if is_command(standing.bytes[11:]) else "telemetry"


class Page(Looking):
    def __init__(self, run):
        self.run, self.texts = run, run.texts
        self.fields = fields_compared(run.texts)
        self.rules = max((len(text.rules) for text in run.texts), default=0)
        self.window = run.window()
        self.phase = "before"
        self.first = self.begin_ticks = None
        self.before, self.packets, self.counts = 0, 0, 0
        self.mode, self.text, self.how, self.types = "absent", None, "none", frozenset()
        self.points = []
        self.met = {}
        self.rows = [[] for _ in range(self.rules)]
        self.fails = [0] * self.rules
        self.begin_to_look()
        self.late = [None] * self.rules
        self.truths = []  # for each request that the page has, the rule that made it
        self.begin_lists()
        for number, standing in enumerate(run.standings, 1):
            self.take(number, standing)
        if self.phase == "before" and self.window:
            self.leave(len(run.standings), 0)

    def begin_lists(self):
        self.figures = dict.fromkeys(FIGURES, 0)
        pool = Pool(MOST["entries"])
        self.lanes = [Changes(pool, joined_bits) for _ in range(self.rules)]
        self.values = [Changes(pool, joined_values) for _ in self.fields]
        self.seen, self.last = [0] * len(self.fields), [None] * len(self.fields)
        self.recent = [[] for _ in self.fields]
        self.tables, self.modes = [], []
        self.requests, self.events, self.commands = Ends(MOST["requests"]), Ends(MOST["events"]), Ends(MOST["commands"])
        self.parts, self.samples, self.sampled = 0, 0, [0] * self.rules
        self.gaps = [[] for _ in range(self.rules)]
        self.is_ordered, self.end = True, None
        self.is_anew = True

    # ---- the part

    def leave(self, records, ticks):
        self.begin_lists()
        self.before, self.packets_before, self.begin_ticks = records, self.packets, ticks

    def phase_at(self, ticks):
        low, high = (self.window[name] * TICK if name in self.window else None for name in ("from", "until"))
        is_over = high is not None and high <= ticks
        if self.phase == "before" and low is not None and ticks < low:
            return "before"
        return "after" if self.phase == "after" or is_over else "inside"

    def take(self, number, standing):
        self.look(number, standing)
        phase = self.phase_at(standing.ticks)
        if self.phase == "before" and phase != "before":
            self.leave(number - 1, 0 if phase == "after" else standing.ticks)
        self.phase = phase
        if phase != "after":
            self.show(number, standing)

    # ---- what the page has of a record

    def show(self, number, standing):
        if self.first is None:
            self.first = standing.ticks
        time = standing.ticks - self.first
        self.here = number, time
        if not self.is_anew and time < self.end:
            self.is_ordered = False
        self.take_gaps(standing)
        self.is_anew, self.end = False, time
        self.count(standing)
        self.bring(standing)
        self.take_samples(standing)
        self.write(standing)
        self.stand(standing)

    def take_gaps(self, standing):
        number, time = self.here
        before = self.here if self.is_anew else self.place
        if self.is_anew:
            self.late = [self.here if it else None for it in self.late]
        for rule in range(self.rules):
            if self.overdue[rule] and self.late[rule] is None:
                self.late[rule] = before[0], max(before[1], time - (self.passed - self.was_due[rule]))
        for rule in self.sampled_rules(standing):
            if rule < self.rules:
                self.end_gap(rule, self.here)
                self.sampled[rule] += 1
        if any(rule < self.rules for rule in self.sampled_rules(standing)):
            self.samples += 1
        self.place = self.here

    def end_gap(self, rule, place):
        if self.late[rule] is None:
            return
        gaps, gap = self.gaps[rule], [*self.late[rule], *place, 1]
        self.late[rule] = None
        if len(gaps) < max(2, MOST["gaps"] // max(1, self.rules)):
            gaps.append(gap)
        else:
            gaps[-1] = [*gaps[-1][:2], *gap[2:4], gaps[-1][4] + 1]

    def count(self, standing):
        kind = kind_of(standing)
        self.figures["records"] += 1
        self.figures[kind] += 1
        if kind in ("commands", "files"):
            self.commands.add([*self.here, standing.says], self.here[0])

    def bring(self, standing):
        packet = standing.bytes[11:]
        if standing.bytes[0] != 1 or is_command(packet) or not is_accepted(packet):
            return
        mid = int.from_bytes(packet[:2], "big")
        for place, field in enumerate(self.fields):
            if field.mid == mid:
                value = field.read(packet)
                self.seen[place] += 1
                self.last[place] = list(self.here)
                self.values[place].add(*self.here, (value,))
                if not self.recent[place] or self.recent[place][-1][2] != value:
                    self.recent[place] = [*self.recent[place], [*self.here, value]][-AROUND:]
                if self.mode in ("active", "passive"):
                    self.met[place] = (value, *self.here)

    def part(self, comparison):
        _, field, sign, number = comparison
        place = next(place for place, it in enumerate(self.fields) if it.key == field.key)
        if place not in self.met:
            return [None, None, None, "stale"]
        value, record, time = self.met[place]
        return [value, record, time, "error" if value is None else "true" if OPERATORS[sign](value, number) else "false"]

    def take_samples(self, standing):
        """The failed samples in a row of each rule, at the records that brought them."""
        self.ended = []
        for rule in range(self.rules):
            state, last, fails = standing.points[rule] if rule < len(standing.points) else (None, None, 0)
            was = self.points[rule][0] if rule < len(self.points) else None
            has_turned = (was, state) == ("active", "passive") and kind_of(standing) != "commands" or self.has_asked(standing, rule)
            if fails != self.fails[rule] or has_turned and fails <= self.fails[rule]:
                if fails and (fails < self.fails[rule] or fails == 1) and not (has_turned and fails <= self.fails[rule]):
                    self.rows[rule] = []
                if fails > self.fails[rule] or has_turned or fails:
                    parts = self.parts_of(rule)
                    self.rows[rule] = [*self.rows[rule], [*self.here, parts]]
                    if len(self.rows[rule]) > 6:
                        del self.rows[rule][3]
                if fails == 0 or has_turned and fails <= self.fails[rule]:
                    self.ended.append(rule)
            self.fails[rule] = fails

    def has_asked(self, standing, rule):
        return any(it[0] == "request" and it[2] == rule for it in standing.packets)

    def parts_of(self, rule):
        text = self.text
        if text is None or rule >= len(self.texts[text].rules):
            return []
        return [self.part(it) for it in comparisons(self.texts[text].rules[rule].condition)]

    def write(self, standing):
        self.types = standing.types
        packets = standing.packets
        asks = [place for place, it in enumerate(packets) if it[0] == "request"]
        for place, it in enumerate(packets):
            self.packets += 1
            self.figures["packets"] += 1
            if it[0] == "request":
                self.figures["requests"] += 1
                self.request(standing, asks, place)
            elif it[0] == "housekeeping":
                self.figures["housekeeping"] += 1
                if self.text != standing.text:
                    self.enforce(standing.text, "adopted")
            else:
                self.figures[it[3]] += 1
                if it[1:3] == ("LC", 1):
                    self.enforce(standing.text if it[4] == "started with tables" else None, "started" if it[4] == "started with tables" else "none")
                elif it[1:3] == ("LC", 2):
                    self.enforce(standing.text, "adopted")
                self.events.add([self.packets, *self.here, it[5], it[1], it[2], it[3], it[4]], self.here[0])

    def enforce(self, text, how):
        self.text, self.how, self.met = text, how, {}
        self.tables.append([*self.here, text, how])

    def event_after(self, standing, place):
        """The rule's own event after a request."""
        after = standing.packets[place + 1 : place + 2]
        return after[0] if after and after[0][0] == "event" and after[0][1] == "LC" and after[0][2] >= 1000 else None

    def may_be(self, standing, asks, place):
        """The rules that may have made a request, by what its record shows."""
        if self.event_after(standing, place):
            return [self.event_after(standing, place)[5]]
        sequence = standing.packets[place][1]
        named = [self.event_after(standing, it)[5] for it in asks if self.event_after(standing, it)]
        states = [[it[rule][0] if rule < len(it) else None for rule in range(self.rules)] for it in (self.points, standing.points)]
        turned = [rule for rule, both in enumerate(zip(*states)) if both == ("active", "passive")]
        rules = self.texts[self.text].rules if self.text is not None else None
        fits = lambda rule: rules is None or rule >= len(rules) or rules[rule].sequence == sequence  # noqa: E731
        if self.is_muddled(standing, asks):
            return [rule for rule in range(len(rules or [])) if fits(rule) and rule not in named]
        if len(standing.requested) == 1 and fits(turned[asks.index(place)]):
            return [turned[asks.index(place)]]
        return [rule for rule in turned if fits(rule) and rule not in named]

    def request(self, standing, asks, place):
        _, sequence, truth = standing.packets[place]
        may = self.may_be(standing, asks, place)
        rule = may[0] if len(may) == 1 else None
        event = self.event_after(standing, place)
        rules = self.texts[self.text].rules if self.text is not None else []
        known = rules[rule] if rule is not None and rule < len(rules) else None
        is_exact = len(standing.requested) == 1 and not self.is_muddled(standing, asks)
        counted = int(event[4].split("FailCount = ")[1].split(",")[0]) if event else standing.points[rule][2] if rule is not None and is_exact else None
        samples, held = [], None
        if rule is not None and rule < self.rules and not self.is_muddled(standing, asks):
            row = self.rows[rule]
            self.parts = min(MOST["parts"] + 1, self.parts + sum(len(it[2]) for it in row))
            samples = [[*it[:2], [list(part) for part in it[2]]] for it in row] if self.parts <= MOST["parts"] and self.text is not None else []
        if known and not event:
            held = "filter" if known.level in self.types else "type"
        around = []
        if known:
            compared = list(dict.fromkeys(next(p for p, f in enumerate(self.fields) if f.key == it[1].key) for it in comparisons(known.condition)))[:AROUND]
            around = [[field, [list(it) for it in self.recent[field][-(AROUND // len(compared)) :]]] for field in compared]
        request = {
            "packet": self.packets, "record": self.here[0], "time": self.here[1], "rule": rule, "text": self.text, "sequence": sequence,
            "count": self.counts % 16_384, "event": self.packets + 1 if event else None, "held": held, "counted": counted,
            "one_of": [] if rule is not None else may[:MAY] + [None] * (len(may) > MAY), "samples": samples, "around": around,
        }  # fmt: skip
        self.counts += 1
        self.truths.append((self.packets, truth))
        self.requests.add(request, self.here[0])

    def is_muddled(self, standing, asks):
        states = [[it[rule][0] if rule < len(it) else None for rule in range(self.rules)] for it in (self.points, standing.points)]
        turned = sum(both == ("active", "passive") for both in zip(*states))
        return self.came_into_force(standing) or turned != len(asks)

    def came_into_force(self, standing):
        """Whether packets of the record say that tables came into force."""
        says = any(it[0] == "event" and it[1] == "LC" and it[2] in (1, 2) for it in standing.packets)
        return says or self.text_before != standing.text and any(it[0] == "housekeeping" for it in standing.packets)

    def stand(self, standing):
        for rule in self.ended:
            self.rows[rule] = []
        if standing.mode == "absent" and self.how != "none":
            self.enforce(None, "none")
        elif standing.mode != "absent" and self.text != standing.text:
            self.enforce(standing.text, "started" if self.mode == "absent" else "adopted")
        if not self.tables:
            self.tables.append([*self.here, self.text, self.how])
        if not self.modes or self.mode != standing.mode:
            self.modes.append([*self.here, standing.mode])
        self.mode, self.points, self.text_before = standing.mode, standing.points, standing.text
        for rule, lane in enumerate(self.lanes):
            if rule < len(standing.points):
                state, last, _ = standing.points[rule]
                lane.add(*self.here, (RESULT_BITS[last], STATE_BITS[state]))
            else:
                lane.add(*self.here, (1, 0))

    text_before = None

    # ---- the object

    def members(self):
        run, files = self.run, self.run.files()
        shift = (self.begin_ticks or 0) - (self.first or 0) if self.window else 0
        start = self.begin_ticks if self.window else self.first or 0
        is_empty = self.figures["records"] == 0
        end_place = self.before + self.figures["records"] + 1, self.end or 0
        for rule in range(self.rules):
            self.end_gap(rule, end_place)
        moved = lambda entries: [[it[0], it[1] - shift, *it[2:]] for it in entries]  # noqa: E731
        window = None
        if self.window:
            window = {name: self.window[name] * TICK if name in self.window else None for name in ("from", "until")}
            window |= {"records": self.before, "packets": self.packets_before}
        return {
            "format": 3,
            "ended": {"status": run.status, "says": run.says, "whole": run.status == 0},
            "window": window,
            "files": [self.file_of(name, data) for name, data in files.items()],
            "figures": self.figures, "start": start or 0, "end": 0 if is_empty else self.end - shift, "ordered": self.is_ordered, "epoch": None,
            "texts": texts_of_page(self.texts),
            "fields": [
                {"name": it.name, "packet": it.packet, "mid": it.mid, "type": it.kind, "at": it.at, "mask": it.mask, "stale": it.stale,
                 "packets": self.seen[place], "last": moved([self.last[place]])[0] if self.last[place] else None, "values": moved(self.values[place].written())}
                for place, it in enumerate(self.fields)
            ],
            "lanes": [moved(lane.written()) for lane in self.lanes],
            "account": self.whole_account(),
            "samples": self.samples,
            "sampling": [
                {"due": self.scheduled[rule], "sampled": self.sampled[rule], "gaps": [[a, b - shift, c, d - shift, n] for a, b, c, d, n in self.gaps[rule]]}
                for rule in range(self.rules)
            ],
            "tables": moved(self.tables), "mode": moved(self.modes),
            "requests": [self.moved_request(it, shift) for it in self.requests.items()], "requests_left_out": self.requests.left_out(),
            "events": [[it[0], it[1], it[2] - shift, *it[3:]] for it in self.events.items()], "events_left_out": self.events.left_out(),
            "commands": moved(self.commands.items()), "commands_left_out": self.commands.left_out(),
        }  # fmt: skip

    def moved_request(self, request, shift):
        part = lambda it: [it[0], it[1], it[2] if it[2] is None else it[2] - shift, it[3]]  # noqa: E731
        is_reduced = [any(entry[3] > 1 for entry in it.entries) for it in self.values]
        samples = [[it[0], it[1] - shift, [part(met) for met in it[2]]] for it in request["samples"]]
        around = [[field, [[it[0], it[1] - shift, it[2]] for it in values]] for field, values in request["around"] if is_reduced[field]]
        return {**request, "time": request["time"] - shift, "samples": samples, "around": around}

    @staticmethod
    def file_of(name, data):
        role = name.rpartition(".")[2]
        return {"role": role, "name": name, "bytes": len(data), "sha256": hashlib.sha256(data).hexdigest()}
