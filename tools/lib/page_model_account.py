"""What a run of the model looked at: packets, samples and the time without them, as crates/run_page/page/DATA.md says it of the account."""

from page_model_texts import ALL_RULES

TICK = 65_536


def is_accepted(packet):
    """Whether the host takes a telemetry packet."""
    return (
        len(packet) >= 12 and packet[0] >> 5 == 0 and packet[0] >> 3 & 1 == 1 and packet[2] >> 6 == 3
        and int.from_bytes(packet[4:6], "big") + 7 == len(packet) and packet[:2] not in (b"\x08\x08", b"\x08\xa7")
    )  # fmt: skip


def takes(request, rule):
    return request[0] == ALL_RULES or request[0] <= rule <= request[1]


class Looking:
    """Counts over all records of a run. It stands on the `run`, `texts` and `rules` of a page."""

    def begin_to_look(self):
        self.passed, self.ticked, self.pace, self.newest = 0, None, TICK, None
        self.scheduled = [any(takes(entry, rule) for slot in self.run.slots for entry in slot if entry != "housekeeping") for rule in range(self.rules)]
        self.sampled_at = [(0, 2 * len(self.run.slots) * TICK)] * self.rules
        self.account = {"samples": 0, "ungiven": 0, "steps_back": 0}
        self.results = [[dict.fromkeys("pass fail stale error".split(), 0) for _ in text.rules] for text in self.texts]
        self.unsampled = [0] * self.rules
        self.mids = dict.fromkeys((mid for text in self.texts for _, mid, _ in text.packets), 0)

    def look(self, number, standing):
        if self.newest is not None and standing.ticks < self.newest:
            self.account["steps_back"] += 1
        if standing.bytes[0] == 1 and is_accepted(standing.bytes[11:]):
            mid = int.from_bytes(standing.bytes[11:13], "big")
            if mid in self.mids:
                self.mids[mid] += 1
        self.passed_before = self.passed
        if self.newest is not None:
            self.passed += max(0, standing.ticks - self.newest)
        self.newest = standing.ticks
        if standing.bytes[0] == 2:
            if self.ticked is not None:
                self.pace = max(TICK, self.passed - self.ticked)
            self.ticked = self.passed
        found = self.sampled_rules(standing)
        for rule in found:
            if rule < self.rules:
                last, allowed = self.sampled_at[rule]
                self.unsampled[rule] += self.passed - last if allowed < self.passed - last else 0
        self.overdue = [self.scheduled[rule] and sum(self.sampled_at[rule]) < self.passed for rule in range(self.rules)]
        self.was_due = [sum(it) for it in self.sampled_at]
        if found and max(found) >= 0:
            if any(rule < self.rules for rule in found):
                self.account["samples"] += 1
                self.account["ungiven"] += standing.text is None
            for rule in found:
                if standing.text is not None and rule < len(self.texts[standing.text].rules):
                    self.results[standing.text][rule][standing.points[rule][1]] += 1
                if rule < self.rules:
                    self.sampled_at[rule] = self.passed, 2 * len(self.run.slots) * self.pace

    def sampled_rules(self, standing):
        """The rules that the record sampled: requested, sampled where they are, and with a result."""
        if standing.mode not in ("active", "passive"):
            return []
        points = enumerate(standing.points)
        return [rule for rule, (state, last, _) in points if state in ("active", "passive") and last and any(takes(it, rule) for it in standing.requested)]

    def whole_account(self):
        def late(rule):
            last, allowed = self.sampled_at[rule]
            gap = self.passed - last
            return (self.unsampled[rule] + (gap if allowed < gap else 0)) // TICK if self.scheduled[rule] else 0

        rows = [
            {"text": text, "rule": rule, "name": self.texts[text].rules[rule].name, "sampled": sum(it.values()), "passed": it["pass"], "failed": it["fail"],
             "stale": it["stale"], "errors": it["error"], "unsampled": late(rule)}
            for text, results in enumerate(self.results) for rule, it in enumerate(results)
        ]  # fmt: skip
        packets = [{"mid": mid, "packets": count} for mid, count in self.mids.items()]
        return {"records": len(self.run.standings), **self.account, "packets": packets, "rules": rows}
