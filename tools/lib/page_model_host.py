"""A host with a Limit Checker, for the model of a page: which packets each record leads to, and how rules stand after it. Written from
docs/FORMATS.md and docs/RULES.md alone; it shares no code with the programs."""

from page_model_texts import ALL_RULES, ERROR, FALSE, LEVELS, OPERATORS, RESULT, STALE, TRUE, comparisons, truth

TABLES = {"LC.LC_WDT": "wdt", "LC.LC_ADT": "adt"}
LC_FILES = {"wdt": "/cf/lc_def_wdt.tbl", "adt": "/cf/lc_def_adt.tbl"}


class Point:
    def __init__(self, rule):
        self.rule, self.state, self.last = rule, rule.state, None
        self.run = self.to_fail = self.to_pass = self.quiet = 0


class Checker:
    def __init__(self, text):
        self.mode = "active"
        self.active = {"wdt": text, "adt": text}
        self.waiting = {"wdt": None, "adt": None}
        self.begin(text)

    def begin(self, text):
        self.text, self.seen = text, {}
        self.points = [Point(rule) for rule in text.rules] if text else []


class Host:
    """`out` has the packets of the last record: ("request", sequence, rule that made it), ("event", sender, id, level, text, rule that it is
    about) or ("housekeeping",)."""

    def __init__(self, slots):
        self.slots, self.files, self.checker = slots, {}, None
        self.spares = {"LC": 4, "SCH": 2}
        self.slot = None
        self.filters, self.types = {}, set(LEVELS)
        self.out = []
        # Of the last record: whether tables came into force, and the samples that were requested of the Limit Checker.
        self.is_adopted, self.requested = False, []

    def begin(self):
        self.out, self.is_adopted, self.requested = [], False, []

    # ---- packets

    def event(self, sender, number, level, text, rule=None):
        if sender == "LC":
            if level not in self.types:
                return
            if number in self.filters:
                mask, count = self.filters[number]
                self.filters[number] = mask, min(count + 1, 65_535)
                if mask & count:
                    return
        self.out.append(("event", sender, number, level, text, rule))

    def lc(self, number, text, level="info", rule=None):
        self.event("LC", number, level, text, rule)

    # ---- applications

    def begin_checker(self):
        wdt, adt = (self.files.get(LC_FILES[kind]) for kind in ("wdt", "adt"))
        is_whole = wdt is not None and adt is not None and wdt[0] == "wdt" and adt[0] == "adt" and wdt[1] is adt[1]
        self.filters, self.types = {}, set(LEVELS) - {"debug"}
        self.checker = Checker(wdt[1] if is_whole else None)
        self.is_adopted = True
        self.lc(1, "started with tables" if is_whole else "started without tables")

    def order(self, verb, name):
        code = ["start", "stop", "restart", "reload"].index(verb) + 1
        runs = self.checker is not None if name == "LC" else self.slot is not None
        fault = None
        if verb == "start" and runs:
            fault = 123
        elif verb != "start" and not runs:
            fault = 121
        elif verb in ("start", "reload") and not self.spares[name]:
            fault = 122
        if fault:
            self.event("HOST", 9, "error", f"app command refused {fault}")
            return
        if verb in ("start", "reload"):
            self.spares[name] -= 1
        if name == "SCH":
            self.slot = None if verb == "stop" else 0
        elif verb == "stop":
            self.checker = None
        else:
            self.begin_checker()
        self.event("HOST", 8, "info", f"app command {code} done")

    # ---- records

    def tick(self):
        if self.slot is None:
            return
        entries = self.slots[self.slot]
        self.slot = (self.slot + 1) % len(self.slots)
        self.requested = [entry for entry in entries if entry != "housekeeping"]
        for entry in entries:
            if entry == "housekeeping":
                self.housekeeping()
            else:
                self.sample(*entry)

    def bad_packet(self, reason):
        self.event("HOST", 1, "error", f"bad packet {reason}")

    def telemetry(self, mid, packet):
        checker = self.checker
        if checker is None or checker.mode == "disabled" or checker.text is None:
            return
        watched = [one[1] for rule in checker.text.rules for one in comparisons(rule.condition) if one[1].mid == mid]
        if watched:
            checker.seen[mid] = [packet, 0]
            if any(field.read(packet) is None for field in watched):
                self.lc(7, f"short packet {mid:04x}", "error")

    def found(self, comparison):
        _, field, sign, number = comparison
        if field.mid not in self.checker.seen:
            return STALE
        packet, agings = self.checker.seen[field.mid]
        if field.stale and agings >= field.stale:
            return STALE
        value = field.read(packet)
        return ERROR if value is None else TRUE if OPERATORS[sign](value, number) else FALSE

    def ground_sample(self, first, last, ages):
        self.requested = [(first, last, ages)]
        self.sample(first, last, ages)

    def sample(self, first, last, ages):
        checker = self.checker
        if checker is None or checker.mode == "disabled":
            return
        for number, point in enumerate(checker.points):
            if (first == ALL_RULES or first <= number <= last) and point.state in ("active", "passive"):
                self.sample_point(number, point, RESULT[truth(point.rule.condition, self.found)])
        if ages:
            for seen in checker.seen.values():
                seen[1] += 1

    def sample_point(self, number, point, result):
        rule = point.rule
        if (point.last, result) == ("pass", "fail"):
            point.to_fail += 1
            if point.to_fail <= rule.report[1]:
                self.lc(5, f"actionpoint {number} pass to fail", rule=number)
        elif (point.last, result) == ("fail", "pass"):
            point.to_pass += 1
            if point.to_pass <= rule.report[2]:
                self.lc(6, f"actionpoint {number} fail to pass", rule=number)
        point.last = result
        point.run = point.run + 1 if result == "fail" else 0
        if result != "fail" or point.run < rule.fails:
            return
        if point.state == "active":
            point.state = "passive"
            if self.checker.mode == "active":
                self.out.append(("request", rule.sequence, number))
                self.lc(rule.event, f"{rule.says}: AP = {number}, FailCount = {point.run}, RTS = {rule.sequence}", rule.level, number)
            else:
                self.lc(3, f"actionpoint {number} failed, LC passive", rule=number)
        else:
            point.quiet += 1
            if point.quiet <= rule.report[0]:
                self.lc(4, f"actionpoint {number} failed, passive", rule=number)

    def housekeeping(self):
        checker = self.checker
        if checker is None:
            return
        for place, kind in enumerate(("wdt", "adt"), 1):
            if checker.waiting[kind] and checker.waiting[kind][0] == "asked":
                checker.waiting[kind] = "valid", checker.waiting[kind][1]
                self.lc(10, f"table {place} valid")
        self.adopt(checker)
        self.out.append(("housekeeping",))

    def adopt(self, checker):
        activated = [kind for kind in ("wdt", "adt") if checker.waiting[kind] and checker.waiting[kind][0] == "activated"]
        both = {kind: checker.waiting[kind][1] if kind in activated else checker.active[kind] for kind in ("wdt", "adt")}
        if not activated or both["wdt"] is None or both["wdt"] is not both["adt"]:
            return
        for kind in activated:
            checker.active[kind], checker.waiting[kind] = checker.waiting[kind][1], None
        checker.begin(both["wdt"])
        self.is_adopted = True
        self.lc(2, "tables adopted")

    # ---- commands

    def store(self, name, kind, text):
        self.files[name] = kind, text
        self.event("HOST", 2, "info", "file stored")

    def table(self, code, name):
        fault = self.table_fault(code, name)
        if fault:
            self.event("HOST", 5, "error", f"table command refused {fault}")
            return
        kind = self.files[name][0] if code == 1 else TABLES[name]
        waiting = self.checker.waiting[kind]
        if code == 1:
            self.checker.waiting[kind] = "loaded", self.files[name][1]
        elif code == 4:
            self.checker.waiting[kind] = None
        else:
            self.checker.waiting[kind] = ("asked" if code == 2 else "activated"), waiting[1]
        self.event("HOST", 4, "info", f"table command {code} done")

    def table_fault(self, code, name):
        if code == 1 and name not in self.files:
            return 111
        if self.checker is None:
            return 113
        waiting = self.checker.waiting[self.files[name][0] if code == 1 else TABLES[name]]
        if code != 1 and waiting is None:
            return 116
        if code != 4 and waiting and waiting[0] == "activated":
            return 115
        return 117 if code == 3 and waiting[0] != "valid" else None

    def lc_command(self, code, fault):
        self.lc(9 if fault else 8, f"command refused {fault}" if fault else f"command {code} done", "error" if fault else "info")

    def set_mode(self, mode):
        if self.checker:
            self.checker.mode = mode
            self.lc_command(2, None)

    def set_state(self, number, state):
        if self.checker is None:
            return
        points = self.checker.points
        if number == ALL_RULES:
            for point in points:
                if point.state != "off":
                    point.state = state
            self.lc_command(3, None)
            return
        fault = 153 if number >= len(points) else 155 if points[number].state == "off" else None
        if not fault:
            points[number].state = state
        self.lc_command(3, fault)

    def turn_off(self, number):
        if self.checker is None:
            return
        points = self.checker.points
        fault = 153 if number >= len(points) else 155 if points[number].state != "disabled" else None
        if not fault:
            points[number].state = "off"
        self.lc_command(4, fault)

    def event_command(self, code, fault):
        self.event("HOST", 7 if fault else 6, "error" if fault else "info", f"event command {'refused ' if fault else ''}{fault or code}{'' if fault else ' done'}")

    def set_filter(self, number, mask):
        fault = 101 if self.checker is None else 102 if number not in self.filters and len(self.filters) == 16 else None
        if not fault:
            self.filters[number] = mask, 0
        self.event_command(1, fault)

    def set_types(self, bits, is_on):
        fault = 101 if self.checker is None else None
        if not fault:
            named = {level for place, level in enumerate(LEVELS) if bits >> place & 1}
            self.types = self.types | named if is_on else self.types - named
        self.event_command(3 if is_on else 4, fault)
