"""Random runs for the model of a page: texts, a schedule, a stream, and how the host stands after each of its records. Each kind of run has
options of its own."""

import random
from dataclasses import dataclass, field, replace

from page_model_host import LC_FILES, TABLES, Host
from page_model_texts import ALL_RULES, LEVELS, comparisons, schedule_text, some_fields, some_schedule, some_text

TICK = 65_536
START = 849_000_000


@dataclass
class Options:
    texts: tuple = (1,)
    rules: tuple = (1, 5)
    states: tuple = ("active", "active", "active", "passive")
    fails: tuple = (1, 2, 3)
    sequences: tuple = (1, 2, 3, 4, 5, 6, 7, 8, 9)
    levels: tuple = ("info", "error", "critical")
    depth: int = 2
    masks: float = 0.1
    stale: float = 0.3
    slots: tuple = (1, 3)
    samples: tuple = (1,)
    ranges: tuple = ((ALL_RULES, ALL_RULES), (0, 175))
    ages: float = 0.6
    steps: int = 60
    telemetry: float = 1.0  # of packets that could come
    wild: float = 0.0  # packets with any values
    bursts: int = 1  # rounds of packets for each tick
    packets: tuple = (1, 2, 3)
    starts: bool = True
    schedules: bool = True
    # What else happens, each with its weight against 10 rounds of packets and a tick.
    others: dict = field(default_factory=dict)
    part: tuple = ()
    ending: str = "whole"
    ungiven: bool = False


COMMON = {"state": 1.5}
KINDS = {
    "plain": {},
    "two texts": {"texts": (2,), "others": {"uplink": 2}},
    "three texts": {"texts": (3,), "others": {"uplink": 2, "state": 1}},
    "halves that do not belong together": {"texts": (2,), "others": {"half": 3, "housekeeping": 1}},
    "steps of uplinks in any order": {"texts": (2,), "others": {"table": 8, "housekeeping": 3}},
    "ungiven tables": {"texts": (1,), "ungiven": True, "others": {"ungiven": 2}},
    "filters": {"fails": (1, 2), "depth": 1, "others": {"filter": 6, "all active": 3, "state": 2}},
    "filtered adoptions": {"texts": (2,), "others": {"filter 2": 2, "uplink": 2}},
    "types that are off": {"levels": LEVELS, "fails": (1, 2), "depth": 1, "others": {"types": 4, "all active": 3}},
    "modes": {"others": {"mode": 3, "state": 1}},
    "two samples a slot": {"samples": (2,), "ages": 1.0, "stale": 1.0, "fails": (1, 2), "others": {"state": 4}},
    "samples of one sequence": {"samples": (2,), "sequences": (4,), "stale": 0.5, "rules": (4, 8), "fails": (1,), "depth": 1, "others": {"all active": 6, "filter": 8}},
    "samples of two sequences": {"samples": (2, 3), "sequences": (4, 5), "rules": (8, 24), "fails": (1,), "depth": 0, "others": {"all active": 6, "filter": 3, "types": 3}},
    "one sample of one sequence": {"sequences": (4,), "rules": (4, 8), "fails": (1, 2), "depth": 1, "others": {"all active": 6, "filter": 8}},
    "ranges": {"samples": (0, 1, 2, 3), "ranges": ((0, 1), (1, 3), (2, 2), (3, 175)), "rules": (3, 6), "others": {"state": 3}},
    "steps back": {"others": {"back": 2}},
    "parts from": {"part": ("from",), "others": COMMON},
    "parts until": {"part": ("until",), "others": COMMON},
    "parts": {"part": ("from", "until"), "texts": (2,), "others": {"uplink": 1, "state": 1, "filter": 1}},
    "parts over steps back": {"part": ("from", "until"), "others": {"back": 2, "state": 1}},
    "stale fields": {"stale": 1.0, "ages": 1.0, "telemetry": 0.4, "others": COMMON},
    "masks": {"masks": 1.0, "wild": 0.5, "others": COMMON},
    "many rules": {"rules": (15, 24), "others": {"state": 4}},
    "commands": {"others": {"state": 5, "off": 2, "mode": 1, "sample": 2, "housekeeping": 2}},
    "restarts": {"texts": (2,), "others": {"order": 2, "store": 1, "state": 1}},
    "disabled rules": {"states": ("disabled", "active", "passive"), "others": {"state": 3, "off": 1}},
    "short packets": {"others": {"short": 4, "state": 2}},
    "faulty packets": {"others": {"faulty": 4}},
    "cut streams": {"ending": "cut", "others": COMMON},
    "bad records": {"ending": "bad", "others": COMMON},
    "nothing sampled": {"schedules": False, "others": {"housekeeping": 1, "state": 1}},
    "no Limit Checker": {"starts": False, "others": {"state": 1}},
    "many gaps": {"rules": (20, 24), "steps": 90, "others": {"gap": 12}},
    "gaps": {"others": {"gap": 1.5, "mode": 1, "order SCH": 1}},
    "many requests": {"fails": (1,), "rules": (10, 12), "steps": 700, "depth": 1, "others": {"all active": 12}},
    "long": {"rules": (10, 14), "packets": (3,), "fails": (1, 2), "steps": 100, "depth": 1, "wild": 1.0, "bursts": 36, "others": {"all active": 5}},
    "empty": {"steps": 0, "starts": False},
}  # fmt: skip
# How many runs of a kind there are for each that others have.
RARE = {"long": 0.1, "many requests": 0.1, "empty": 0.2}


def some_kinds(count):
    """So many kinds, in turn; rare ones come as seldom as they shall."""
    kinds, turns = [], 0
    while len(kinds) < count:
        kinds += [kind for kind in KINDS if int((turns + 1) * RARE.get(kind, 1) + 0.9999) > int(turns * RARE.get(kind, 1) + 0.9999)]
        turns += 1
    return kinds[:count]


@dataclass
class Standing:
    """What a record led to."""

    bytes: bytes
    ticks: int
    says: str
    packets: list
    points: list  # (state, last result, failures in a row) of each rule
    mode: str
    text: object
    types: frozenset
    requested: list
    is_adopted: bool


def record_bytes(kind, ticks, body):
    return bytes([kind]) + (ticks // TICK).to_bytes(4, "big") + (ticks % TICK).to_bytes(2, "big") + len(body).to_bytes(4, "big") + body


def command_bytes(mid, code, payload=b""):
    return mid.to_bytes(2, "big") + b"\xc0\0" + (len(payload) + 1).to_bytes(2, "big") + bytes([code, 0]) + payload


def telemetry_bytes(mid, body):
    return mid.to_bytes(2, "big") + b"\xc0\0" + (len(body) - 7).to_bytes(2, "big") + body[6:]


def wide(text, size):
    return text.encode().ljust(size, b"\0")


class Run:
    def __init__(self, kind, seed):
        self.kind, self.options = kind, replace(Options(), **KINDS[kind])
        self.chance = chance = random.Random(f"{kind} {seed}")
        options = self.options
        packets, fields = some_fields(chance, options)
        self.texts = [some_text(chance, options, packets, fields, number) for number in range(chance.choice(options.texts))]
        self.ungiven = some_text(chance, options, packets, fields, 9) if options.ungiven else None
        self.packets, self.fields = packets, fields
        self.slots = some_schedule(chance, options)
        self.host = Host(self.slots)
        self.ticks = START * TICK + chance.randrange(TICK)
        self.standings, self.stream, self.tables = [], [], {}
        self.last = {name: bytes(length) for name, _, length in packets}

    def play(self):
        """Plays all of it. `tables` has the table files of the ungiven text, by their halves."""
        options, chance = self.options, self.chance
        if options.starts:
            self.store_all(0)
            self.say_order("start", "LC")
        if options.schedules and (options.starts or options.steps):
            self.say_order("start", "SCH")
        words = ["round", *options.others]
        weights = [10, *options.others.values()]
        for _ in range(options.steps):
            self.step(chance.choices(words, weights)[0])
        self.end()

    def step(self, what):
        word, _, more = what.partition(" ")
        getattr(self, f"say_{word}")(*([more] if more else []))

    # ---- records

    def put(self, kind, body, act, says=None):
        self.host.begin()
        act()
        checker = self.host.checker
        self.stream.append(record_bytes(kind, self.ticks, body))
        self.standings.append(
            Standing(
                self.stream[-1], self.ticks, says, self.host.out,
                [(it.state, it.last, min(it.run, 65_535)) for it in checker.points] if checker else [],
                checker.mode if checker else "absent",
                self.number_of(checker.text) if checker else None,
                frozenset(self.host.types) if checker else frozenset(),
                self.host.requested, self.host.is_adopted,
            )
        )  # fmt: skip

    def number_of(self, text):
        return next((number for number, it in enumerate(self.texts) if it is text), None)

    def pass_time(self, least=0.2, most=1.5):
        self.ticks += round(self.chance.uniform(least, most) * TICK)

    def command(self, mid, code, payload, act, says):
        self.put(1, command_bytes(mid, code, payload), act, says)

    def say_round(self):
        for name, mid, length in self.packets * self.options.bursts:
            if self.chance.random() < self.options.telemetry * 0.7:
                self.say_telemetry(name, mid, length)
        self.pass_time(0.8, 1.2)
        self.put(2, b"", self.host.tick)

    def say_telemetry(self, name, mid, length, cut=None):
        body = self.last[name]
        for it in self.fields:
            if it.packet == name and self.chance.random() < 0.8:
                near = [one[3] for text in self.texts for rule in text.rules for one in comparisons(rule.condition) if one[1] is it]
                is_wild = not near or self.chance.random() < self.options.wild
                body = it.write(body, self.chance.getrandbits(32) if is_wild else self.chance.choice(near) + self.chance.choice((-1, 0, 0, 1)))
        self.last[name] = body
        self.pass_time(0, 0.3)
        packet = telemetry_bytes(mid, body[:cut])
        self.put(1, packet, lambda: self.host.telemetry(mid, packet))

    def say_short(self):
        name, mid, length = self.chance.choice(self.packets)
        self.say_telemetry(name, mid, length, self.chance.randint(12, length))

    def say_faulty(self):
        name, mid, _ = self.chance.choice(self.packets)
        good = telemetry_bytes(mid, self.last[name])
        reason, packet = self.chance.choice([
            (1, good[:9]), (2, bytes([good[0] | 0x20]) + good[1:]), (3, bytes([good[0] & 0xF7]) + good[1:]), (4, good[:2] + b"\x40" + good[3:]),
            (5, good + b"\0"), (7, b"\x08\x08" + good[2:]),
        ])  # fmt: skip
        self.pass_time()
        self.put(1, packet, lambda: self.host.bad_packet(reason))

    def say_back(self):
        self.ticks -= round(self.chance.uniform(0.5, 30) * TICK)
        self.say_round()

    def say_gap(self):
        """A part without ticks, with packets or without."""
        for _ in range(self.chance.choice((1, 1, 5, 20))):
            self.pass_time(0.5, 12)
            if self.chance.random() < 0.8:
                self.say_telemetry(*self.chance.choice(self.packets))

    # ---- files and tables

    def store(self, kind, text, name):
        self.pass_time(0, 0.2)
        number = self.number_of(text)
        act = lambda: self.host.store(name, kind, text)  # noqa: E731
        if number is None:
            file = self.tables[kind]
            self.put(3, wide(name, 40) + file, act, f"file {name} {len(file)} bytes")
        else:
            half = bytes([1 if kind == "wdt" else 2]) + number.to_bytes(2, "big")
            self.put(4, wide(name, 40) + half, act, f"half {kind} {number} {name}")

    def store_all(self, number):
        for kind in ("wdt", "adt"):
            self.store(kind, self.texts[number], LC_FILES[kind])

    def say_store(self):
        self.store_all(self.chance.randrange(len(self.texts)))

    def say_table(self, verb=None, word=None):
        verb = verb or self.chance.choice(("load", "load", "validate", "activate", "abort"))
        if word is None:
            kind = self.chance.choice(("wdt", "adt"))
            if verb == "load":
                self.store(kind, self.chance.choice(self.texts), f"/cf/{kind}.tbl")
            word = f"/cf/{kind}.tbl" if verb == "load" else f"LC.LC_{kind.upper()}"
        code = ["load", "validate", "activate", "abort"].index(verb) + 1
        self.pass_time(0, 0.2)
        self.command(0x1804, code, wide(word, 40), lambda: self.host.table(code, word), f"{verb} {word}")

    def say_housekeeping(self):
        self.pass_time(0, 0.5)
        self.command(0x18A5, 0, b"", self.host.housekeeping, "housekeeping")

    def say_uplink(self, text=None):
        text = text or self.chance.choice(self.texts)
        for kind in ("wdt", "adt"):
            self.store(kind, text, f"/cf/up_{kind}.tbl")
            self.say_table("load", f"/cf/up_{kind}.tbl")
        for verb in ("validate", "", "activate", ""):
            if verb:
                for table in TABLES:
                    self.say_table(verb, table)
            else:
                self.say_housekeeping()
            if self.chance.random() < 0.3:
                self.say_round()

    def say_ungiven(self):
        self.say_uplink(self.chance.choice([self.ungiven, self.ungiven, *self.texts]))

    def say_half(self):
        kind, name = self.chance.choice((("wdt", "LC.LC_WDT"), ("adt", "LC.LC_ADT")))
        self.store(kind, self.chance.choice(self.texts), "/cf/half.tbl")
        for verb in ("load", "validate", "", "activate", ""):
            if verb:
                self.say_table(verb, "/cf/half.tbl" if verb == "load" else name)
            else:
                self.say_housekeeping()

    # ---- commands

    def say_order(self, verb=None, name="LC"):
        if verb == "SCH":
            verb, name = None, "SCH"
        verb = verb or self.chance.choice(("start", "stop", "restart", "reload", "start"))
        code = ["start", "stop", "restart", "reload"].index(verb) + 1
        self.pass_time(0, 0.2)
        self.command(0x1806, code, wide(name, 20), lambda: self.host.order(verb, name), f"{verb} {name}")

    def rule_word(self, number):
        """The name of a rule in the text in force."""
        text = self.host.checker.text if self.host.checker else None
        is_named = self.number_of(text) is not None and number < len(text.rules)
        return "all" if number == ALL_RULES else text.rules[number].name if is_named else str(number)

    def say_state(self):
        most = max(len(text.rules) for text in self.texts)
        self.set_state(self.chance.choice((*range(most), *range(most), most, ALL_RULES)), self.chance.choice(("active", "active", "passive", "disabled")))

    def say_all(self, state):
        self.set_state(ALL_RULES, state)
        self.say_round()

    def set_state(self, number, state):
        code = ["active", "passive", "disabled"].index(state) + 1
        self.pass_time(0, 0.2)
        says = f"state {self.rule_word(number)} {state}"
        self.command(0x18A4, 3, number.to_bytes(2, "big") + bytes([0, code]), lambda: self.host.set_state(number, state), says)

    def say_off(self):
        number = self.chance.randrange(max(len(text.rules) for text in self.texts))
        self.pass_time(0, 0.2)
        self.command(0x18A4, 4, number.to_bytes(2, "big") + b"\0\0", lambda: self.host.turn_off(number), f"state {self.rule_word(number)} off")

    def say_mode(self):
        mode = self.chance.choice(("active", "active", "passive", "disabled"))
        code = ["active", "passive", "disabled"].index(mode) + 1
        self.pass_time(0, 0.2)
        self.command(0x18A4, 2, bytes([0, code, 0, 0]), lambda: self.host.set_mode(mode), f"mode {mode}")

    def say_filter(self, number=None):
        rules = [rule.event for text in self.texts for rule in text.rules]
        number = int(number) if number else self.chance.choice((*rules, *rules, 2, 5, 6, 8))
        mask = self.chance.choice((0, 1, 3, 0xFFFF, 0xFFFF))
        self.pass_time(0, 0.2)
        payload = wide("LC", 20) + number.to_bytes(2, "big") + mask.to_bytes(2, "big")
        self.command(0x1801, 1, payload, lambda: self.host.set_filter(number, mask), f"filter LC {number} {mask}")

    def say_types(self):
        bits, is_on = self.chance.randrange(1, 16), self.chance.random() < 0.5
        self.pass_time(0, 0.2)
        self.command(0x1801, 3 if is_on else 4, wide("LC", 20) + bytes([bits, 0]), lambda: self.host.set_types(bits, is_on), None)

    def say_sample(self):
        first, last, ages = *self.chance.choice(((ALL_RULES, ALL_RULES), (0, 175), (0, 0), (1, 2))), self.chance.random() < 0.5
        self.pass_time(0, 0.2)
        payload = b"".join(it.to_bytes(2, "big") for it in (first, last, int(ages), 0))
        self.command(0x18A6, 0, payload, lambda: self.host.ground_sample(first, last, ages), f"sample {first} {last} {'age' if ages else 'keep'}")

    # ---- the end of it

    def end(self):
        self.behind = b""
        number = len(self.standings) + 1
        if self.options.ending == "cut":
            whole = record_bytes(1, self.ticks, telemetry_bytes(0x0900, bytes(20)))
            self.behind = whole[: self.chance.randrange(1, len(whole))]
            self.status, self.says = 4, f"the stream ends inside record {number}"
        elif self.options.ending == "bad":
            self.behind = bytes([9]) + bytes(10) + self.chance.randbytes(self.chance.randrange(20_000))
            self.status, self.says = 4, f"record {number} of the stream is none, or names a rule text that is not given"
        else:
            self.status, self.says = 0, f"{number - 1} records"

    def files(self):
        """The contents of the run's files, by their names."""
        texts = {f"{number}.rules": text.text().encode() for number, text in enumerate(self.texts)}
        return {**texts, "run.schedule": schedule_text(self.slots).encode(), "run.stream": b"".join(self.stream) + self.behind}

    def window(self):
        """The options of a part, in seconds, and their times."""
        if not self.options.part or not self.standings:
            return {}
        times = sorted(it.ticks // TICK for it in self.standings)
        low, high = sorted(self.chance.randint(times[0] - 1, times[-1] + 2) for _ in range(2))
        high = max(high, low + 1)
        return {name: second for name, second in (("from", low), ("until", high)) if name in self.options.part}
