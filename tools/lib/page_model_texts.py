"""Random rule texts and schedules for the model of a page, and what a page has to say of them. Written from docs/RULES.md and
crates/run_page/page/DATA.md alone."""

import operator

TRUE, FALSE, STALE, ERROR = "true", "false", "stale", "error"
RESULT = {TRUE: "fail", FALSE: "pass", STALE: "stale", ERROR: "error"}
WIDTHS = {"u8": 1, "i8": 1, "u16be": 2, "u16le": 2, "i16be": 2, "i16le": 2, "u32be": 4, "u32le": 4, "i32be": 4, "i32le": 4}
OPERATORS = {"<": operator.lt, "<=": operator.le, "!=": operator.ne, "==": operator.eq, ">=": operator.ge, ">": operator.gt}
HEADER = 12
ALL_RULES = 65_535
LEVELS = ("debug", "info", "error", "critical")


class Field:
    def __init__(self, name, packet, mid, kind, at, mask, stale):
        self.name, self.packet, self.mid, self.kind, self.at, self.mask, self.stale = name, packet, mid, kind, at, mask, stale
        self.width = WIDTHS[kind]

    @property
    def key(self):
        return self.name, self.packet, self.mid, self.kind, self.at, self.mask, self.stale

    def read(self, packet):
        """Its value in the bytes of a packet, or None if the packet ends before it does."""
        if len(packet) < self.at + self.width:
            return None
        bits = int.from_bytes(packet[self.at : self.at + self.width], "little" if self.kind.endswith("le") else "big")
        bits &= (1 << 8 * self.width) - 1 if self.mask is None else self.mask
        return bits - (1 << 8 * self.width) if self.kind[0] == "i" and bits >> (8 * self.width - 1) else bits

    def write(self, packet, value):
        order = "little" if self.kind.endswith("le") else "big"
        bits = (value % (1 << 8 * self.width)).to_bytes(self.width, order)
        return packet[: self.at] + bits + packet[self.at + self.width :]

    def text(self):
        mask = "" if self.mask is None else f" mask 0x{self.mask:X}"
        stale = f" stale {self.stale}" if self.stale else ""
        return f"field {self.name} = {self.packet} {self.kind} at {self.at}{mask}{stale};"


class Rule:
    def __init__(self, name, state, fails, sequence, level, event, says, report, condition):
        self.name, self.state, self.fails, self.sequence, self.level = name, state, fails, sequence, level
        self.event, self.says, self.report, self.condition = event, says, report, condition

    def text(self):
        report = " report {} {} {}".format(*self.report) if any(self.report) else ""
        return (
            f"rule {self.name} {self.state} fails {self.fails} sequence {self.sequence} event {self.level} {self.event}"
            f' "{self.says}"{report} when {written(self.condition)};'
        )


class Text:
    """`packets` are (name, message id, length)."""

    def __init__(self, packets, fields, rules):
        self.packets, self.fields, self.rules = packets, fields, rules

    def text(self):
        lines = [f"packet {name} = mid 0x{mid:04X} length {length};" for name, mid, length in self.packets]
        return "\n".join([*lines, *(field.text() for field in self.fields), *(rule.text() for rule in self.rules)]) + "\n"


def written(condition):
    if condition[0] == "is":
        return f"{condition[1].name} {condition[2]} {condition[3]}"
    if condition[0] == "not":
        return f"not ({written(condition[1])})"
    return f"({written(condition[1])}) {condition[0]} ({written(condition[2])})"


def comparisons(condition):
    if condition[0] == "is":
        return [condition]
    return [one for part in condition[1:] for one in comparisons(part)]


def tree(condition, numbers):
    if condition[0] == "is":
        return [next(numbers)]
    return [condition[0], *(one for part in condition[1:] for one in tree(part, numbers))]


def joined(kind, a, b):
    if kind == "xor":
        worst = next((it for it in (ERROR, STALE) if it in (a, b)), None)
        return worst or (TRUE if a != b else FALSE)
    decides, other = (FALSE, TRUE) if kind == "and" else (TRUE, FALSE)
    return next((it for it in (decides, ERROR, STALE) if it in (a, b)), other)


def truth(condition, found):
    if condition[0] == "is":
        return found(condition)
    if condition[0] == "not":
        inner = truth(condition[1], found)
        return {TRUE: FALSE, FALSE: TRUE}.get(inner, inner)
    return joined(condition[0], truth(condition[1], found), truth(condition[2], found))


# ---- random ones


def some_fields(chance, options):
    """Packets, and their fields. One packet may be one that never comes."""
    packets, fields = [], []
    for number in range(chance.choice(options.packets)):
        length = chance.randint(16, 24)
        name, mid = f"P{number}", 0x0900 + number
        packets.append((name, mid, length))
        for place in range(2 if options.bursts > 1 else chance.randint(1, 2)):
            kind = chance.choice(list(WIDTHS))
            mask = chance.getrandbits(8 * WIDTHS[kind]) | 1 if chance.random() < options.masks else None
            stale = chance.choice((1, 1, 2, 3)) if chance.random() < options.stale else 0
            fields.append(Field(f"F{number}{'AB'[place]}", name, mid, kind, chance.randint(HEADER, length - WIDTHS[kind]), mask, stale))
    return packets, fields


def some_condition(chance, fields, depth):
    if depth == 0 or chance.random() < 0.5:
        field = chance.choice(fields)
        return "is", field, chance.choice(list(OPERATORS)), chance.choice((0, 1, 2, 3, 50, 100))
    if chance.random() < 0.2:
        return "not", some_condition(chance, fields, depth - 1)
    return chance.choice(("and", "or", "xor")), some_condition(chance, fields, depth - 1), some_condition(chance, fields, depth - 1)


def some_text(chance, options, packets, fields, number):
    names = [f"R{letter}" for letter in "ABCDEFGHIJKLMNOPQRSTUVWXYZ"[: chance.randint(*options.rules)]]
    chance.shuffle(names)
    rules = []
    for place, name in enumerate(names):
        report = tuple(chance.choice((0, 0, 1, 2, 255)) for _ in range(3))
        rules.append(
            Rule(
                name,
                chance.choice(options.states),
                chance.choice(options.fails),
                chance.choice(options.sequences),
                chance.choice(options.levels),
                1000 + 50 * number + place,
                name.lower(),
                report,
                some_condition(chance, fields, options.depth),
            )
        )
    return Text(packets, fields, rules)


def some_schedule(chance, options):
    """Slots of entries: a housekeeping request, or the first and last rule of a sample and whether it ages."""
    slots = []
    for _ in range(chance.randint(*options.slots)):
        entries = [(*chance.choice(options.ranges), chance.random() < options.ages) for _ in range(chance.choice(options.samples))]
        if chance.random() < 0.4:
            entries.insert(chance.randint(0, len(entries)), "housekeeping")
        slots.append(entries)
    return slots


def schedule_text(slots):
    lines = [f"slots {len(slots)}"]
    for number, entries in enumerate(slots):
        for entry in entries:
            words = "housekeeping" if entry == "housekeeping" else f"sample {entry[0]} {entry[1]} {'age' if entry[2] else 'keep'}"
            lines.append(f"{number} {words}")
    return "\n".join(lines) + "\n"


# ---- what a page says of texts


def fields_compared(texts):
    """The fields that rules compare, each once, in the order of their first comparisons."""
    found = {}
    for text in texts:
        for rule in text.rules:
            for _, field, _, _ in comparisons(rule.condition):
                found.setdefault(field.key, field)
    return list(found.values())


def texts_of_page(texts):
    places = {field.key: place for place, field in enumerate(fields_compared(texts))}

    def of(rule):
        parts = comparisons(rule.condition)
        return {
            "name": rule.name, "state": rule.state, "fails": rule.fails, "sequence": rule.sequence, "level": rule.level,
            "event": rule.event, "says": rule.says, "report": list(rule.report), "condition": written(rule.condition),
            "comparisons": [[places[field.key], sign, str(number)] for _, field, sign, number in parts],
            "tree": tree(rule.condition, iter(range(len(parts)))),
        }  # fmt: skip

    return [{"rules": [of(rule) for rule in text.rules]} for text in texts]
