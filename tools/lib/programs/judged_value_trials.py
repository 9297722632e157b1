"""The values with which `flight_tools check --all` says that rules fail and pass, beside an own model of docs/RULES.md: what conditions
mean, which values a field under its mask has, and that the two lists of values differ in one field, by values next to each other."""

import bisect
import itertools
import operator
import random
import re
import subprocess
import tempfile
from dataclasses import dataclass, field

from trial import SECONDS, Trial, written

CALLS = ["flight_tools check"]
SEED = 2_026
RULES_OF_A_TEXT, TEXTS = 30, 4
OPERATORS = {"<": operator.lt, "<=": operator.le, "!=": operator.ne, "==": operator.eq, ">=": operator.ge, ">": operator.gt}
# Types with their bytes and signs, and masks: all bits, or a few with gaps.
TYPES = {
    "u8": (1, False, [None, 0x82, 0x31]),
    "i8": (1, True, [None, 0x83, 0x4C]),
    "u16be": (2, False, [None, 0x0101, 0x8420]),
    "u16le": (2, False, [None, 0xC003]),
    "i16be": (2, True, [None, 0x8001, 0x70F0]),
    "i16le": (2, True, [None, 0x8108]),
    "u32be": (4, False, [None, 0xF000000F, 0x00FF0000]),
    "u32le": (4, False, [None, 0x80000001]),
    "i32be": (4, True, [None, 0x80FF0000, 0xC0000003]),
    "i32le": (4, True, [None, 0x00010100]),
}


def signed(bits, size):
    return bits - (1 << 8 * size) if bits >> (8 * size - 1) else bits


@dataclass
class Field:
    """A field of a packet of its own rule, and all its values where they are few."""

    name: str
    kind: str
    mask: int
    offset: int
    values: list = field(default_factory=list)

    def __post_init__(self):
        size, has_sign, _ = TYPES[self.kind]
        sign = 1 << 8 * size - 1 if has_sign else 0
        self.least, self.most = -sign, (1 << 8 * size) - 1 - sign
        if self.mask is not None:
            ones = [1 << place for place in range(32) if self.mask >> place & 1]
            bits = (sum(part) for count in range(len(ones) + 1) for part in itertools.combinations(ones, count))
            self.values = sorted(signed(it, size) if has_sign else it for it in bits)

    def has(self, value):
        return value in self.values if self.values else self.least <= value <= self.most

    def near(self, number):
        """The values next to a number on both sides, and the number, where the field has them."""
        if not self.values:
            return [it for it in (number - 1, number, number + 1) if self.has(it)]
        place = bisect.bisect_left(self.values, number)
        return self.values[max(place - 1, 0) : place + 2]

    def are_neighbours(self, one, other):
        if self.values:
            return abs(self.values.index(one) - self.values.index(other)) == 1
        return abs(one - other) == 1

    def declared(self, packet):
        mask = "" if self.mask is None else f" mask {self.mask:#x}"
        return f"field {self.name} = {packet} {self.kind} at {self.offset}{mask};\n"


def comparisons(condition):
    """All comparisons of a condition: a comparison is `("<", name, number)`, others are `("not", one)` and `("and", one, other)`."""
    if condition[0] in OPERATORS:
        return [condition]
    return [it for operand in condition[1:] for it in comparisons(operand)]


def worded(condition):
    if condition[0] in OPERATORS:
        return f"{condition[1]} {condition[0]} {condition[2]}"
    if condition[0] == "not":
        return f"not ({worded(condition[1])})"
    return f"({worded(condition[1])}) {condition[0]} ({worded(condition[2])})"


def truth(condition, values):
    """True, False, or None where a field without a packet decides; no field is in error."""
    word = condition[0]
    if word in OPERATORS:
        value = values.get(condition[1])
        return None if value is None else OPERATORS[word](value, condition[2])
    found = [truth(operand, values) for operand in condition[1:]]
    if word == "not":
        return None if found[0] is None else not found[0]
    decides = {"and": False, "or": True}.get(word)
    if decides is not None and decides in found:
        return decides
    if None in found:
        return None
    return found[0] != found[1] if word == "xor" else found[0]


@dataclass
class Judged:
    """A rule with fields of its own packet."""

    name: str
    fields: list
    condition: tuple

    def choices(self):
        """For each field 0 and the values at the limits of its comparisons: the condition has no other results elsewhere."""
        found = {}
        for it in self.fields:
            numbers = [number for _, name, number in comparisons(self.condition) if name == it.name]
            found[it.name] = sorted({0, *(value for number in numbers for value in it.near(number))})
        return found

    def results(self):
        choices = self.choices()
        return {truth(self.condition, dict(zip(choices, values))) for values in itertools.product(*choices.values())}

    def text(self, number):
        """The rule, with its packet and its fields."""
        fields = "".join(it.declared(f"P{number}") for it in self.fields)
        head = f'rule {self.name} active fails 1 sequence {number + 1} event info {1001 + number} ""\n'
        return f"packet P{number} = mid {0x0900 + number} length 64;\n{fields}{head}    when {worded(self.condition)};\n"

    def read(self, said):
        """The values in a list of them, by names."""
        return {name: int(value) for name, value in (it.split(" = ") for it in said.split(", "))} if said else {}

    def faults_of_line(self, fails, passes):
        fails, passes = self.read(fails), self.read(passes)
        known = {it.name: it for it in self.fields}
        if not all(name in known and known[name].has(value) for name, value in [*fails.items(), *passes.items()]):
            return "a field does not have its value"
        if (truth(self.condition, fails), truth(self.condition, passes)) != (True, False):
            return "it does not fail and pass so"
        apart = [name for name in known if fails.get(name) != passes.get(name)]
        if len(apart) != 1 or not known[apart[0]].are_neighbours(fails[apart[0]], passes[apart[0]]):
            return "the values are not next to each other in one field"
        others = [it for it in self.fields if it.name != apart[0]]
        if len(others) == 1:
            return self.fault_of_other(others[0].name, fails, passes)
        return ""

    def fault_of_other(self, name, fails, passes):
        """The one other field has the value nearest to 0 that serves."""
        for value in self.choices()[name]:
            is_served = truth(self.condition, {**fails, name: value}) is True and truth(self.condition, {**passes, name: value}) is False
            if is_served and abs(value) < abs(fails[name]):
                return f"{name} = {value} is nearer to 0"
        return ""


def made_condition(chance, fields, size):
    if size == 1:
        it = chance.choice(fields)
        number = chance.choice([chance.choice(it.values or [it.least, it.most]), chance.randint(-6, 6), chance.randint(it.least, it.most)])
        return chance.choice(list(OPERATORS)), it.name, min(max(number + chance.randint(-1, 1), it.least), it.most)
    if chance.random() < 0.2:
        return "not", made_condition(chance, fields, size)
    left = chance.randint(1, size - 1)
    return chance.choice(["and", "or", "xor"]), made_condition(chance, fields, left), made_condition(chance, fields, size - left)


def made_rule(chance, number):
    fields = []
    for place, letter in enumerate("ABC"[: chance.choice([1, 2, 2, 2, 3])]):
        kind = chance.choice(list(TYPES))
        fields.append(Field(f"{letter}{number}", kind, chance.choice(TYPES[kind][2]), 12 + 4 * place))
    condition = made_condition(chance, fields, chance.randint(1, 5))
    used = {name for _, name, _ in comparisons(condition)}
    return Judged(f"R{number}", [it for it in fields if it.name in used], condition)


# Comparisons of B, of which each of two values serves: the one nearer to 0 is the second one's, or the negative one.
BESIDE = [
    ("u16be", "or", (">", 500), (">", 100)),
    ("i16be", "or", ("<", -500), ("<", -100)),
    ("i16be", "or", (">=", 6), ("<=", -5)),
    ("i16be", "or", ("<=", -6), (">=", 5)),
    ("i32le", "and", ("!=", 0), ("!=", 1)),
]


def beside(number, kind, word, *others):
    """A rule of three comparisons of A, whose values are sought first, and of two of B."""
    a, b = f"A{number}", f"B{number}"
    limits = ("and", ("and", (">", a, 3), (">", a, 2)), (">", a, 1))
    condition = ("and", limits, (word, *((operator, b, limit) for operator, limit in others)))
    return Judged(f"R{number}", [Field(a, "u8", None, 12), Field(b, kind, None, 16)], condition)


LINE = re.compile(r"^rules\d: (\w+): fails for (.*); passes for (.*)$", re.M)
NEVER = re.compile(r"warning\[never-fails\]: `(\w+)` never fails\n.*\n.* it passes for (.*)$", re.M)
ALWAYS = re.compile(r"warning\[always-fails\]: `(\w+)` always fails\n.*\n.* as for (.*)$", re.M)


def faults_of_rule(rule, said):
    """What is wrong with what is said of a rule."""
    results = rule.results()
    lines, never, always = (found.get(rule.name) for found in said)
    if results == {True, False}:
        return rule.faults_of_line(*lines) if lines else "it has no values"
    found = always if results == {True} else never
    if found is None or lines:
        return f"it is not said that its result is always {results}"
    return "" if results == {truth(rule.condition, rule.read(found[0]))} else "its values do not show it"


def values_of_rules(programs):
    """The values of rules made by a seed, and of some beside which a nearer value serves."""
    chance = random.Random(SEED)
    texts = {f"rules{text}": [made_rule(chance, number) for number in range(RULES_OF_A_TEXT)] for text in range(TEXTS)}
    texts[f"rules{TEXTS}"] = [beside(number, *it) for number, it in enumerate(BESIDE)]
    with tempfile.TemporaryDirectory(prefix="try-programs-") as place:
        written(place, {name: "".join(rule.text(number) for number, rule in enumerate(rules)).encode() for name, rules in texts.items()})
        faults = []
        for name, rules in texts.items():
            ran = subprocess.run([programs["flight_tools"], "check", "--all", name], cwd=place, capture_output=True, timeout=SECONDS)
            output = ran.stdout.decode()
            said = [{rule: values for rule, *values in pattern.findall(output)} for pattern in (LINE, NEVER, ALWAYS)]
            if ran.returncode or f"{name}: {len(rules)} rules, " not in output:
                faults.append(f"{name} ended with {ran.returncode}: {output[-200:]}")
            for rule in rules:
                fault = faults_of_rule(rule, said)
                if fault:
                    faults.append(f"{name}, {rule.name}, {worded(rule.condition)}: {fault}: {[found.get(rule.name) for found in said]}")
        return faults


TRIALS = [Trial("values with which rules made by a seed fail and pass", values_of_rules)]
