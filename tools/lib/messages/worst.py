"""Texts of at most 64 KB on which `check` has most to do, and ordinary ones."""

LENGTH = 65_536
RULE = 'rule R{0} active fails 1 sequence 1 event info 1001 "" when '


def filled(part, front="", number=0):
    """As many parts as there is room for behind the front; `{0}` in a part is its number."""
    text = [front]
    length = len(front.encode())
    while True:
        next_part = part.format(number)
        length += len(next_part.encode())
        if length > LENGTH:
            return "".join(text)
        text.append(next_part)
        number += 1


def conditions(name, per_rule, front=""):
    """Rules of so many comparisons of different names."""
    text, length, number = [front], len(front), 0
    while True:
        words = " or ".join(f"{name}{number * per_rule + i}<1" for i in range(per_rule))
        rule = RULE.format(number) + words + ";\n"
        length += len(rule)
        if length > LENGTH:
            return "".join(text)
        text.append(rule)
        number += 1


def judged(condition, kind="u16be", step=2, mask=""):
    """As many rules as a text may have, each with the condition of its number, over sixteen fields of one packet."""
    fields = "".join(f"field F{field}=P {kind} at {12 + field * step}{mask};\n" for field in range(16))
    rules = "".join(RULE.format(rule) + condition(rule) + ";\n" for rule in range(176))
    return "packet P=mid 2179 length 99;\n" + fields + rules


def limit(rule, field):
    """One of eleven numbers: sixteen fields with as many are all the different comparisons that a text may have."""
    return 1 + (7 * rule + 3 * field) % 11


def chance(rule, place, below):
    """A number by chance, from 1 to before the bound, the same in each run (a linear congruence)."""
    number = 977 * rule + 31 * place + 5
    for _ in range(3):
        number = (number * 1_664_525 + 1_013_904_223) % 2**32
    return 1 + (number >> 16) % (below - 1)


def joined(word, rule, of=limit):
    """A comparison of each field with its number in this rule."""
    return f" {word} ".join(f"F{field}<{of(rule, field)}" for field in range(16))


def reordered(rule):
    """The same sixteen comparisons in an order of the rule's own."""
    return " xor ".join(f"F{(rule + field * (2 * (rule % 8) + 1)) % 16}<1" for field in range(16))


def paired(inner, outer, rule):
    """Eight pairs of comparisons."""
    pairs = (f"(F{2 * n}<{1 + (rule + n) % 5} {inner} F{(2 * n + 2 * (rule % 7) + 1) % 16}>{1 + (rule + 2 * n) % 5})" for n in range(8))
    return f" {outer} ".join(pairs)


def paired_by_chance(rule):
    """Eight pairs of comparisons by chance, both sides of each over any two fields."""
    one = (f"(F{chance(rule, 4 * n, 17) - 1}<{chance(rule, 4 * n + 1, 6)} or F{chance(rule, 4 * n + 2, 17) - 1}>{chance(rule, 4 * n + 3, 6)})" for n in range(8))
    return " and ".join(one)


def beside_xor(rule):
    """A comparison whose number grows with the rule, and fifteen comparisons by `xor` that all rules share."""
    return f"F0<{1 + rule % 160} and (" + " xor ".join(f"F{field}<1" for field in range(1, 16)) + ")"


def turned(rule):
    """The same eight pairs of comparisons in an order of the rule's own."""
    return " xor ".join(f"(F{2 * ((rule + n) % 8)}<3 or F{2 * ((rule + n) % 8) + 1}>2)" for n in range(8))


def contradicted(rule, of=limit):
    """Fourteen comparisons by `xor`, and one that contradicts some of them."""
    return "(" + " xor ".join(f"F{field}<{of(rule, field)}" for field in range(14)) + ") and F0>9"


PACKET = "packet P=mid 2179 length 99;"
TEXTS = {
    "equal rules": judged(lambda rule: "F0<1"),
    "equal rules of sixteen comparisons": judged(lambda rule: joined("xor", 0)),
    "sixteen comparisons by xor": judged(lambda rule: joined("xor", rule)),
    "the same comparisons by xor in another order": judged(reordered),
    "comparisons under masks": judged(lambda rule: joined("xor", rule), "u32be", 4, " mask 0x00FF00FF"),
    "fields that share bits": judged(lambda rule: joined("xor", rule), "u32be", 1),
    "sixteen comparisons of one field": judged(lambda rule: " xor ".join(f"F0<{1 + (rule + 11 * n) % 176}" for n in range(16))),
    "both of eight pairs": judged(lambda rule: paired("or", "and", rule)),
    "one of eight pairs": judged(lambda rule: paired("and", "or", rule)),
    "both of eight pairs by chance": judged(paired_by_chance),
    "one of eight pairs by xor in another order": judged(turned),
    "rules of which each follows the next beside fifteen comparisons by xor": judged(beside_xor),
    "comparisons by xor beside one that they contradict": judged(contradicted),
    "comparisons by xor with numbers by chance beside one that they contradict": judged(lambda rule: contradicted(rule, lambda rule, field: chance(rule, field, 12))),
    "rules of which each follows the next": judged(lambda rule: f"F0<{1 + rule}"),
    "bad bytes on one line": "@ " * (LENGTH // 2),
    "bad bytes on lines": "@\n" * (LENGTH // 2),
    "two bad bytes in turn": "@$" * (LENGTH // 2),
    "bad numbers on one line": filled("1a "),
    "bad texts on one line": filled('"\u00e9" '),
    "texts that aren't closed": filled('"\n'),
    "ends of items with bad bytes": filled(";@"),
    "ends of items": ";" * LENGTH,
    "items without a name": filled("rule "),
    "fields of packets that aren't there": filled("field F{0}=P{0} u8 at 0;"),
    "fields of one packet that isn't there": filled("field F{0}=P u8 at 0;"),
    "fields of one name": PACKET + filled("field F=P u8 at 0;")[: LENGTH - len(PACKET)],
    "fields outside their packet": PACKET + filled("field F{0}=P u8 at 99;")[: LENGTH - len(PACKET) - 30] + ";",
    "comparisons of fields that aren't there": conditions("V", 60),
    "names that are near": conditions("W", 60, PACKET + filled("field V{0}=P u8 at 12;")[: LENGTH // 2 - 40].rpartition(";")[0] + ";"),
    "fields that no rule uses": PACKET + filled("field F{0}=P u8 at 12;")[: LENGTH - len(PACKET) - 30].rpartition(";")[0] + ";",
    "packets that no rule uses": filled("packet P{0}=mid 2179 length 99;"),
    "quiet comments": filled("# quiet: unused-field, unused-field\n"),
    "quiet names": "# quiet: " + "unused-field," * 2_500 + "\n" + PACKET + filled("field F{0}=P u8 at 12;")[: LENGTH // 2 - 200].rpartition(";")[0] + ";",
}

# Full texts as people write them: 176 rules, one comparison or ten each.
ORDINARY = {
    "176 rules of one comparison each": "".join(f"packet P{n}=mid {2304 + n} length 16;field V{n}=P{n} u16be at 12 stale 3;" for n in range(88))
    + "".join(RULE.format(n) + f"V{n % 88}{'<' if n < 88 else '>'}{100 + n};\n" for n in range(176)),
    "176 rules of four comparisons each": "packet P=mid 2179 length 99;"
    + "".join(f"field V{n}=P u16be at {12 + 2 * n} stale 3;" for n in range(40))
    + "".join(RULE.format(n) + " and ".join(f"V{(n + 7 * k) % 40}{'<>'[k % 2]}{(11 * n + k) % 4 * 100}" for k in range(4)) + ";\n" for n in range(176)),
}
