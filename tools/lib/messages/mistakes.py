"""Rule texts with one mistake each, made from texts that compile, by a seed."""

import glob
import os
import random
import re

TOP = os.path.dirname(os.path.dirname(os.path.dirname(os.path.dirname(os.path.abspath(__file__)))))
TOKEN = re.compile(r'#[^\n]*|"[^"\n]*"|-?\d\w*|[A-Za-z_]\w*|[<>=!]=|[<>=;()]|\S')
WORDS = (
    "packet field rule mid length at mask stale active passive disabled fails sequence event debug info error critical report when or "
    "xor and not"
).split()
TYPES = "u8 i8 u16be u16le i16be i16le u32be u32le i32be i32le".split()
TWO_PACKETS = """packet BUS = mid 0x0883 length 24;
packet AUX = mid 0x0884 length 16;
field VOLTS = BUS u16be at 12 stale 3;
field CURRENT = BUS i16be at 14 mask 0xFF stale 3;
field TEMP = AUX i8 at 12;

rule LOW active fails 2 sequence 7 event error 1001 "low volts" when VOLTS < 2400;
rule HIGH passive fails 3 sequence 8 event critical 1002 "high; the rule fails" report 1 2 3
  when not (VOLTS >= 2400 and CURRENT != -5) xor TEMP == 7;
"""


def texts():
    """The texts that mistakes are made in."""
    found = [TWO_PACKETS, TWO_PACKETS.replace("\n", " ")]
    for name in sorted(glob.glob(f"{TOP}/crates/analysis_rows/data/*.rules")):
        with open(name, encoding="ascii") as file:
            found.append(file.read())
    return found


def tokens(text):
    return [(found.start(), found.group()) for found in TOKEN.finditer(text) if not found.group().startswith("#")]


def cut(text, at, size, new=""):
    return text[:at] + new + text[at + size :]


def is_word(token):
    return re.match(r"[A-Za-z_]{4,}$", token) is not None


def is_name(token):
    return re.match(r"[A-Z]", token) is not None


def is_number(token):
    return re.match(r"\d+$", token) is not None


class Mistakes:
    """Each method but the first three makes one mistake, or none where the text has no place for it."""

    def __init__(self, seed):
        self.random = random.Random(seed)

    def pick(self, text, test=lambda token: True):
        found = [token for token in tokens(text) if test(token[1])]
        return self.random.choice(found) if found else (None, "")

    def put(self, text, test, new):
        at, token = self.pick(text, test)
        return None if at is None else cut(text, at, len(token), new(token))

    def left_out(self, text):
        return self.put(text, lambda token: True, lambda token: "")

    def twice(self, text):
        return self.put(text, lambda token: True, lambda token: f"{token} {token}")

    def letters_swapped(self, text):
        def swapped(word):
            at = self.random.randrange(len(word) - 1)
            return word[:at] + word[at + 1] + word[at] + word[at + 2 :]

        return self.put(text, is_word, swapped)

    def letter_missing(self, text):
        def shorter(word):
            at = self.random.randrange(len(word))
            return word[:at] + word[at + 1 :]

        return self.put(text, is_word, shorter)

    def word_parted(self, text):
        def parted(word):
            at = self.random.randrange(1, len(word))
            return f"{word[:at]} {word[at:]}"

        return self.put(text, is_word, parted)

    def stray(self, text):
        sign = self.random.choice("@%$:,?;=<)(")
        at, _ = self.pick(text)
        return cut(text, at, 0, f"{sign} ")

    def stray_inside(self, text):
        sign = self.random.choice("@%$:,?")
        at, token = self.pick(text)
        return cut(text, at + self.random.randrange(len(token)), 0, sign)

    def one_equals(self, text):
        return self.put(text, lambda token: token == "==", lambda token: "=")

    def sign_for_word(self, text):
        signs = {"and": "&&", "or": "||", "not": "!", "xor": "^"}
        return self.put(text, lambda token: token in signs, lambda token: signs[token])

    def capitals(self, text):
        return self.put(text, lambda token: token in WORDS, str.upper)

    def unit(self, text):
        return self.put(text, is_number, lambda number: f"{number}mV")

    def too_large(self, text):
        return self.put(text, is_number, lambda number: "99999999")

    def far_too_large(self, text):
        return self.put(text, is_number, lambda number: "99999999999")

    def point(self, text):
        return self.put(text, is_number, lambda number: f"{number}.5")

    def quote_left_open(self, text):
        return self.put(text, lambda token: token[0] == '"', lambda token: token[:-1])

    def quote_not_opened(self, text):
        return self.put(text, lambda token: token[0] == '"' and len(token) > 2, lambda token: token[1:])

    def letter_not_ascii(self, text):
        return self.put(text, lambda token: token[0] == '"', lambda token: '"\u00fc' + token[1:])

    def text_too_long(self, text):
        return self.put(text, lambda token: token[0] == '"', lambda token: '"' + 32 * "x" + '"')

    def neighbours(self, text):
        found = tokens(text)
        number = self.random.randrange(len(found) - 1)
        (at, first), (behind, second) = found[number], found[number + 1]
        between = text[at + len(first) : behind]
        return text[:at] + second + between + first + text[behind + len(second) :]

    def other_name(self, text):
        return self.put(text, is_name, lambda name: "QQQQQQ")

    def declared_again(self, text):
        lines = [line for line in text.split("\n") if line.startswith(("packet", "field")) and line.count(";") == 1]
        return text + self.random.choice(lines) + "\n" if lines else None

    def line_left_out(self, text):
        lines = text.split("\n")
        found = [line for line in lines if line.startswith("packet") and line.count(";") == 1]
        if not found:
            return None
        lines.remove(self.random.choice(found))
        return "\n".join(lines)

    def name_of_another(self, text):
        found = tokens(text)
        declared = [found[number + 1] for number in range(len(found) - 1) if found[number][1] in ("packet", "field")]
        if len(declared) < 2:
            return None
        (at, name), (_, other) = self.random.sample(declared, 2)
        return cut(text, at, len(name), other)

    def word_for_a_name(self, text):
        found = tokens(text)
        declared = [found[number + 1] for number in range(len(found) - 1) if found[number][1] in ("packet", "field", "rule")]
        at, name = self.random.choice(declared)
        return cut(text, at, len(name), self.random.choice(WORDS + TYPES))

    def other_type(self, text):
        return self.put(text, lambda token: token in TYPES, lambda token: "uint16")

    def field_for_a_number(self, text):
        return self.put(text, is_number, lambda number: "VOLTS")

    def comment(self, text):
        at, _ = self.pick(text, lambda token: token[0] == '"')
        return None if at is None or text.count("\n") < 3 else cut(text, at, 0, "# ")

    def cut_off(self, text):
        at, _ = self.random.choice(tokens(text)[5:])
        return text[:at]

    def one(self):
        """A mistake's name, and a text with it."""
        kinds = sorted(name for name in vars(Mistakes) if not name.startswith("_") and name not in ("one", "pick", "put"))
        while True:
            kind = self.random.choice(kinds)
            text = self.random.choice(texts())
            made = getattr(self, kind)(text)
            if made is not None and made != text:
                return kind, made
