"""Mistakes of which the edit gives back the text that was meant, token by token."""

import json

from mistakes import tokens

RIGHT = """packet BUS = mid 0x0883 length 24;
packet AUX = mid 0x0884 length 16;
field VOLTS = BUS u16be at 12 stale 3;
field CURRENT = BUS i16be at 14 mask 0xFF stale 3;
field TEMP = AUX i8 at 12;
rule LOW active fails 2 sequence 7 event error 1001 "low volts" when VOLTS < 2400 and CURRENT >= -24;
rule HIGH passive fails 3 sequence 8 event critical 1002 "high" report 1 2 3
  when not (VOLTS <= 2400 or CURRENT != -5) xor TEMP == 7 and TEMP > 0x0F;
"""

# What is right, and what is written in its place.
WRONG = [
    # numbers on the left, with each sign
    ("VOLTS < 2400", "2400 > VOLTS"),
    ("CURRENT >= -24", "-24 <= CURRENT"),
    ("VOLTS <= 2400", "2400 >= VOLTS"),
    ("CURRENT != -5", "-5 != CURRENT"),
    ("TEMP == 7", "7 == TEMP"),
    ("TEMP > 0x0F", "0x0F < TEMP"),
    # signs of other languages, with blanks beside them and without
    ("2400 and CURRENT", "2400 && CURRENT"),
    ("2400 and CURRENT", "2400&&CURRENT"),
    ("2400 and CURRENT", "2400 &&CURRENT"),
    ("2400 and CURRENT", "2400&& CURRENT"),
    ("2400 and CURRENT", "2400 & CURRENT"),
    ("2400 or CURRENT", "2400||CURRENT"),
    (") xor TEMP", ")^TEMP"),
    ("when not (", "when !("),
    ("when not (", "when ! ("),
    ("not (VOLTS", "not [VOLTS"),
    ("-5) xor", "-5} xor"),
    ("<= 2400", "=< 2400"),
    (">= -24", "=> -24"),
    ("!= -5", "<> -5"),
    ("when not (", "when ~("),
    # signs of documents and of mathematics
    (">= -24", ">= \u221224"),
    (">= -24", ">= \u201324"),
    (">= -24", ">=\u201024"),
    ("<= 2400", "\u2264 2400"),
    (">= -24", "\u2265 -24"),
    ("!= -5", "\u2260 -5"),
    ("when not (", "when \u00ac("),
    ("2400 and CURRENT", "2400 \u2227 CURRENT"),
    ("2400 or CURRENT", "2400 \u2228 CURRENT"),
    ("== 7", "= 7"),
    ("length 24;", "length 24; // the bus"),
    # quotes
    ('"low volts"', "'low volts'"),
    ('"low volts"', "`low volts`"),
    ('"low volts"', "\u201clow volts\u201d"),
    ('"low volts"', "\u2018low volts\u2019"),
    ('"low volts"', "\u00ablow volts\u00bb"),
    ('"low volts"', "\u2039low volts\u203a"),
    # names, numbers and blanks
    ("when VOLTS", "when BUS.VOLTS"),
    ("and CURRENT", "and BUS.CURRENT"),
    ("VOLTS < 2400", "VOLT < 2400"),
    ("< 2400", "< 24_00"),
    ("< 2400", "< 2_4_0_0"),
    ("< 2400", "< 2400mV"),
    (">= -24", ">= -24mV"),
    (">= -24", ">= -2_4"),
    (">= -24", ">= - 24"),
    ("0x0F", "0X0F"),
    ("0x0F", "0x_0F"),
    ("mid 0x0884", "mid 0884"),
    ("when VOLTS", "when\u00a0VOLTS"),
    ("when VOLTS", "when \u3000VOLTS"),
    ("VOLTS < 2400", "VOLTS\u200a< 2400"),
    ("VOLTS < 2400", "VOL\u200bTS < 2400"),
    ("VOLTS < 2400", "VOL\u00adTS < 2400"),
    ("packet BUS", "\ufeffpacket BUS"),
    # words
    ("not (", "nto ("),
    ("not (", "NOT ("),
    ("stale 3;\nfield TEMP", "stlae 3;\nfield TEMP"),
    ("stale 3;\nfield CURRENT", "satle 3;\nfield CURRENT"),
    ("mask 0xFF", "maks 0xFF"),
    ("report 1 2 3", "reprot 1 2 3"),
    ("  when not", "  wehn not"),
    ("  when not", "  if not"),
    ("u16be at 12", "u16eb at 12"),
    ("i8 at 12", "8i at 12"),
    ("packet AUX", "pakcet AUX"),
    ("field TEMP", "feild TEMP"),
    ("rule LOW", "Rule LOW"),
    ("active", "actvie"),
    ("event error", "event eror"),
    ("critical", "Critical"),
    # clauses
    ("length 16;", "length 16"),
    ("mask 0xFF stale 3", "stale 3 mask 0xFF"),
    ("fails 2 sequence 7", "sequence 7 fails 2"),
    ("at 12 stale 3", "at 12 stale 3 stale 3"),
    ("fails 2 sequence", "fails 2 fails sequence"),
    # what is too many
    ("-24;", "-24);"),
    ("-24;", "-24)));"),
    ("-24;", "-24 ) ) ;"),
    ("fails 2", "fails @ 2"),
    ("fails 2", "fails 2,"),
]


def texts():
    """The right text, and each wrong one, by names; what is right stands there once."""
    found = {"right": RIGHT}
    for number, (right, wrong) in enumerate(WRONG):
        assert RIGHT.count(right) == 1, right
        found[f"{number:03}"] = RIGHT.replace(right, wrong)
    return found


def is_right(text):
    return [token for _, token in tokens(text)] == [token for _, token in tokens(RIGHT)]


def faults(said, applied):
    """What isn't so, by the JSON that `check` says of all texts: the edit of a text's first message makes it right."""
    wrong, first = texts(), {}
    for line in said.splitlines():
        message = json.loads(line)
        if message["level"] == "error":
            first.setdefault(message["file"], message)
    for name, text in wrong.items():
        message = first.get(name)
        if name == "right":
            if message:
                yield f"the right text has an error: {message['message']}"
        elif not message or not message["edit"]:
            yield f"no edit for {WRONG[int(name)]}"
        elif not is_right(applied(text, message["edit"])):
            yield f"the edit for {WRONG[int(name)]} is {message['edit']}"
