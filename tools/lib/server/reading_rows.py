"""Texts whose outlines are compared with readings of them, beside the examples of the repository."""

from language_rows import BUS, HEAD, PACKET, WIDE
from mistakes import TYPES


def with_line_ends(text):
    """A text with each line end that an editor knows. A carriage return alone ends no comment."""
    return list(dict.fromkeys([text, text.replace("\n", "\r\n"), *([] if "#" in text else [text.replace("\n", "\r")])]))


# How many bytes stand before the first field.
FIRST = 12


def masks(kind):
    """Masks for a field of a type: none, the last bit, the first one, all, and the first two."""
    bits = int("".join(it for it in kind if it.isdigit()))
    return ["", " mask 0x1", f" mask {2 ** (bits - 1)}", f" mask 0x{2**bits - 1:x}", f" mask 0x{3 << bits - 2:X} stale 1"]


ALL_TYPES = "packet P = mid 0x0883 length 2048;\n" + "".join(
    f"field {kind}_{number} = P {kind} at {FIRST + 20 * place + 4 * number}{mask};\n".replace(f"field {kind}", f"field F_{kind.upper()}")
    for place, kind in enumerate(TYPES)
    for number, mask in enumerate(masks(kind))
)
FULL_PACKETS = "".join(
    f"packet P{count} = mid {0x900 + count} length 99;\n"
    + "".join(f"field F{count}_{it} = P{count} u8 at {12 + it};\n" for it in range(count))
    for count in (0, 1, 20, 21, 23)
)
RULES = f"""# one
  # two, of two
\t# three


packet BUS=mid 0x0883 length
  16; field V=BUS u16be
 at
 12 stale 1000; # {WIDE}
field W = BUS i8 at 14 mask 0x80 stale 0;

rule FIRST disabled fails 1 sequence 1 event debug 1001 "{'x' * 31}" when V<2400;
# before
rule SECOND active fails 65535 sequence 65535 event info 1002 "" report 1 2 3
  # inside
  # and more
  when not (V<=1 and (W != -128 or (not V >= 7)));
  rule THIRD passive fails 2 sequence 0x3 event critical 1003 "t; rule # X" when(V==1)xor V>2 and W==0;
rule NEVER active fails 1 sequence 4 event error 1004 "never" when V < 1 and V > 2;
#last
# of all"""
# This does not compile: masks are too wide or empty, and a name is declared twice.
UNSOUND = (
    f"{PACKET}\nfield V = P u8 at 12 mask 0x1FF; field W = P i16be at 12 mask 0x10000; field X = P u8 at 12 mask 0 stale 2;\n"
    f'{HEAD}"" when V < 1;\npacket P = mid 0x0884 length 16;\n'
)
# A field with two names: each rule's values have the name that stands in its condition.
TWO_NAMES = f"""{PACKET}
field OLD = P u16be at 12; field NEW = P u16be at 12;
rule FIRST active fails 1 sequence 1 event info 1001 "" when OLD < 9;
rule SECOND active fails 1 sequence 2 event info 1002 "" when NEW < 8;
rule THIRD active fails 1 sequence 3 event info 1003 "" when OLD > 7;
rule FOURTH active fails 1 sequence 4 event info 1004 "" when NEW > 6;
"""
TEXTS = [ALL_TYPES, FULL_PACKETS, BUS.replace("\n", " "), TWO_NAMES, *with_line_ends(RULES), *with_line_ends(UNSOUND)]

SECOND = """packet LAMP = mid 0x0890 length 17;
field BRIGHT = LAMP u8 at 12; field DARKNESS = LAMP i32le at 13;
rule DARK active fails 1 sequence 9 event info 1009 "" when BRIGHT < 1;
rule LOW active fails 1 sequence 10 event info 1010 "other" when DARKNESS > 1;
"""
# Every statement, in every form.
SCENARIO = f"""# a
  # b \u00e9
\t# c
at 100 0 # {WIDE} at
after  5
fields 0883 0 16 u16be 12 2750 i16be 14 -21 u8 16 0x0f
fields 0AbC 1 12
telemetry 0883 0 00ff
telemetry 0883 0 -
command 18A4 2 -
tick
sample 0 175 age
sample 65535 65535 keep
housekeeping
start LC
stop SCH
restart COUNTER
reload OTHER
load /cf/a.tbl
validate LC.LC_WDT
activate LC.LC_ADT
abort other.table
wdt 0 /cf/lc_def_wdt.tbl
adt 1 tick
file /cf/x 00FF
packet 1806c00000010000
record 0 65535 packet 00
record 1 0 tick -
record 1 0 file 00
record 1 0 half 00
BUS
  BUS   VOLTS=0x0FFF
BUS VOLTS=1 VOLTS=-0x1f VOLTS= X=1 VOLTS=x AMPS=12
LAMP BRIGHT=2 DARKNESS=3
ramp VOLTS 2420 -2360 by 10 each 1 tick
ramp BRIGHT 0x1 9 by 1 each 2
repeat 2 {{
  repeat  3 {{
    after 1
    repeat 4 {{
    }}
  }} # end
  repeat 5 {{
    at 7 0
}}
}}
mode active
mode passive
mode disabled
state LOW active
state 0:LOW passive
state 1:LOW disabled
state 12:DARK off
state all active
state 7 off
filter LC 1001 0xFFFF
filter OTHER 5 1
expect sequence
expect sequence 7
expect sequence 7 from 1 until 9
expect sequence by 4
expect event
expect event 1001 at 5
expect event HOST
expect event HOST 26 from 1 by 9
expect event until 3
expect no sequence
expect no sequence 8 at 4
expect no event
expect no event HOST 5
expect no event 1002 by 3
expect state HOT off
expect state 1:DARK passive
expect result LOW none
expect result HOT pass
expect result LOW fail
expect result 0:LOW stale
expect result DARK error # {WIDE}
repeat 9 {{
tick"""
SCHEDULE = f"""# two
#three {WIDE}

slots  2
0 sample 0 175 age
0 sample 65535 65535 keep
\t1   housekeeping
  # four
  # five"""
# Repetitions that are not closed, or closed without one.
BLOCKS = "}\nrepeat 2 {\nrepeat 3 {\ntick\n}\nafter 1\n}\n}\nrepeat 4 {\nat 5 0"
