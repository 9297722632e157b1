"""Packets and records as rows by Python's own modules, as a flight team would write it: `tools/dev/measure rows` runs it beside flight_tools.

    python3 tools/lib/python_rows.py packets|stream --csv|--json FILE

It knows what `measure rows` makes: events, requests and housekeeping of the Limit Checker, and records of telemetry."""

import csv
import json
import struct
import sys

PACKET_NAMES = "number time utc kind sender id level text sequence count message_id size says".split()
RECORD_NAMES = "number time utc kind says size".split()
LEVELS = {1: "debug", 2: "information", 3: "error", 4: "critical"}
STATES = {1: "active", 2: "passive", 3: "disabled", 4: "off"}
RESULTS = ["none", "pass", "fail", "stale", "error"]


def time(seconds, part):
    return f"{seconds}.{part * 100_000 // 65_536:05}"


def text_of(field):
    return field.split(b"\0", 1)[0].decode("ascii")


def event(packet):
    seconds, part, sender, id, level = struct.unpack_from(">IH20sHH", packet, 6)
    sender, text = text_of(sender), text_of(packet[44:166])
    level = LEVELS[level]
    return time(seconds, part), "event", sender, id, level, text, None, f"{sender} {id} {level}: {text}"


def housekeeping(packet):
    seconds, part, mode, count = struct.unpack_from(">IHHH", packet, 6)
    rules = (f"{rule} {STATES[it >> 4]} {RESULTS[it & 15]}" for rule, it in enumerate(packet[16 : 16 + count]))
    text = f"{STATES[mode]}, {count} rules: {', '.join(rules)}"
    return time(seconds, part), "housekeeping", "LC", None, None, text, None, f"LC housekeeping: {text}"


def request(packet):
    count, sequence = struct.unpack_from(">2xH4xH", packet)
    return None, "request", None, None, None, None, sequence, f"sequence request {sequence}, count {count & 0x3FFF}"


CONTENT = {0x0808: event, 0x08A7: housekeeping, 0x18A9: request}


def packets(file):
    number = 0
    while head := file.read(6):
        mid, count, size = struct.unpack(">HHH", head)
        packet = head + file.read(size + 1)
        number += 1
        moment, kind, sender, id, level, text, sequence, says = CONTENT[mid](packet)
        yield [number, moment, None, kind, sender, id, level, text, sequence, count & 0x3FFF, f"0x{mid:04X}", len(packet), says]


def records(file):
    number = 0
    while head := file.read(11):
        _, seconds, part, size = struct.unpack(">BIHI", head)
        body = file.read(size)
        number += 1
        says = f"{body[:2].hex()} telemetry {size} bytes"
        yield [number, time(seconds, part), None, "packet", says, 11 + size]


def main(what, form, name):
    names, rows = (PACKET_NAMES, packets) if what == "packets" else (RECORD_NAMES, records)
    with open(name, "rb") as file:
        if form == "--csv":
            writer = csv.writer(sys.stdout, lineterminator="\n")
            writer.writerow(names)
            writer.writerows(rows(file))
        else:
            encode = json.JSONEncoder(separators=(",", ":"), sort_keys=True).encode
            for row in rows(file):
                sys.stdout.write(encode(dict(zip(names, row))) + "\n")


if __name__ == "__main__":
    main(*sys.argv[1:])
