"""Space packets as datagrams for the bridge, what each of them is, and noise."""

import random

# What a datagram is, in the order in which the bridge counts what it drops.
NO_PACKET, COMMAND, NO_TIME, SEGMENT, LONG, OWN = DROPPED = ("no packet", "command", "without a secondary header", "segment", "over 2,048 bytes", "event or housekeeping")
TELEMETRY = "telemetry"


def packet(message_id, moment, payload, flags=0xC0):
    """A packet with both headers of telemetry; the moment is seconds and 1/65,536 s."""
    seconds, part = moment
    time = seconds.to_bytes(4, "big") + part.to_bytes(2, "big")
    return message_id.to_bytes(2, "big") + bytes([flags, 0]) + (len(payload) + 5).to_bytes(2, "big") + time + payload


def kind_of(datagram):
    """What a datagram is, from docs/FORMATS.md."""
    if len(datagram) < 7 or int.from_bytes(datagram[4:6], "big") + 7 != len(datagram) or datagram[0] >= 0x20:
        return NO_PACKET
    if datagram[0] & 0x10:
        return COMMAND
    if not datagram[0] & 0x08 or len(datagram) < 12:
        return NO_TIME
    if datagram[2] < 0xC0:
        return SEGMENT
    if len(datagram) > 2048:
        return LONG
    return OWN if datagram[:2] in (b"\x08\x08", b"\x08\xA7") else TELEMETRY


def examples():
    """A datagram at each edge of each kind, with what it is."""
    fine = packet(0x0883, (50, 0), bytes(12))
    return [
        (NO_PACKET, b""),
        (NO_PACKET, fine[:6]),
        (NO_PACKET, fine[:-1]),
        (NO_PACKET, fine + b"\0"),
        (NO_PACKET, b"\x28" + fine[1:]),
        (COMMAND, b"\x18" + fine[1:]),
        (COMMAND, b"\x10\x01\xC0\0\0\0\0"),
        (NO_TIME, b"\x00" + fine[1:]),
        (NO_TIME, b"\x08\x83\xC0\0\0\x04" + bytes(5)),
        (SEGMENT, packet(0x0883, (50, 0), bytes(12), 0x80)),
        (SEGMENT, packet(0x0883, (50, 0), bytes(12), 0x00)),
        (LONG, packet(0x0883, (50, 0), bytes(2037))),
        (LONG, packet(0x0883, (50, 0), bytes(65495))),
        (OWN, packet(0x0808, (50, 0), bytes(156))),
        (OWN, packet(0x08A7, (50, 0), bytes(180))),
    ]


def noise(number, seed, telemetry):
    """So many datagrams: bytes by chance, packets with a few other bytes, packets cut or with bytes behind, and those of every kind
    that is dropped."""
    chance = random.Random(seed)
    pool = chance.randbytes(1 << 20)
    others = [datagram for _, datagram in examples() if len(datagram) < 4096]
    draw = chance.random
    for n in range(number):
        sort = n & 7
        at = int(draw() * 1_000_000)
        if sort < 4:
            yield pool[at : at + (pool[at] % 64 if sort else 9 * pool[at])]
            continue
        spoiled = bytearray(telemetry[at % len(telemetry)])
        if sort < 6:
            for place in pool[at : at + 1 + at % 3]:
                # The seconds are spoiled in one of a hundred: each leads to sixty ticks.
                if not 6 <= place % 24 < 10 or at % 100 == 0:
                    spoiled[place % 24] = pool[at + 9]
            yield spoiled
        elif sort == 6:
            yield (spoiled + pool[at : at + 9])[: at % 34]
        else:
            yield others[at % len(others)]
