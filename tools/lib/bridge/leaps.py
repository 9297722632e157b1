"""What the bridge makes of the times of packets: rows by hand, and a reader of its own of the rule that they follow.

A word `100` is a packet of message id 0x0883 at second 100, `b5` and `c5` are packets of two other ids, `!` marks a value for which a
rule fails; `t41-60` are the ticks of the seconds 41 to 60."""

import random
import re

from datagrams import packet

EARLY, LATE, RUN, TICKS, HELD, LARGEST = 10, 60, range(2, 61), 60, 1 << 20, 11 + 2048

# The name of a row, its packets, what is fed, and how many packets leap and how many leaps are confirmed.
ROWS = [
    ("a leap forward makes no tick", "100 101! b5000 102", "100 t101 101! b5000 t102 102", 1, 0),
    ("a leap forward at the end is fed", "100 101! b5000", "100 t101 101! b5000", 1, 0),
    ("a confirmed leap forward: ticks come before its packet", "100 101 500! 501 502", "100 t101 101 t441-500 500! t501 501 t502 502", 2, 1),
    ("a leap of less than sixty seconds", "100 b130 102 b131 103 133", "100 b130 t101-102 102 b131 t103 103 133", 3, 0),
    ("a confirmed leap of less than sixty seconds", "100 130 b130 b132", "100 t101-130 130 b130 t131-132 b132", 2, 1),
    ("a step back makes no tick", "5000 100 5001", "5000 100 t5001 5001", 1, 0),
    ("ticks go on after a confirmed step back", "5000 100 101 102 103", "5000 100 t101 101 t102 102 t103 103", 2, 1),
    ("two clocks in turn", "100 5000 100 5001 101 5001 101 5002 102 5002 102 5003 103", "100 5000 100 5001 t101 101 5001 101 5002 t102 102 5002 102 5003 t103 103", 6, 0),
    ("two clocks in turn, the first of them ahead", "5000 b100 5001 b101 5002 b102 5003", "5000 b100 t5001 5001 b101 t5002 5002 b102 t5003 5003", 3, 0),
    ("a clock that stands still confirms nothing", "100 b0 c0 101 b0 c0 b0 102", "100 b0 c0 t101 101 b0 c0 b0 t102 102", 5, 0),
    ("a clock that stands still holds nothing up", "b0 100 b0 101 b0 102 b0 103", "b0 t41-100 100 b0 t101 101 b0 t102 102 b0 t103 103", 3, 1),
    ("a jump of the clock beside one that stands still", "100 b0 5000 b0 5001 b0 5002 b0 5003", "100 t4941-5000 b0 5000 b0 t5001 5001 b0 t5002 5002 b0 t5003 5003", 6, 1),
    ("telemetry every hundred seconds", "100 200 300 400", "100 t141-200 200 t241-300 300 400", 3, 2),
    ("three clocks confirm nothing", "100 200 b300 c5000 101", "100 200 b300 c5000 t101 101", 3, 0),
    ("ten seconds ahead, sixty behind", "100 110 50 49 111 122 112", "100 t101-110 110 50 49 t111 111 122 t112 112", 2, 0),
    ("another id confirms sixty seconds later", "100 200 b260", "100 t141-200 200 b260", 2, 1),
    ("another id confirms nothing after that", "100 200 b261 101", "100 200 b261 t101 101", 2, 0),
    ("what leapt before and comes again", "100 5000 101 5001 102 5002 5003 5004", "100 5000 t101 101 5001 t102 102 t4943-5002 5002 t5003 5003 t5004 5004", 4, 1),
    ("the first packet leapt", "5000! 100 101 102 b103", "5000! 100 t101 101 t102 102 t103 b103", 2, 1),
    ("the last second there is", "4294967290 4294967295 0 1 2", "4294967290 t4294967291-4294967295 4294967295 0 t1 1 t2 2", 2, 1),
]
IDS = {"": 0x0883, "b": 0x0884, "c": 0x0885}


def packet_of(word):
    """The packet that a word says. The bus has 28 V, or 35 V, which a rule does not bear; the battery is charged to 80 %."""
    name, second, failing = re.fullmatch(r"([bc]?)(\d+)(!?)", word).groups()
    volts = 3500 if failing else 2800
    return packet(IDS[name], (int(second), 0), volts.to_bytes(2, "big") + bytes([0, 0, 80]) + bytes(7))


def fed_of(text):
    """What is fed: the second of a tick, or a packet."""
    fed = []
    for word in text.split():
        if word.startswith("t"):
            first, _, last = word[1:].partition("-")
            fed += range(int(first), int(last or first) + 1)
        else:
            fed.append(packet_of(word))
    return fed


def second_of(datagram):
    return int.from_bytes(datagram[6:10], "big")


class Reader:
    """What the bridge feeds, in a form of its own: for each packet that waits, whether it leapt; and for each second and each message id
    the place of the first leap that waits."""

    def __init__(self):
        self.now, self.fed, self.leaps, self.confirmed = None, [], 0, 0
        self.forget()

    def forget(self):
        self.waiting, self.bytes, self.by_second, self.by_id = [], 0, {}, {}

    def leaps_at(self, second):
        return not self.now - LATE <= second <= self.now + EARLY

    def tick_to(self, second):
        self.fed += range(max(self.now + 1, second + 1 - TICKS), second + 1)
        self.now = second

    def feed_waiting(self):
        waiting = self.waiting
        self.forget()
        for it in waiting:
            self.feed(it)

    def feed(self, datagram):
        if self.now < second_of(datagram) <= self.now + EARLY:
            self.tick_to(second_of(datagram))
        self.fed.append(datagram)

    def confirmed_by(self, datagram):
        """The place of the first packet that waits and that this one confirms."""
        second = second_of(datagram)
        places = [self.by_second[it] for it in range(second - RUN[-1], second - RUN[0] + 1) if it in self.by_second]
        places += [place for it, place in self.by_id.get(datagram[:2], {}).items() if second - it >= RUN[0]]
        return min(places, default=None)

    def take(self, datagram):
        second = second_of(datagram)
        if self.now is None:
            self.now = second
        place = self.confirmed_by(datagram) if self.leaps_at(second) else None
        goes_on = self.now < second <= self.now + EARLY
        if place is None and not goes_on and self.bytes > HELD - LARGEST:
            place = 0
        if place is not None:
            self.confirmed += 1
            self.tick_to(second_of(self.waiting[place]))
            self.feed_waiting()
        if not self.leaps_at(second) and (goes_on or not self.waiting):
            self.feed_waiting()
            self.feed(datagram)
            return
        if self.leaps_at(second):
            self.leaps += 1
            self.by_second.setdefault(second, len(self.waiting))
            self.by_id.setdefault(datagram[:2], {}).setdefault(second, len(self.waiting))
        self.waiting.append(datagram)
        self.bytes += 11 + len(datagram)


def read(datagrams):
    """A reader that has read these packets to their end."""
    reader = Reader()
    for it in datagrams:
        reader.take(it)
    reader.feed_waiting()
    return reader


def clocks(number, seed):
    """So many packets of seven senders: some clocks run together, one is far ahead, one stands still, one is an hour behind, one is
    spoiled now and then; all of them step now and then."""
    chance = random.Random(seed)
    offsets = [0, 0, 0, 37, 90_000, -3600, 0]
    found, time = [], 20_000.0
    for _ in range(number):
        time += chance.expovariate(4) if chance.random() < 0.99 else 40 * chance.random()
        sender = chance.randrange(7)
        if chance.random() < 0.002:
            offsets[sender] += chance.choice((-5000, -90, -30, 30, 90, 5000))
        second = 7 if sender == 4 and chance.random() < 0.9 else int(time) + offsets[sender]
        if chance.random() < 0.01:
            second ^= 1 << chance.randrange(32)
        found.append(packet(0x0883 + sender % 5, (second % 2**32, chance.randrange(65_536)), bytes(12)))
    return found


def full():
    """A leap, and then more than is held of a clock that stands still."""
    return [packet_of("100"), packet_of("5000")] + [packet(0x0884, (100, n), bytes(2036)) for n in range(520)] + [packet_of(it) for it in ("5001", "5002")]
