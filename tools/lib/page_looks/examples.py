"""The examples that are looked at: a run for each case that is hard to draw."""

import math

from course import Course, Rule


def field(packet, mid, type_, at, stale=2, **more):
    return {"packet": packet, "mid": mid, "type": type_, "at": at, "stale": stale, **more}


def wheels():
    """Eleven rules over four packets; tables are exchanged in flight, and again."""
    return wheels_run().data()


def wheels_part():
    """Of the run of wheels the part from second 130 to second 150: rows of failures began before it."""
    return wheels_run((130, 150)).data()


def wheels_run(window=None):
    fields, rules, late = {}, [], []
    for wheel in range(1, 5):
        fields[f"SPEED_{wheel}"] = field(f"WHEEL_{wheel}", 0x890 + wheel, "i16be", 12)
        fields[f"CURRENT_{wheel}"] = field(f"WHEEL_{wheel}", 0x890 + wheel, "u16be", 14)
        fields[f"HEAT_{wheel}"] = field(f"WHEEL_{wheel}", 0x890 + wheel, "i16be", 16)
    for kept, limit in [(rules, 6000), (late, 4500)]:
        for wheel in range(1, 5):
            condition = f"SPEED_{wheel} > {limit} or SPEED_{wheel} < -{limit}"
            kept.append(Rule(f"FAST_{wheel}", condition, 2, 30 + wheel, 1030 + wheel, says=f"wheel {wheel} too fast"))
        for wheel in range(1, 5):
            condition = f"CURRENT_{wheel} > 800 and not (SPEED_{wheel} > 50 or SPEED_{wheel} < -50) or HEAT_{wheel} > 700"
            kept.append(Rule(f"STUCK_{wheel}", condition, 3, 40 + wheel, 1040 + wheel, says=f"wheel {wheel} stuck"))
    late.append(Rule("TWO_HOT", "HEAT_1 > 700 xor HEAT_2 > 700", 2, 51, 1051, "passive", "critical", "one of two hot"))
    run = Course(fields, [rules, late], 100, "2000-01-01T12:00:00Z", window=window)
    run.started(0)
    for second in range(1, 60):
        run.after(1)
        if run.is_over:
            break
        if second in (20, 45):
            run.adopted(1 if second == 20 else 0)
        for wheel in range(1, 5):
            if wheel == 4 and 30 <= second < 36:
                continue  # its packets stay away: stale
            stuck = wheel == 3 and second >= 5
            speed = 0 if stuck else 1000 * wheel + 90 * second
            heat = 300 + 10 * second if wheel == 3 else 300 + second
            current = 900 if stuck and second < 30 else 200 + wheel
            short = wheel == 2 and second in (25, 26)
            values = {f"SPEED_{wheel}": speed, f"CURRENT_{wheel}": current, f"HEAT_{wheel}": None if short else heat}
            run.telemetry(f"WHEEL_{wheel}", **values)
        if second in (40, 42):
            run.command("mode", "passive" if second == 40 else "active")
        if second == 50:
            run.command("state", 0, "disabled")
        run.tick(housekeeping=second % 2 == 1)
    return run


def cells():
    """176 rules and fields with names of 32 letters, epochs of ten digits with fractions, and a long gap."""
    fields, rules = {}, []
    for cell in range(176):
        name = f"TEMPERATURE_OF_BATTERY_CELL_{cell:04}"
        fields["F" + name[1:]] = field(f"WHEEL_TELEMETRY_PACKET_NUMBER_{cell // 22:03}", 0x891 + cell // 22, "i16be", 12 + 2 * (cell % 22), 3)
        rules.append(Rule(name, f"F{name[1:]} > {500 + cell}", 1 + cell % 3, 30_000 + cell, 1_000 + cell, says=f"cell {cell} too warm"))
    run = Course(fields, [rules], 1_451_606_437.328_125, "1970-01-01T00:00:00Z")
    run.started(0)
    for second in range(90):
        run.after(600 if second == 60 else 1.015_625)
        for packet in range(8):
            values = {}
            for place in range(22):
                cell = packet * 22 + place
                values[f"FEMPERATURE_OF_BATTERY_CELL_{cell:04}"] = 300 + (second * 7 + cell * 11 + place * 37) % (330 + 3 * (cell % 60))
            run.telemetry(f"WHEEL_TELEMETRY_PACKET_NUMBER_{packet:03}", **values)
        run.tick(housekeeping=second % 2 == 1)
    return run.data()


def one_record():
    """A run of one record."""
    fields = {"VOLTS": field("BUS", 0x883, "u16be", 12)}
    run = Course(fields, [[Rule("LOW", "VOLTS < 2400", 2, 7, 1001, says="low volts")]], 100)
    run.telemetry("BUS", VOLTS=2390)
    return run.data()


def no_record():
    """A run of none: the stream was empty."""
    fields = {"VOLTS": field("BUS", 0x883, "u16be", 12)}
    return Course(fields, [[Rule("LOW", "VOLTS < 2400", 2, 7, 1001, says="low volts")]], 100).data()


def one_rule():
    """One rule over a masked field, whose numbers are in hex; the stream is cut."""
    fields = {"STATUS_WORD": field("BUS", 0x883, "u16be", 12, mask=0xFFF0)}
    rule = Rule("SWITCH_IS_OPEN", "STATUS_WORD >= 0x40 and STATUS_WORD < 0xA0 or STATUS_WORD == 0xFFF0", 2, 7, 1001, level="critical", says="open")
    run = Course(fields, [[rule]], 0.5)
    run.started(0)
    for second in range(40):
        run.after(0.25)
        if not 20 <= second < 26:
            run.telemetry("BUS", STATUS_WORD=(second * 0x10) % 0x130 if second != 33 else 0xFFF0)
        run.tick()
    return run.data(4, "record 75 is cut short", False)


def many():
    """100,000 records. One rule fails in ten samples within one column of the whole run, another one turns all the time."""
    fields = {name: field("BUS", 0x883, "i16be", 12 + 2 * place, 50) for place, name in enumerate(["VOLTS", "NOISE", "SPIKE"])}
    rules = [
        Rule("LOW", "VOLTS < 2400", 2, 7, 1001, says="low volts"),
        Rule("NOISY", "NOISE > 300 or NOISE < -300", 5, 8, 1002, says="noise", report=(1, 65_535, 65_535)),
        Rule("QUIET", "SPIKE > 30000", 3, 9, 1003, says="a spike"),
    ]
    run = Course(fields, [rules], 1_000_000)
    run.started(0)
    for second in range(49_999):
        run.after(1)
        volts = 2390 if 30_000 <= second < 30_010 else 2700 + (second // 500) % 9
        noise = round(320 * math.sin(second / 3) * math.sin(second / 700))
        run.telemetry("BUS", VOLTS=volts, NOISE=noise, SPIKE=32_000 if second == 41_000 else second % 97)
        run.tick(housekeeping=second % 10 == 0)
    return run.data()


def full():
    """100,000 records with every list of the data at its bound."""
    fields, rules = {}, []
    for place in range(176):
        fields[f"FIELD_WITH_A_VERY_LONG_NAME_{place:04}"] = field(f"P{place % 4}", 0x900 + place % 4, "i32be", 12 + 4 * (place // 4), 0)
    for place, name in enumerate(fields):
        rules.append(Rule(f"RULE_WITH_A_VERY_LONG_NAME_N{place:04}", f"{name} < -1000000000", 1, 60_000, 60_000, says="t" * 31, report=(0, 65_535, 65_535)))
    run = Course(fields, [rules], 2_000_000_000.5)
    run.started(0)
    packets = [[name for name in fields if fields[name]["packet"] == f"P{packet}"] for packet in range(4)]
    for second in range(23_300):
        run.after(60.7)
        for packet, names in enumerate(packets):
            values = {name: -1_999_999_999 + (second * 7_919 + place * 104_729) % 1_500_000_007 for place, name in enumerate(names)}
            run.telemetry(f"P{packet}", **values)
        if second % 5 == 0:
            run.tick()
        if second % 45 == 0:
            run.adopted(0)
        if second % 40 == 0:
            run.command("state", second % 176, "active")
    return run.data()


def back_in_time():
    """A stream whose times go back."""
    fields = {"VOLTS": field("BUS", 0x883, "u16be", 12)}
    run = Course(fields, [[Rule("LOW", "VOLTS < 2400", 2, 7, 1001, says="low volts")]], 100)
    run.started(0)
    for second in range(30):
        run.after(-20 if second == 15 else 1)
        run.telemetry("BUS", VOLTS=2300 + 10 * second)
        run.tick()
    return run.data()


def paused():
    """Ticks stop in the middle, as after a clock that is reset: from there on no rule is sampled though each is due."""
    fields = {"VOLTS": field("BUS", 0x883, "u16be", 12)}
    rules = [Rule("LOW", "VOLTS < 2400", 2, 7, 1001, says="low volts"), Rule("HIGH", "VOLTS > 3000", 2, 8, 1002, says="high volts")]
    run, begins = Course(fields, [rules], 100), None
    run.started(0)
    for second in range(40):
        run.after(1)
        run.telemetry("BUS", VOLTS=2600 - 10 * second)
        if second < 20:
            run.tick()
        if second == 21:
            begins = list(run.here)
    data = run.data()
    for lane in data["sampling"]:
        lane["gaps"] = [[*begins, data["figures"]["records"] + 1, data["end"], 1]]
    return data


def foreign():
    """Tables that are of none of the texts, texts with markup in their names, a checker that isn't there at first, and a packet that the host
    refuses."""
    fields = {"VOLTS": field("BUS", 0x883, "u16be", 12)}
    rules = [Rule("LOW", "VOLTS < 2400", 2, 7, 1001, says="low </script><b>volts"), Rule("NEVER", "VOLTS == 65535", says="never")]
    run = Course(fields, [rules], 3)
    for second in range(40):
        run.after(0.5)
        if second == 8:
            run.started(0)
        if second == 25:
            run.adopted(None)
        run.telemetry("BUS", VOLTS=2300 + 10 * second)
        if second == 12:
            run.faulty(4)
        run.tick()
    return run.data()


def unknown():
    """Requests of which the page can't say the rule, the text or both; of these no word may say null."""
    data = foreign()
    first, record, end = data["requests"][0], data["figures"]["records"], data["end"]
    packet = data["figures"]["packets"]
    for rule, text, one_of in [(None, None, []), (0, None, []), (None, 0, [0, 1])]:
        packet += 1
        data["requests"].append(
            {**first, "packet": packet, "record": record, "time": end, "rule": rule, "text": text, "event": None, "samples": [],
             "held": None, "counted": None if rule is None else 3, "one_of": one_of}
        )  # fmt: skip
        data["figures"]["packets"] += 1
        data["figures"]["requests"] += 1
    return data


def empty_part():
    """A part in which there is no record."""
    return {**no_record(), "window": {"from": 7_000_000, "until": None, "records": 298, "packets": 57}}


def storm():
    """5,612 requests: four rules that a procedure on the ground sets active again and again, and one whose event is a debug one."""
    fields = {name: field("BUS", 0x883, "i16be", 12 + 2 * place, 5) for place, name in enumerate(["TILT", "RATE", "VOLTS", "HEAT"])}
    rules = [
        Rule("TILT_HIGH", "TILT > 1200", 1, 21, 1021, says="tilt high", level="critical"),
        Rule("RATE_HIGH", "RATE > 50 or RATE < -50", 3, 22, 1022, says="rate high"),
        Rule("VOLTS_LOW", "VOLTS < 2400", 2, 23, 1023, says="volts low", level="debug"),
        Rule("HEAT_HIGH", "HEAT > 700", 2, 24, 1024, says="too hot", level="info"),
    ]
    run = Course(fields, [rules], 50_000, "2024-02-29T00:00:00Z", off=("debug",), filtered=(1024,))
    run.started(0)
    second = 0
    while run.figures["requests"] < 5_612:
        second += 1
        run.after(1)
        wave = second % 12
        run.telemetry("BUS", TILT=1300 if wave < 6 else 900, RATE=60 if wave < 8 else 0, VOLTS=2300 if wave < 4 else 2700, HEAT=800 if wave < 3 else 300)
        run.tick(housekeeping=second % 10 == 0)
        if second == 40:
            run.command("mode", "disabled")
        if second == 60:
            run.command("mode", "active")
        if wave in (3, 10):
            for rule in range(4):
                run.command("state", rule, "active")
    run.command("state", 3, "off")
    return run.data()


EXAMPLES = [wheels, wheels_part, storm, unknown, empty_part, cells, one_record, no_record, one_rule, many, full, back_in_time, paused, foreign]
