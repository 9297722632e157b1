"""What is asked of single examples beside what is asked of all."""

import re


def expect_ten_failures(look):
    """Ten failing samples within one column of 100,000 records are seen at each width, and keys come to the record and the time."""
    for width in [1400, 420]:
        look.show(width, 900)
        column = look.ask(
            "(() => { const fail = lanes[0].track.querySelector('.cell.fail'); if (!fail) return null;"
            " const box = fail.getBoundingClientRect(); return [box.width, box.height, box.left - fail.parentElement.getBoundingClientRect().left]; })()"
        )
        look.expect(column is not None and column[0] >= 3.9 and column[1] > 18, f"the ten failures aren't seen: {column}")
    look.show()
    for _ in range(12):
        look.do("[...lanes[0].track.querySelectorAll('.cell.fail')][0].focus()")
        if look.ask("document.activeElement.matches(':not(.many)') && document.activeElement.clientWidth > 4"):
            break
        if look.ask("document.activeElement.matches('.many')"):
            look.browser.key("Enter", 13)
        else:
            look.do("const span = lanes[0].spans.find(each => each.results & 32); zoomTo(span.from, span.to)")
    name = look.ask("document.activeElement.getAttribute('aria-label')")
    look.expect("LOW: fail" in name and "record 600" in name, f"the failure is named {name}")
    look.picture("ten_failures")


def expect_gap_to_scale(look):
    """The 600 s without packets take their share of the axis."""
    look.show()
    share = look.ask(
        "(() => { const steps = run.lanes.flat().map(entry => entry[1]).sort((a, b) => a - b); let gap = 0;"
        " steps.forEach((time, index) => { if (index) gap = Math.max(gap, time - steps[index - 1]); });"
        " return gap / TICKS / (view.high - view.low); })()"
    )
    look.expect(0.7 < share < 0.95, f"the gap takes {share} of the axis")
    look.expect(look.ask("lanes.length") == 176, "there aren't 176 lanes")
    look.do("lanes[175].row.scrollIntoView({block: 'center'})")
    look.expect(look.ask("lanes[175].track.querySelectorAll('.cell').length > 0"), "the last lane isn't drawn where it is seen")
    look.check("last lane")
    look.picture("last_lanes")


def expect_bands(look):
    """Which text was in force when, and why, of tables that are exchanged in flight."""
    look.show()
    names = look.ask("[...document.querySelectorAll('#lanes .cell.band')].map(each => each.getAttribute('aria-label'))")
    look.expect(sum("text 0 (rules_0.txt)" in name for name in names) == 2 and sum("text 1" in name for name in names) == 1, f"bands: {names}")
    look.do("openLane(lanes[0], true)")
    expect_commands(look)
    limits = look.ask("[...document.querySelectorAll('.limit_text')].map(each => each.textContent)")
    look.expect({"> 6000", "> 4500"} <= {limit.split(",")[0] for limit in limits}, f"limits of both texts: {limits}")
    why = look.ask("whyOf(run.requests[0]).textContent.replaceAll('\\u00a0', ' ')")
    look.expect(why.count("CURRENT_3 > 800") >= 4 and "Failed sample 3 of 3" in why, "a request doesn't say why")


def expect_commands(look):
    """Each command is a mark that says its words where there is room; a rule has its name in the text in force."""
    says = look.ask("run.commands.map(([, , says]) => says)")
    look.expect({"start LC", "mode passive", "state FAST_1 disabled", "half wdt 1 /cf/w.tbl"} <= set(says), f"commands: {says}")
    marks = look.ask("[...document.querySelectorAll('#lanes .mark.command')].map(each => each.textContent)")
    look.expect({"◆ half wdt 1 /cf/w.tbl; housekeeping", "◆ 2× mode", "◆ state FAST_1 disabled"} <= set(marks), f"marks of commands: {marks}")
    look.do("[...document.querySelectorAll('#lanes .mark.command')].find(each => each.textContent.startsWith('◆ state')).click()")
    look.expect("command state FAST_1 disabled" in look.ask("byId('panel').textContent"), "a command's mark doesn't say its words")


def expect_delays(look):
    """A rule that failed more often than it needs says why it did not request before, by the mode and the command on the page."""
    look.show()
    why = look.ask("whyOf(run.requests.find(request => request.rule === 0)).textContent")
    look.expect("failed in 4 samples in a row; it needs 2. It did not request at the 2nd failed sample in a row" in why, f"a late request says {why}")
    look.expect("because the mode was passive then. The command “mode active” ended that" in why, f"a late request says {why}")
    look.expect(look.ask("run.requests.filter(request => delayOf(request, ruleIn(request.text, request.rule))).length") == 1, "others are late, too")


def expect_states(look):
    """The mode has short words of its own, and what isn't sampled is grey and says why."""
    look.show()
    modes = look.ask("[...document.querySelectorAll('#lanes .cell.mode_active, #lanes .cell.mode_passive')].map(each => each.textContent)")
    look.expect(modes == ["active", "P", "active"], f"the mode lane says {modes}")
    paused = look.ask("lanes[0].track.querySelector('.paused').textContent")
    look.expect(paused == "disabled, was pass", f"a rule that is disabled says {paused}")
    shapes = look.ask("[...new Set([...document.querySelectorAll('#lanes .mark')].map(each => each.textContent[0]))].sort().join('')")
    look.expect(set(shapes) == set("▼●○◆"), f"the marks have the shapes {shapes}")


def expect_part(look):
    """A page of a part says which part it is, and what was before it; samples from before are told and not drawn."""
    for width, height in [(1400, 1000), (360, 740)]:
        look.show(width, height)
        part = look.ask("byId('part').innerText")
        look.expect("from second 130 until second 150: records 150 to 247. 149 records and 27 packets before it are not on this page" in part, f"the part is told as {part}")
        look.expect(look.ask("byId('part').getBoundingClientRect().bottom < innerHeight"), "the part is not on the first screen")
    look.do("changeUnit('record')")
    look.expect(look.ask("view.low === 150 && view.high === 248"), "the axis of records is that of another part")


def expect_left_out(look):
    """What is left out is hatched where it lies, at each lane, and says which command makes a page of it."""
    look.show()
    look.expect(look.ask("lanes.every(lane => lane.track.querySelector('.hatch'))"), "a lane isn't hatched")
    ends = look.ask("[stretches[0].from.record <= stretches[0].first, stretches[0].to.record >= stretches[0].last, stretches[0].from.record >= run.requests[299].record]")
    look.expect(ends == [True] * 3, f"the hatch has other ends: {ends}")
    look.do("document.querySelector('#lanes .cell.hatch').click()")
    says = look.ask("byId('panel').innerText")
    part = re.search(r"flight_tools report --epoch 2024-02-29T00:00:00Z --from (\d+) --until (\d+) --schedule schedule.txt --stream out/run.stream --out PART.html rules_0.txt", says)
    look.expect("5,013 requests of records" in says and part and 50_600 < int(part[1]) <= 50_612 and 60_634 <= int(part[2]) < 60_650, f"what is left out says {says}")
    look.do("moveTo(3000, 3100)")
    look.do("document.querySelector('#lanes .cell.hatch').click()")
    look.expect("--from 53000 --until 53101 " in look.ask("byId('panel').innerText"), "the command isn't that of the part in the window")


def expect_held(look):
    """An event that wasn't sent says what held it; a repeated request says what came before it."""
    look.show()
    held = look.ask("['type', 'filter'].map(held => whyOf(run.requests.find(request => request.held === held)).textContent)")
    look.expect("events of type debug are off" in held[0] and "filter" not in held[0], f"a debug rule says {held[0]}")
    look.expect("held back by a filter" in held[1], f"a filtered event says {held[1]}")
    again = look.ask("whyOf(run.requests.find(request => request.rule === 1 && request.counted === 4)).textContent")
    look.expect("in this row of failures already" in again and "“state RATE_HIGH active”" in again, f"a repeated request says {again}")
    look.expect(look.ask("lanes[3].spans.at(-1).pause") == "off for good", "a rule that is off for good is taken for sampled")


def expect_hex(look):
    """Numbers are as the rule text has them, and the side that fails is the condition's."""
    look.show()
    ranges = look.ask("JSON.stringify(failingRanges(run.texts[0].rules[0], 0))")
    look.expect(ranges == "[[64,159],[65520,65520]]", f"the failing side is {ranges}")
    look.do("showInLanes(sent.find(item => item.request))")
    limits = look.ask("[...document.querySelectorAll('.limit_text')].map(each => each.textContent).join(', ')")
    look.expect("0x40" in limits and "0xA0" in limits and "64" not in limits, f"limits aren't in hex: {limits}")
    look.expect(look.ask("/0x[4-9]0/.test(byId('panel').textContent)"), "the values of samples aren't in hex")
    look.expect(look.ask("document.querySelector('#ended').classList.contains('cut')"), "that the stream is cut isn't told")


def expect_records_alone(look):
    look.show()
    look.expect(look.ask("[...byId('unit').options].map(option => option.value).join()") == "record", "an axis of times that go back")
    look.expect("go back" in look.ask("byId('ended').textContent"), "that times go back isn't told")


def expect_no_samples(look):
    """Where samples were due and none came lanes are grey, and the first screen says so."""
    for width, height in [(1400, 1000), (360, 740)]:
        look.show(width, height)
        pauses = look.ask("lanes.map(lane => lane.spans.at(-1).pause).join()")
        look.expect(pauses == "no sample,no sample", f"the last spans pause by {pauses}")
        greys = look.ask("[...document.querySelectorAll('#lanes .cell.paused')].map(each => each.textContent).join()")
        look.expect("D" not in greys.split(","), f"what was due and not sampled is told as {greys}")
        said = look.ask("byId('answers').innerText")
        look.expect("not sampled at the end, though due" in said, f"the first screen says {said}")


def expect_plain_texts(look):
    """Texts from files are texts."""
    look.show()
    look.expect(look.ask("document.querySelectorAll('#rows b, #panel b').length === 0"), "a text is taken for markup")
    look.expect("</script>" in look.ask("byId('rows').textContent + byId('panel').textContent"), "a text isn't told whole")
    names = look.ask("[...document.querySelectorAll('#lanes .cell.band')].map(each => each.getAttribute('aria-label')).join()")
    look.expect("tables of no text" in names and "no Limit Checker" in names, f"bands: {names}")


def expect_bounds_told(look):
    """What isn't in the page is told, with how much it is."""
    look.show()
    look.expect(look.ask("run.events_left_out !== null && byId('rows_shown').textContent.includes(run.events_left_out[0].toLocaleString('en') + ' events')"), "events are left out in silence")
    look.expect(look.ask("run.commands_left_out !== null && byId('rows_shown').textContent.includes(run.commands_left_out[0].toLocaleString('en') + ' commands')"), "commands are left out in silence")
    look.expect(look.ask("run.tables.at(-1)[3] === 'untold'") and look.ask("[...document.querySelectorAll('#lanes .cell.band')].some(each => each.getAttribute('aria-label').includes('not recorded any more'))"), "tables are untold in silence")


CASES = {
    "many": [expect_ten_failures],
    "cells": [expect_gap_to_scale],
    "wheels": [expect_bands, expect_delays, expect_states],
    "wheels_part": [expect_part],
    "storm": [expect_left_out, expect_held],
    "one_rule": [expect_hex],
    "back_in_time": [expect_records_alone],
    "paused": [expect_no_samples],
    "foreign": [expect_plain_texts],
    "full": [expect_bounds_told],
}
