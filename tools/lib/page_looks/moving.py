"""What a page does when it is moved by events of mouse, keys and fingers, as a person makes them."""

import csv
import io
import json
import os
import re
import tempfile
import time

CONTROL = 2


def centre(look, selector):
    """Where on the screen an element is, once it is brought there."""
    return look.ask(
        f"(() => {{ const each = document.querySelector({json.dumps(selector)}); each.scrollIntoView({{block: 'center'}});"
        " const box = each.getBoundingClientRect(); return [box.left + box.width / 2, box.top + box.height / 2, box.left, box.width]; })()"
    )


def window(look):
    return look.ask("[view.low, view.high]")


def near(one, other, size):
    return abs(one - other) <= size


def zooms(look):
    """By wheel at the pointer, by buttons, by keys; and back to the whole run."""
    look.show()
    whole = window(look)
    x, y, left, width = centre(look, "#axis .track")
    point = left + width * 0.3
    below = whole[0] + (whole[1] - whole[0]) * 0.3
    look.browser.wheel(point, y, -100)
    low, high = window(look)
    look.expect(high - low < (whole[1] - whole[0]) * 0.9, "the wheel over the axis doesn't zoom")
    look.expect(near(low + (high - low) * 0.3, below, (high - low) * 0.02), "the wheel doesn't keep what is below the pointer")
    before = window(look)
    x, y, _, _ = centre(look, "#lanes .row[role=group] .track")
    look.browser.wheel(x, y, -100)
    look.expect(window(look) == before, "the wheel over a lane zooms without Ctrl")
    x, y, _, _ = centre(look, "#lanes .row[role=group] .track")
    look.browser.wheel(x, y, -100, CONTROL)
    look.expect(window(look)[1] - window(look)[0] < before[1] - before[0], "the wheel with Ctrl doesn't zoom")
    for control, smaller in [("#in", True), ("#out", False)]:
        low, high = window(look)
        look.browser.click(*centre(look, control)[:2])
        now = window(look)
        look.expect((now[1] - now[0] < high - low) == smaller, f"{control} doesn't zoom")
    look.do("byId('axis').querySelector('.track').focus()")
    for key, smaller in [("+", True), ("-", False)]:
        low, high = window(look)
        look.browser.key(key)
        now = window(look)
        look.expect((now[1] - now[0] < high - low) == smaller, f"the key {key} doesn't zoom")
    look.browser.key("0")
    look.expect(window(look) == whole, "the key 0 doesn't show the whole run")


def moves(look):
    """By dragging, which is no click; by buttons; by keys."""
    look.show()
    look.do("zoom(0.3)")
    low, high = window(look)
    x, y, left, width = centre(look, "#lanes .row[role=group] .track")
    panel = look.ask("byId('panel').textContent")
    look.browser.drag(x, y, x - width * 0.2)
    now = window(look)
    look.expect(near(now[0] - low, (high - low) * 0.2, (high - low) * 0.02), "a drag doesn't move the window as far as the pointer")
    look.expect(look.ask("byId('panel').textContent") == panel, "a drag is taken for a click")
    for control, later in [("#later", True), ("#earlier", False)]:
        before = window(look)
        look.browser.click(*centre(look, control)[:2])
        look.expect((window(look)[0] > before[0]) == later, f"{control} doesn't move")
    look.do("byId('axis').querySelector('.track').focus()")
    for key, code, later in [("ArrowRight", 39, True), ("ArrowLeft", 37, False)]:
        before = window(look)
        look.browser.key(key, code)
        look.expect((window(look)[0] > before[0]) == later, f"{key} on the axis doesn't move")


def fingers(look):
    """On a phone: one finger moves, two zoom, and what was below them stays."""
    look.show(360, 740)
    look.do("zoom(0.3)")
    low, high = window(look)
    x, y, left, width = centre(look, "#lanes .row[role=group] .track")
    look.browser.touch([(x, y)], [(x - 20, y)], [(x - width * 0.25, y)])
    now = window(look)
    look.expect(near(now[0] - low, (high - low) * 0.25, (high - low) * 0.03), "a finger doesn't move the window")
    low, high = now
    one, other = left + width * 0.4, left + width * 0.6
    look.browser.touch([(one, y), (other, y)], [(one - 10, y), (other + 10, y)], [(one - width * 0.2, y), (other + width * 0.2, y)])
    now = window(look)
    look.expect(near(now[1] - now[0], (high - low) / 3, (high - low) * 0.05), "two fingers don't zoom")
    look.expect(near(sum(now), low + high, (high - low) * 0.05), "two fingers don't keep what is below them")
    look.close()


# The first steps are a keyboard's, the others a script's, which is faster.
WALK = """(() => {
  const names = [];
  for (let last = null; document.activeElement !== last && names.length < 2000;) {
    last = document.activeElement;
    names.push(last.getAttribute('aria-label'));
    last.dispatchEvent(new KeyboardEvent('keydown', { key: 'ArrowRight', bubbles: true, cancelable: true }));
  }
  return names;
})()"""


def walk(look, lane):
    """From a lane's first stop by arrows to its last; answers the names on the way."""
    look.do(f"lanes[{lane}].row.scrollIntoView({{block: 'center'}})")
    if not look.ask(f"lanes[{lane}].track.querySelector('button') !== null"):
        return []
    look.do(f"lanes[{lane}].track.querySelector('[tabindex=\"0\"]').focus()")
    look.browser.key("Home", 36)
    look.browser.key("ArrowRight", 39)
    second = look.ask("document.activeElement.getAttribute('aria-label')")
    look.browser.key("Home", 36)
    names = look.ask(WALK)
    look.expect(names[1:2] in ([], [second]), f"lane {lane}: the arrows come to {second} second")
    return names


def spans_by_keys(look, most=5):
    """Each span of some lanes is come to by keys; where it is drawn with others, Enter comes nearer."""
    look.show()
    for lane in range(min(most, look.ask("lanes.length"))):
        look.do("showAll()")
        names = walk(look, lane)
        drawn = look.ask(f"[...lanes[{lane}].track.querySelectorAll('button')].map(each => each.getAttribute('aria-label'))")
        look.expect(set(drawn) <= set(names), f"lane {lane}: the arrows don't come to {set(drawn) - set(names)}")
    if not look.ask("lanes.some(lane => lane.spans.length)"):
        return
    beyond_the_window(look)
    look.do("byId('unit').focus()")
    for _ in range(60):
        look.browser.key("Tab", 9)
        if look.ask("document.activeElement.closest('.track') && document.activeElement.closest('[role=group]') !== null"):
            break
    else:
        look.fault("the tab key doesn't come to the lanes")


def beyond_the_window(look):
    """From the first tenth of the run the arrows come to its end."""
    lane = look.ask("run.figures.records > 1000 ? -1 : lanes.findIndex(lane => lane.spans.length && lane.spans.length < 60)")
    if lane < 0:
        return
    look.do("const whole = wholeRun(); moveTo(whole[0], whole[0] + (whole[1] - whole[0]) / 10)")
    look.do(f"lanes[{lane}].row.scrollIntoView({{block: 'center'}}); lanes[{lane}].track.querySelector('[tabindex=\"0\"]').focus()")
    look.browser.key("Home", 36)
    names = set()
    for _ in range(150):
        names.add(look.ask("document.activeElement.getAttribute('aria-label')"))
        look.browser.key("ArrowRight", 39)
    spans = look.ask(f"lanes[{lane}].spans.map(span => spanName({lane}, span))")
    look.expect(set(spans) <= names, f"lane {lane}: the arrows don't come to {sorted(set(spans) - names)[:2]}")


def filters(look):
    """By text, by rule and by kind: lanes and rows are those that the data has."""
    look.show()
    rules = look.ask("lanes.map(lane => nameOf(lane.rule))")
    if not rules:
        return
    look.do("byId('finder').open = true")
    last = rules[-1]
    look.browser.click(*centre(look, "#words")[:2])
    look.browser.call("Input.insertText", text=last)
    look.browser.settle()
    shown = look.ask("lanes.filter(lane => !lane.row.hidden).map(lane => nameOf(lane.rule))")
    look.expect(last in shown and len(shown) < max(2, len(rules)), f"the filter {last} shows {shown[:4]}")
    look.check("filtered")
    look.do("byId('words').value = ''; byId('words').dispatchEvent(new Event('input'))")
    for kind in ["request", "error", "info"]:
        look.do(f"byId('kind').value = '{kind}'; byId('kind').dispatchEvent(new Event('input'))")
        wanted = look.ask(f"sent.filter(item => item.kind === '{kind}').length")
        look.expect(look.ask("found.length") == wanted, f"the kind {kind} shows other rows")
    look.do("byId('kind').value = ''; byId('rule').value = '0'; byId('rule').dispatchEvent(new Event('input'))")
    look.expect(look.ask("found.every(item => item.rule === 0 || item.request?.one_of.includes(0)) && lanes.every(lane => lane.row.hidden === (lane.rule !== 0))"), "a rule's filter shows others")
    look.do("byId('rule').value = ''; byId('rule').dispatchEvent(new Event('input'))")


def links(look):
    """From the table's row to its place in the lanes, and from there back; all rows are drawn in the end."""
    look.show()
    sent = look.ask("sent.length")
    for _ in range(60):
        look.do("scrollTo(0, document.body.scrollHeight)")
        if look.ask("byId('rows').children.length") == sent:
            break
        time.sleep(0.03)
    look.expect(look.ask("byId('rows').children.length") == sent, "not all rows are drawn at the table's end")
    if not look.ask("run.requests.some(request => lanes[request.rule])"):
        return
    look.do("globalThis.lastOne = run.requests.findLast(request => lanes[request.rule]); zoom(0.02, view.high)")
    packet = look.ask("lastOne.packet")
    look.browser.click(*centre(look, f'#rows [data-packet="{packet}"] button')[:2])
    time.sleep(0.1)
    look.browser.settle()
    look.expect(look.ask("shareOf(lastOne) >= 0 && shareOf(lastOne) <= 1"), "a row's link doesn't show its place")
    look.expect(look.ask("lanes[lastOne.rule].plots !== null"), "a row's link doesn't open its lane")
    look.expect(look.ask("byId('panel').textContent.includes('Why sequence ' + lastOne.sequence)"), "a row's link doesn't say why")
    look.check("linked")
    look.do("[...byId('panel').querySelectorAll('button')].at(-1).click()")
    look.expect(look.ask(f"document.activeElement.closest('tr')?.dataset.packet === '{packet}'"), "the panel's link doesn't come to the row")
    lane = look.ask("lastOne.rule")
    look.do(f"lanes[{lane}].track.querySelector('.mark.request').click()")
    look.expect(look.ask("/Why sequence|requests and events/.test(byId('panel').textContent)"), "a mark says nothing")


def saves(look):
    """The CSV is a file with the rows that are found."""
    look.show()
    with tempfile.TemporaryDirectory(prefix="look-at-pages-") as folder:
        look.browser.call("Browser.setDownloadBehavior", behavior="allow", downloadPath=folder)
        look.browser.click(*centre(look, "#csv")[:2])
        for _ in range(40):
            time.sleep(0.05)
            if os.path.exists(f"{folder}/run.csv"):
                break
        else:
            look.fault("no CSV is saved")
            return
        with open(f"{folder}/run.csv", encoding="utf-8", newline="") as file:
            text = file.read()
    rows = list(csv.DictReader(io.StringIO(text)))
    packets = look.ask("sent.map(item => String(item.packet))")
    look.expect([row["packet"] for row in rows] == packets, "the CSV has other packets")
    says = look.ask("sent.map(item => item.says ?? '')")
    look.expect([row["text"] for row in rows] == says, "the CSV has other texts")


def taps(look):
    """A tap beside a span that is too narrow to be hit alone opens it, below its lane and on the screen."""
    for width, height in [(1400, 1000), (360, 740)]:
        look.show(width, height)
        for number in range(3):
            slim = look.ask(
                "(() => { const all = [...document.querySelectorAll('#lanes .row[role=group] .slim')].filter(each => each.closest('.row').lane.seen && !each.matches('.many'));"
                f" const each = all[Math.floor(all.length * {number} / 3)]; if (!each) return null; each.scrollIntoView({{block: 'center'}}); const box = each.getBoundingClientRect();"
                " const track = each.closest('.track').getBoundingClientRect(); const x = box.left + box.width / 2;"
                " return [x + 9 < track.right ? x + 9 : x - 9, box.top + box.height / 2, each.getAttribute('aria-label')]; })()"
            )
            if slim is None:
                break
            x, y, name = slim
            look.browser.click(x, y)
            near = re.sub(r" s \([^)]*, record ([^)]*)\)", r" s, record \1", name)
            look.expect(near in look.ask("byId('panel').textContent"), f"a tap beside a narrow span does not open {near}")
            look.expect(look.ask("(() => { const box = byId('panel').getBoundingClientRect(); return box.top >= 0 && box.top < innerHeight - 60; })()"), "what a tap opens is not on the screen")
            look.browser.key("Escape", 27)
            look.expect(look.ask("byId('panel').hidden"), "Escape does not close what was opened")
            look.do("showAll()")


def plots_by_keys(look):
    """A plot's values are read by arrows, one after the other."""
    look.show()
    if not look.ask("lanes.some(lane => lane.failed)"):
        return
    look.do("openLane(lanes.find(lane => lane.failed), true); lanes.find(lane => lane.failed).plots[0].track.focus()")
    texts = []
    for _ in range(4):
        look.browser.key("ArrowRight", 39)
        texts.append(look.ask("document.activeElement.getAttribute('aria-valuetext')"))
    count = look.ask("lanes.find(lane => lane.failed).plots[0].steps.length")
    look.expect(len(set(texts)) == min(4, count), f"a plot's arrows read {texts}")
    look.check("read")


def move(look):
    for step in [zooms, moves, fingers, spans_by_keys, filters, links, saves, taps, plots_by_keys]:
        look.attempt(step)
