"""What is looked at in each page: at three sizes, light and dark, on each axis and at several widths of the window, and on paper."""

import os

SIZES = [(1400, 1000), (800, 1000), (360, 740)]
HERE = os.path.dirname(os.path.abspath(__file__))


class Look:
    """A page in the browser, with a list of what isn't so."""

    def __init__(self, browser, path, folder):
        self.browser, self.path, self.folder = browser, path, folder
        self.name = os.path.splitext(os.path.basename(path))[0]
        self.faults = []
        with open(f"{HERE}/looks.js", encoding="utf-8") as file:
            self.script = file.read()

    def show(self, width=1400, height=1000, dark=False):
        """Shows the page anew, for a look with the script's questions."""
        self.where = f"{self.name} {width}{' dark' if dark else ''}"
        self.seconds = self.browser.open(self.path, width, height, dark)
        self.browser.ask(self.script.replace("const looks = {};", "globalThis.looks = {};"))

    def fault(self, what):
        self.faults.append(f"{self.where}: {what}")

    def expect(self, so, what):
        if not so:
            self.fault(what)

    def ask(self, script):
        return self.browser.ask(script)

    def do(self, script):
        """Does something, and waits until it is drawn."""
        self.browser.ask(f"{{ {script}; }} undefined")
        self.browser.settle()

    def check(self, what, questions="all"):
        """The questions of looks.js."""
        for fault in self.ask(f"looks.{questions}()"):
            self.fault(f"{what}: {fault}")

    def expect_none(self, script):
        for fault in self.ask(script):
            self.fault(fault)

    def close(self):
        for line in self.browser.said:
            self.fault(f"the console says: {line}")
        self.browser.said = []

    def attempt(self, step):
        """Takes a step; one that stops in the middle is a fault."""
        try:
            step(self)
        except (RuntimeError, TypeError, IndexError, ValueError) as error:
            self.fault(f"{step.__name__} stops: {str(error).splitlines()[0]}")
        self.close()

    def picture(self, what, whole=False):
        self.browser.picture(f"{self.folder}/{self.name}_{what}.png", whole)


def open_some(look):
    """Opens the lanes that failed first, two at most."""
    look.do("lanes.filter(lane => lane.failed).slice(0, 2).forEach(lane => openLane(lane, true))")


def look_at(browser, path, folder):
    """All looks but those that move the window by events; answers what isn't so."""
    look = Look(browser, path, folder)
    for width, height in SIZES:
        for dark in [False, True]:
            look.show(width, height, dark)
            look.check("first")
            look.expect_none("looks.first()")
            look.picture(f"{width}_{'dark' if dark else 'light'}")
            open_some(look)
            look.check("opened")
            look.picture(f"{width}_{'dark' if dark else 'light'}_opened")
            look.close()
        look_at_axes(look)
        look.close()
    look_at_paper(look)
    return look.faults


def look_at_axes(look):
    """Each axis, with less and less of the run in the window."""
    units = look.ask("[...byId('unit').options].map(option => option.value)")
    for unit in units:
        look.do(f"changeUnit('{unit}'); showAll()")
        for depth in range(5):
            look.check(f"axis {unit}, depth {depth}", "drawn")
            look.do("zoom(0.1, view.low + (view.high - view.low) * 0.37)")
    look.do("showAll()")


def look_at_paper(look):
    """In print all lanes, rows, reasons and files are there, at the paper's width."""
    look.show()
    open_some(look)
    look.browser.call("Emulation.setEmulatedMedia", media="print", features=[])
    look.do("dispatchEvent(new Event('beforeprint'))")
    look.where = f"{look.name} on paper"
    look.check("print")
    look.expect(look.ask("lanes.every(lane => lane.row.hidden || !lane.spans.length || lane.track.querySelector('.cell'))"), "a lane isn't drawn")
    look.expect(look.ask("byId('rows').children.length === sent.length"), "rows are missing")
    look.expect(look.ask("byId('reasons').querySelectorAll('article').length === run.requests.length"), "reasons are missing")
    look.expect(look.ask("document.body.getBoundingClientRect().right <= 1047"), "wider than the paper")
    look.expect(look.ask("run.files.every(file => document.querySelector('#files').innerText.includes(file.sha256))"), "a file's SHA-256 is missing")
    small = "[...document.querySelectorAll('.track *, td, p')].filter(each => each.textContent).map(each => parseFloat(getComputedStyle(each).fontSize))"
    look.expect(look.ask(f"Math.min(...{small}) >= 10.6"), "letters under 8 points")
    look.do("dispatchEvent(new Event('afterprint'))")
    look.browser.call("Emulation.setEmulatedMedia", media="", features=[])
    look.browser.paper(f"{look.folder}/{look.name}.pdf")
    look.close()
