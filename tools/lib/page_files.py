"""The page of a run, put together from the files of crates/run_page/page."""

import os
import re

TOP = os.path.dirname(os.path.dirname(os.path.dirname(os.path.abspath(__file__))))
FOLDER = f"{TOP}/crates/run_page/page"
# In the order in which they are run.
SCRIPTS = "data words leftout elements view pointers axis marks lanes limits plots readings delay why find csv answers main".split()


def read(name):
    with open(f"{FOLDER}/{name}", encoding="utf-8") as file:
        return file.read()


def shortened(text):
    """Without indents, empty lines and lines of comment alone. No string of these files goes over several lines."""
    lines = (line.strip() for line in text.splitlines())
    return "".join(f"{line}\n" for line in lines if line and not line.startswith("//") and not (line.startswith("/*") and line.endswith("*/")))


def style(text):
    """Without the blanks that a style doesn't need: it has no text in which they count."""
    return re.sub(r" ?([{};:,]) ?", r"\1", shortened(text)).replace("\n}", "}")


def parts():
    """What stands in front of the data, and behind it."""
    page = read("page.html")
    page = page.replace("{{style}}\n", style(read("page.css")))
    page = page.replace("{{script}}\n", "".join(shortened(read(f"{name}.js")) for name in SCRIPTS))
    front, behind = page.split("{{run}}")
    return front, behind


def page_of(data):
    """The page with this text of JSON as its data."""
    front, behind = parts()
    return front + data + behind
