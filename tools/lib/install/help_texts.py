"""The commands of `flight_tools`, read from its help."""

import re
import subprocess
from dataclasses import dataclass


@dataclass(frozen=True)
class Option:
    """An option: its long name, its short one or "", the name of its value or "", and its help."""

    long: str
    short: str
    value: str
    help: str

    @property
    def may_repeat(self):
        return "repeat" in self.help


@dataclass(frozen=True)
class Command:
    """A command: its word, what it does, its call without the program's name, its files as (name, help), and its options."""

    word: str
    about: str
    usage: str
    files: tuple
    options: tuple


def said(program, *words):
    ran = subprocess.run([program, *words], stdin=subprocess.DEVNULL, stdout=subprocess.PIPE, stderr=subprocess.STDOUT, text=True, timeout=60)
    if ran.returncode:
        raise OSError(f"{program} {' '.join(words)} ends with status {ran.returncode}")
    return ran.stdout


def entries(text, heading):
    """The lines below a heading: what stands in front, and the help."""
    below = text.partition(f"\n{heading}:\n")[2].partition("\n\n")[0]
    return [re.fullmatch(r" +(\S.*?)(?:  +(\S.*))?", line).groups(default="") for line in below.splitlines()]


def option_of(front, help):
    short, long, value = re.fullmatch(r"(?:-(\w), )?--([\w-]+)(?: \[?<([^>]+)>\]?)?", front).groups(default="")
    return Option(long, short, value, help)


def command_of(program, word):
    text = said(program, "help", word)
    about, usage = text.split("\n")[0], re.search(r"^Usage: \S+ (.*)$", text, re.M).group(1)
    options = tuple(option_of(*it) for it in entries(text, "Options"))
    return Command(word, about, usage.partition(" ")[2], tuple(entries(text, "Arguments")), options)


def about_of(program):
    """What the program does, in its own words."""
    return said(program, "--help").split("\n")[0]


def commands_of(program):
    """All commands but `help`."""
    words = [word for word, _ in entries(said(program, "--help"), "Commands")]
    return [command_of(program, it) for it in words if it != "help"]
