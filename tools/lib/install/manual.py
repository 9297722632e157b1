"""Manual pages of `flight_tools`, made of its help, and of the statuses in docs/TOOLS.md."""

import re

from repository import ROOT


def quoted(text):
    """A text as roff reads it; words in backticks are bold."""
    text = text.replace("\\", "\\e").replace("-", "\\-")
    text = re.sub(r"`([^`]*)`", r"\\fB\1\\fR", text)
    return f"\\&{text}" if text[:1] in (".", "'") else text


def statuses():
    """The statuses of `flight_tools`, from the last column of the table in docs/TOOLS.md."""
    with open(f"{ROOT}/docs/TOOLS.md", encoding="utf-8") as file:
        part = file.read().partition("### Statuses\n")[2].partition("\n### ")[0]
    rows = (re.split(r"(?<!\\) \| ", line.strip("| ")) for line in part.splitlines() if re.match(r"\| \d+ \|", line))
    return [(row[0], row[-1].replace("\\|", "|")) for row in rows]


def head(name, version, about):
    return [f'.TH {quoted(name.upper())} 1 "" "Needlemauve {version}" "User Commands"', ".SH NAME", f"{quoted(name)} \\- {quoted(about[0].lower() + about[1:])}"]


def list_of(heading, entries):
    """A section of terms with their texts; none without terms."""
    found = [f".SH {heading}"] if entries else []
    for term, text in entries:
        found += [".TP", term, quoted(text) or "\\&"]
    return found


def option_term(option):
    names = [f"\\fB\\-{option.short}\\fR"] if option.short else []
    value = f" \\fI{quoted(option.value)}\\fR" if option.value else ""
    return ", ".join([*names, f"\\fB{quoted('--' + option.long)}\\fR{value}"])


def command_page(command, commands, version):
    """The page of a command."""
    name = f"flight_tools-{command.word}"
    usage = re.sub(r"<([^>]*)>", r"\\fI\1\\fR", quoted(command.usage))
    others = ",\n".join(f".BR {quoted('flight_tools-' + it.word)} (1)" for it in commands if it is not command)
    lines = head(name, version, command.about)
    lines += [".SH SYNOPSIS", f"\\fBflight_tools {command.word}\\fR {usage}", ".SH DESCRIPTION", quoted(f"{command.about}.")]
    lines += list_of("FILES", [(f"\\fI{quoted(re.sub('[<>]', '', front))}\\fR", text) for front, text in command.files])
    lines += list_of("OPTIONS", [(option_term(it), it.help) for it in command.options])
    lines += [".SH EXIT STATUS", "That of", ".BR flight_tools (1).", ".SH SEE ALSO", ".BR flight_tools (1),", others]
    return "\n".join(lines) + "\n"


def program_page(about, commands, version):
    """The page of the program: all commands, and the statuses."""
    lines = head("flight_tools", version, about)
    lines += [".SH SYNOPSIS", "\\fBflight_tools\\fR \\fICOMMAND\\fR ..."]
    lines += list_of("COMMANDS", [(f".BR {quoted('flight_tools-' + it.word)} (1)", it.about) for it in commands])
    lines += list_of("OPTIONS", [("\\fB\\-h\\fR, \\fB\\-\\-help\\fR", "Print help."), ("\\fB\\-V\\fR, \\fB\\-\\-version\\fR", "Print version.")])
    lines += list_of("EXIT STATUS", [(f"\\fB{status}\\fR", text) for status, text in statuses()])
    lines += [".SH SEE ALSO", ".BR flight_run (1)"]
    return "\n".join(lines) + "\n"


def pages(about, commands, version):
    """All pages by the names of their files."""
    found = {f"flight_tools-{it.word}.1": command_page(it, commands, version) for it in commands}
    return {"flight_tools.1": program_page(about, commands, version), **found}
