"""Texts of rows that other trials use, too: rule texts, schedules and scripts with mistakes, and rule texts with warnings."""

from rows.reader import read_files

MESSAGES, WARNINGS = "rows/messages/", "rows/check/warnings"


def texts_of(files, front, command, name, is_picked=lambda row: True):
    """The texts with a file name that a command takes in the rows of some files, each once, by the title of its first row."""
    found = {}
    for entry in (entry for file in files if file.path.startswith(front) for entry in file.entries):
        row = entry.row
        if row.words[1] == command and name in row.before and is_picked(row) and row.before[name] not in found.values():
            found[row.title] = row.before[name]
    return found


class ExampleTexts:
    """The texts of the rows of a tree, as bytes by titles."""

    def __init__(self, *top):
        files = read_files(*top)
        self.rules = texts_of(files, MESSAGES, "check", "rules.txt")
        self.warned_rules = texts_of(files, WARNINGS, "check", "rules.txt")
        self.schedules = texts_of(files, MESSAGES, "check", "schedule.txt")
        self.scripts = texts_of(files, MESSAGES, "scenario", "script.txt", lambda row: row.status and "rules.txt" not in row.words)
        self.scenarios = texts_of(files, MESSAGES, "scenario", "script.txt", lambda row: "rules.txt" in row.words)
        self.messages = [entry.row for file in files if file.path.startswith(MESSAGES) for entry in file.entries]
        self.rows = [entry.row for file in files for entry in file.entries]
