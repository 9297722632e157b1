"""Writes what comes of a row into its lines."""

from rows.contents import lines_of, lines_of_text_line
from rows.row import Begins, Has, Holds, Once, Sized
from rows.words import quoted


def lines_of_texts(texts):
    return [line for text in texts for line in lines_of_text_line(text + b"\n")]


def lines_of_result(head, expected):
    """The statement of what an output or a file should be, with its content."""
    if isinstance(expected, Sized):
        return [f"{head} sized {expected.length} bytes {expected.sha256}"]
    if isinstance(expected, Begins):
        return [f"{head} begins", *lines_of(expected.content)]
    if isinstance(expected, Holds):
        return [f"{head} holds", *lines_of(expected.content)]
    if isinstance(expected, Has):
        return [f"{head} has at {expected.at}", *lines_of(expected.content)]
    if isinstance(expected, Once):
        never = [head.replace("after", "never", 1), *lines_of_texts(expected.none_of)] if expected.none_of else []
        return [f"{head} once", *lines_of_texts(expected.texts), *never]
    if expected is None:
        return [head.replace("after", "gone", 1)]
    return [head, *lines_of(expected)] if expected else [f"{head} empty"]


def results_of(row):
    """What a row expects beside the defaults, by the statements that hold it."""
    found = {key: it for key, it, default in (("status", row.status, 0), ("output", row.output, b""), ("error", row.error, b"")) if it != default}
    return found | {f"after {name}": file for name, file in row.after.items()}


def lines_of_key(key, expected):
    """The statement of one result."""
    if key == "status":
        return [f"status {expected}"]
    kind, _, name = key.partition(" ")
    return lines_of_result(f"{kind} {quoted(name)}" if name else kind, expected)


def edits_of(entry, row):
    """Where lines of an entry give way to others, so that it expects what this row does: a begin, an end and the new lines."""
    old, new, missing = results_of(entry.row), results_of(row), object()
    place = entry.end_of_parts()
    for key in ["status", "output", "error", *(key for key in {**old, **new} if key.startswith("after "))]:
        statement = entry.statement_of(key)
        begin, end = (statement.begin, statement.end) if statement else (place, place)
        place = max(place, end)
        if old.get(key, missing) != new.get(key, missing):
            yield begin, end, lines_of_key(key, new[key]) if key in new else []
            never = entry.statements.get(key.replace("after ", "never "))
            yield from [(never.begin, never.end, [])] if never and never is not statement else []


def accepted(file, rows):
    """The text of a file of rows where those with the titles of `rows` expect what these do; all other lines stay."""
    lines = list(file.lines)
    for entry in reversed(file.entries):
        if entry.row.title in rows:
            edits = sorted(edits_of(entry, rows[entry.row.title]), key=lambda edit: edit[0])
            for begin, end, others in reversed(edits):
                lines[begin:end] = others
    return "\n".join(lines) + "\n"
