"""The table of a campaign: one SQLite file, written as a part by one transaction, and its rows as sorted lines."""
import contextlib
import gzip
import json
import os
import sqlite3
import urllib.parse
import zlib

from . import task

# The tables in the order of their dump. All but `inputs` and `recordings` begin with the recording's number.
OF_ONE = "recording integer not null references recordings, "
TABLES = {
    "inputs": "name text primary key, path text not null, sha256 text",
    "recordings": "recording integer primary key, path text not null unique, sha256 text, bytes integer, outcome text not null, "
    "records integer, old_samples integer, new_samples integer, old_ungiven integer, new_ungiven integer, steps_back integer, requests_old integer, requests_new integer, "
    "requests_moved integer, requests_both integer, requests_reordered integer, new_requests integer, events_old integer, "
    "events_new integer, events_both integer, events_reordered integer, imported text, began text, seconds real",
    "requests": OF_ONE + "run text not null, record integer not null, time real not null, sequence integer not null, rules text",
    "events": OF_ONE + "run text not null, record integer not null, time real not null, sender text not null, id integer not null, "
    "level text not null, rule text, text text not null",
    "differences": OF_ONE + "number integer not null, kind text not null, run text, record integer not null, time real not null, "
    "new_record integer, new_time real, command text, sequence integer, sender text, id integer, level text, text text, order_of text, rules text",
    "rules": OF_ONE + "run text not null, text integer not null, rule integer not null, name text not null, sampled integer not null, "
    "passed integer not null, failed integer not null, stale integer not null, errors integer not null, unsampled integer not null",
    "packets": OF_ONE + "run text not null, mid integer not null, packets integer not null",
    "failures": OF_ONE + "step text not null, status integer, says text not null",
}
# The columns that say when and how long, and so differ between campaigns that agree.
TIMES = ("began", "seconds")
BATCH = 10_000
HEAD = "recordings"


def columns_of(table):
    return [it.split()[0] for it in TABLES[table].split(", ")]


class Batches:
    """Rows on their way into a table's file."""

    def __init__(self, database):
        self.database, self.rows = database, {name: [] for name in TABLES}

    def add(self, table, row):
        self.rows[table].append(row)
        if len(self.rows[table]) == BATCH:
            self.write(table)

    def write(self, table):
        marks = ", ".join("?" * len(columns_of(table)))
        self.database.executemany(f"insert into {table} values ({marks})", self.rows[table])
        self.rows[table] = []


class Damaged(Exception):
    """A recording whose rows cannot be read; they are gone now, so that another campaign makes them again."""


def rows_of(campaign, path):
    """The rows of a recording, each with its table, the head of the recording last; or those of its failure."""
    looked = campaign.looked(path)
    if looked is None:
        failure = campaign.failed(path) or {"step": "engine", "status": None, "says": "the engine ended without a result"}
        yield "failures", [failure[it] for it in ("step", "status", "says")]
        yield HEAD, {"path": path, "sha256": failure.get("sha256"), "bytes": failure.get("bytes"), "outcome": "failed"}
        return
    result = campaign.result(path, looked["sha256"])
    try:
        with gzip.open(result, "rt", encoding="utf-8") as lines:
            for line in lines:
                table, *row = json.loads(line)
                yield table, row if table != HEAD else row[0]
    except (OSError, EOFError, ValueError, zlib.error) as error:
        if os.path.exists(result):
            os.remove(result)
        raise Damaged(f"the rows of {path} are damaged, and the same words make them again: {error}") from error


def write(campaign):
    """Writes the table, and returns how many recordings came to each outcome. FILE is what it was until all of it is there."""
    part = f"{campaign.folder}/table"
    with contextlib.suppress(FileNotFoundError):
        os.remove(part)
    with contextlib.closing(sqlite3.connect(part, isolation_level=None)) as database:
        for words in ("pragma journal_mode = off", "pragma synchronous = off", "begin"):
            database.execute(words)
        outcomes = fill(database, campaign)
        database.execute("commit")
    with open(part, "rb") as file:
        os.fsync(file.fileno())
    os.replace(part, campaign.file)
    return outcomes


def fill(database, campaign):
    for table, columns in TABLES.items():
        database.execute(f"create table {table} ({columns})")
    batches, outcomes = Batches(database), {}
    for row in campaign.inputs.rows():
        batches.add("inputs", row)
    for number, path in enumerate(campaign.paths, 1):
        head = None
        for table, row in rows_of(campaign, path):
            if table == HEAD:
                head = row
                batches.add(HEAD, [number, *(row.get(it) for it in columns_of(HEAD)[1:])])
            else:
                batches.add(table, [number, *row])
        outcomes[head["outcome"]] = outcomes.get(head["outcome"], 0) + 1
    for table in TABLES:
        batches.write(table)
    return outcomes


def opened(file):
    """A table that is only read."""
    return sqlite3.connect(f"file:{urllib.parse.quote(os.fsencode(file))}?mode=ro", uri=True)


def dump(file):
    """The lines of all tables without their columns of time, each table's sorted. Campaigns agree where these lines do."""
    with contextlib.closing(opened(file)) as database:
        for table in TABLES:
            columns = [it for it in columns_of(table) if it not in TIMES]
            order = ", ".join(str(number) for number in range(1, len(columns) + 1))
            for row in database.execute(f"select {', '.join(columns)} from {table} order by {order}"):
                yield json.dumps([table, *row], ensure_ascii=False)
