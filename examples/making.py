"""What the folders here have in common: makes a scenario of a table of periods, deadlines and times, and of what is added to it.

    make [MICROSECONDS]

A folder's `make` writes its scenario for this tick, or for the folder's own. Its table has a line for each transaction: the name, then
the period, the deadline (the period if it is empty) and the time of a job in milliseconds. A period, a deadline, a validity and an
interval are rounded down to ticks, and a time up. A job computes for its time, and takes one tick more for each read and write and
for its commit. It computes before it reads, but for the milliseconds `last`: these it computes from what it read, before it writes.
A shorter deadline is a higher priority, and among equal ones the earlier line."""
import csv
import json
import math
import os
import sys
from dataclasses import dataclass, field
from fractions import Fraction

# The most operations of one compute.
MOST = 10000


@dataclass
class Item:
    """An item, its validity in milliseconds, and its value at the start."""

    name: str
    kind: str
    validity: int = 0
    value: int = 0


@dataclass
class Job:
    """What is added to a transaction. Its jobs are released each period, or at the milliseconds of `releases`, or eagerly."""

    reads: list = field(default_factory=list)
    writes: dict = field(default_factory=dict)
    last: float = 0
    samples: list = field(default_factory=list)
    releases: list = None
    eager: int = None


def table_of(folder):
    """The rows of a folder's table: name, period, deadline, time."""
    with open(os.path.join(folder, "table.csv"), encoding="utf-8") as file:
        for name, period, deadline, time in csv.reader(line for line in file if not line.startswith(("#", "name,"))):
            yield name, Fraction(period), Fraction(deadline or period), Fraction(time)


def computes(ticks):
    """Computing for so many ticks, in pieces that a scenario may have."""
    return [{"compute": min(MOST, ticks - at)} for at in range(0, ticks, MOST)]


def transaction(row, priority, job, tick, length):
    name, period, deadline, time = row
    down, up = (lambda ms: math.floor(ms / tick)), (lambda ms: math.ceil(ms / tick))
    last = up(Fraction(job.last)) if job.reads else 0
    quiet = up(time) - last
    made = {"name": name, "priority": priority, "period": down(period)}
    if deadline != period:
        made["deadline"] = down(deadline)
    made |= {"steps": up(time) + len(job.reads) + len(job.writes) + 1, "quiet": quiet}
    made |= {"reads": job.reads, "writes": list(job.writes)}
    if job.releases is not None:
        made["releases"] = [down(Fraction(ms)) for ms in job.releases]
    elif job.eager is not None:
        made["eager"] = job.eager
    else:
        made["jobs"] = math.ceil(length / period)
    if job.samples:
        made["samples"] = job.samples
    reads = [{"read": item} for item in job.reads]
    writes = [{"write": item, "value": value} for item, value in job.writes.items()]
    made["script"] = [*computes(quiet), *reads, *computes(last), *writes, "commit"]
    return made


def lines_of(made):
    """The lines of a transaction, its times, its accesses and its script apart."""
    text = json.dumps
    script = ",\n        ".join(text(operation) for operation in made["script"])
    groups = (("name",), ("priority", "period", "deadline", "steps", "quiet"), ("reads", "writes"), ("releases", "jobs", "eager", "samples"))
    for group in groups:
        members = [f'"{member}": {text(made[member])}' for member in group if made.get(member) not in (None, [])]
        if members:
            yield f"      {', '.join(members)},"
    yield f'      "script": [\n        {script}\n      ]'


def scenario(folder, tick, length, items, jobs, together):
    """The text of a scenario; times are milliseconds."""
    rows = list(table_of(folder))
    ranked = sorted(range(len(rows)), key=lambda at: (rows[at][2], at))
    made_items = []
    for item in items:
        made = {"name": item.name, "kind": item.kind}
        if item.kind != "state":
            made["validity"] = math.floor(item.validity / tick)
        if item.value:
            made["value"] = item.value
        made_items.append("    " + json.dumps(made))
    transactions = []
    for at, row in enumerate(rows):
        made = transaction(row, len(rows) - ranked.index(at), jobs[row[0]], tick, length)
        transactions.append("    {\n" + "\n".join(lines_of(made)) + "\n    }")
    sets = [f'    {json.dumps({"items": names, "within": math.floor(within / tick)})}' for names, within in together]
    return (
        '{\n  "version": 2,\n  "items": [\n' + ",\n".join(made_items) + '\n  ],\n  "transactions": [\n'
        + ",\n".join(transactions) + '\n  ],\n  "together": [' + ("\n" + ",\n".join(sets) + "\n  " if sets else "") + "]\n}\n"
    )


def last(item):
    return {"last": item}


def of(operator, first, second):
    return {operator: [first, second]}


def make(path, tick, length, items, jobs, together=()):
    """Writes the scenario of the folder of this file; the tick is that of the words, if they have one, in microseconds."""
    if len(sys.argv) > 1:
        tick = int(sys.argv[1])
    sys.stdout.write(scenario(os.path.dirname(os.path.abspath(path)), Fraction(tick, 1000), length, items, jobs, together))
