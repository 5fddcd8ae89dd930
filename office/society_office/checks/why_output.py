"""What became of a sender's files as CSV, a row for each fault, and as JSON."""

import csv
import io
import json
from collections.abc import Iterator
from typing import Any

from society_office.basics.plain_text import plain, printable
from society_office.checks import faults
from society_office.checks.why import Rejected, SentFile, Story, lines
from society_office.checks.work_faults import Fault
from society_office.formats.numbering import as_sent

OF_FILE = ["sender", "file", "state", "accepted"]
COLUMNS = [*OF_FILE, "work", "title", "rejected", "fault", "means", "line", "record", "field", "found", "since"]


def as_table(it: Story) -> str:
    """All of it in lines."""
    return "".join(f"{printable(line)}\n" for line in lines(it))


def as_csv(it: Story) -> str:
    """A row for each fault of each rejected work, and one for each file that has none."""
    out = io.StringIO()
    writer = csv.writer(out, lineterminator="\n")
    writer.writerow(COLUMNS)
    for file in it.files:
        writer.writerows([plain(str(cell)) for cell in row] for row in rows(it.line.sender, file))
    return out.getvalue()


def rows(sender: str, file: SentFile) -> Iterator[list[Any]]:
    """The rows of a file."""
    begin = [sender, as_sent(file.number), file.state, file.accepted]
    if not file.rejected:
        yield begin + [""] * (len(COLUMNS) - len(OF_FILE))
    for bad in file.rejected:
        for cells in fault_rows(bad):
            yield [*begin, bad.work, bad.title, bad.fault, *cells, bad.since]


def fault_rows(bad: Rejected) -> Iterator[list[Any]]:
    """Each fault of a rejected work: what it is, and where; of one that the work alone does not tell, what it is."""
    for fault in bad.own.faults:
        yield [fault.number, faults.words(fault.kind, fault.number), fault.line, fault.record, fault.field, fault.found]
    if bad.fault not in (it.number for it in bad.own.faults):
        yield [bad.fault, faults.words("transaction", bad.fault), "", "", "", ""]


def as_json(it: Story) -> str:
    """All of it as JSON."""
    line = it.line
    told = {
        "sender": line.sender,
        "name": it.name,
        "front": as_sent(line.front),
        "waits": [as_sent(number) for number in line.waiting],
        "missing": [as_sent(number) for number in line.missing],
        "skipped": [as_sent(number) for number in line.skipped],
        "files": [file_told(file) for file in it.files],
    }
    return json.dumps(told, indent=2, ensure_ascii=False) + "\n"


def file_told(file: SentFile) -> dict[str, Any]:
    """A file as JSON has it."""
    rejected = [
        {"work": it.work, "title": it.title, "fault": it.fault, "means": faults.words("transaction", it.fault), "since": it.since}
        | {"faults": [fault_told(fault) for fault in it.own.faults]}
        for it in file.rejected
    ]
    told = {"file": as_sent(file.number), "state": file.state, "accepted": file.accepted}
    return told | {"rejected": rejected, "warnings": file.warnings}


def fault_told(it: Fault) -> dict[str, Any]:
    """A fault as JSON has it."""
    return {"fault": it.number, "line": it.line, "record": it.record, "field": it.field, "found": it.found, "hint": it.hint}


FORMS = {"table": as_table, "csv": as_csv, "json": as_json}
