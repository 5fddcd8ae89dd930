"""What became of files that were checked, as lines and as JSON."""

import dataclasses
from collections.abc import Iterator
from typing import Any

from society_office.checks import faults
from society_office.checks.checking import OF_THE_LINE, Checked, Sent
from society_office.checks.cwr_faults import all_faults
from society_office.checks.work_faults import CheckedWork, Fault, first_warnings
from society_office.formats.numbering import as_sent


def detail(it: Fault) -> str:
    """Where a fault is: line, record, field, and what stands there."""
    where = f"{'row' if it.kind == 'return' else 'line'} {it.line}"
    record = f", {it.record}" if it.record and it.kind != "return" else ""
    found = f": {it.found!r}" if it.found else ""
    return f"{where}{record}, {it.field}{found}" + (f" ({it.hint})" if it.hint else "")


def explained(it: Fault) -> str:
    """A fault with its place, its meaning and its cure."""
    return f"fault {it.number}, {detail(it)}: {faults.words(it.kind, it.number)}"


def head_line(it: Sent, front: str = "") -> str:
    """What became of a file."""
    if it.state == "refused":
        return f"{it.label or it.name}: REFUSED, {it.refusal}"
    if it.state == "held":
        return f"{it.label}: waits for the files before it{front}"
    return f"{it.label}: {it.state}"


def work_lines(it: Sent, brief: bool) -> Iterator[str]:
    """A line for each work of a file that was applied, and unless it is brief where each fault is."""
    own: list[CheckedWork | None] = [None] * len(it.verdicts)
    if len(it.own.works) == len(own):
        own = [*it.own.works]
    for verdict, (number, title), work in zip(it.verdicts, it.titles, own):
        if "fault" not in verdict:
            if brief:
                yield f"  accepted {number} {title}, revision {verdict['revision']}"
            continue
        told = verdict["fault"]
        yield f"  REJECTED {number} {title}, fault {told}: {faults.words('transaction', told)}"
        if not brief and work is not None:
            if told in OF_THE_LINE:
                yield f"    at line {work.line}, {work.kind}, work number 82-95: {work.number!r}"
            yield from (f"    at {detail(fault)}" for fault in work.faults if fault.number == told)
            yield from (f"    also {explained(fault)}" for fault in work.faults if fault.number != told)


def brief_lines(checked_files: Checked) -> Iterator[str]:
    """What became of each file and each work, a line each."""
    for it in checked_files.files:
        yield head_line(it)
        yield from work_lines(it, brief=True)


def full_lines(checked_files: Checked) -> Iterator[str]:
    """What became of each file, and every fault of every work with its line, record, field and cure."""
    for end in checked_files.ends:
        yield f"tried as if this were stated: {end}"
    for it in checked_files.files:
        yield head_line(it)
        accepted = sum("fault" not in verdict for verdict in it.verdicts)
        if it.state == "applied":
            yield f"  {accepted:,} of {len(it.verdicts):,} works accepted"
        yield from work_lines(it, brief=False)
        if it.state != "applied":
            yield from (f"  {explained(fault)}" for fault in (it.rows if it.is_return else all_faults(it.own)))
        yield from (f"  {line}" for line in first_warnings(it.warnings))
        yield from (f"  note: {line}" for line in it.notes)


def as_data(checked_files: Checked) -> list[dict[str, Any]]:
    """All of it as JSON has it."""
    return [
        {
            "file": it.name,
            "number": "" if it.is_return else as_sent(it.number),
            "state": it.state,
            "refusal": it.refusal,
            "verdicts": it.verdicts,
            "faults": [
                {
                    **dataclasses.asdict(fault),
                    "means": faults.means(fault.kind, fault.number),
                    "cure": faults.cure(fault.kind, fault.number),
                }
                for fault in (it.rows if it.is_return else all_faults(it.own))
            ],
            "warnings": it.warnings,
            "notes": it.notes,
        }
        for it in checked_files.files
    ]
