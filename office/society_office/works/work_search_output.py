"""Works that were found as lines, as CSV with a row for each thing that is told of a work, and as JSON."""

import csv
import io
import json
from collections.abc import Iterator, Sequence
from typing import Any

from society_office.basics.plain_text import plain
from society_office.checks import faults
from society_office.credits.explain_output import percent_text
from society_office.formats.numbering import as_sent, counted
from society_office.works.records import shown_number
from society_office.works.registered_works import REJECTED, Holding, Version, Work

Told = dict[str, Any]
KINDS = {"NWR": "registration", "REV": "revision"}
OF_WORK = ["sender", "sender_name", "work", "title", "iswc"]
COLUMNS = [
    *(*OF_WORK, "what", "isrc", "account", "name", "side", "pr", "mr", "file", "day", "kind", "revision", "state", "fault", "means"),
    *("sent_title", "pool", "right", "units", "unclaimed"),
]


def as_lines(found: Sequence[Work], count: int) -> str:
    """Each work with its recordings, its holders, its versions and its credits; at the end how many there are."""
    told = [*(line for it in found for line in (*lines(it), "")), told_count(len(found), count)]
    return "".join(f"{it}\n" for it in told)


def told_count(shown: int, count: int) -> str:
    """How many works were found, and how many of them are not shown."""
    if shown == count:
        return counted(count, "work")
    return f"{shown:,} of {counted(count, 'work')}, {count - shown:,} more: ask for more of its words, or give `--most {count}`"


def lines(it: Work) -> Iterator[str]:
    """A work in lines."""
    now, sender = it.now, f"{it.sender} {it.sender_name}".rstrip()
    yield f"{now.title or '(no title)'}, {shown_number(it.number)} of {sender}" + (f", {now.iswc}" if now.iswc else "")
    if now.isrcs:
        yield f"  recordings  {', '.join(now.isrcs)}"
    yield from labelled("holders", (holder_line(one) for one in now.holders))
    yield from labelled("versions", (version_line(one, now.title) for one in it.versions))
    credited = [f"pool {one.pool}, {one.right}: {one.units:,} units" + unclaimed_told(one.unclaimed) for one in it.credited]
    yield from labelled("credited", credited or ["nothing"])


def labelled(label: str, listed: Iterator[str] | list[str]) -> Iterator[str]:
    """Lines with a word before the first of them."""
    for k, it in enumerate(listed):
        yield f"  {'' if k else label:10}  {it}"


def holder_line(it: Holding) -> str:
    """A holder with its shares."""
    return f"{it.account} {it.name}, {it.side}: {percent_text(it.pr)} of the PR, {percent_text(it.mr)} of the MR"


def version_line(it: Version, title: str) -> str:
    """A version with what became of it, and its title where that is another one now."""
    kind = KINDS[it.kind] + (f" {it.revision}" if it.kind == "REV" and it.revision else "")
    why = f", fault {it.fault}: {faults.means('transaction', it.fault)}" if it.state == REJECTED else ""
    return f"file {as_sent(it.number)} of {it.day}, {kind}: {it.state}{why}" + (f" ({it.title})" if it.title != title else "")


def unclaimed_told(units: int) -> str:
    """What of a credit went to nobody, in words; nothing where all was paid."""
    return f", {units:,} of them to nobody" if units else ""


def as_csv(found: Sequence[Work], count: int) -> str:
    """A row for each recording, holder, version and credit of each work."""
    out = io.StringIO()
    writer = csv.DictWriter(out, COLUMNS, restval="", lineterminator="\n")
    writer.writeheader()
    for it in found:
        for row in rows(it):
            writer.writerow({name: plain(str(cell)) for name, cell in (own_told(it) | row).items()})
    return out.getvalue()


def rows(it: Work) -> Iterator[Told]:
    """What is told of a work, one thing after another."""
    for isrc in it.now.isrcs:
        yield {"what": "recording", "isrc": isrc}
    for holder in it.now.holders:
        yield {"what": "holder"} | holder._asdict()
    for version in it.versions:
        yield {"what": "version"} | became(version) | {"sent_title": version.title}
    for credit in it.credited:
        yield {"what": "credited"} | credit._asdict()


def as_json(found: Sequence[Work], count: int) -> str:
    """How many works were found, and those that are shown with all that is told of them."""
    return json.dumps({"found": count, "works": [work_told(it) for it in found]}, ensure_ascii=False, indent=1) + "\n"


def work_told(it: Work) -> Told:
    """A work with all that is told of it."""
    now = {"isrcs": it.now.isrcs, "holders": [one._asdict() for one in it.now.holders]}
    return own_told(it) | now | {"versions": [version_told(one) for one in it.versions], "credited": [one._asdict() for one in it.credited]}


def own_told(it: Work) -> Told:
    """What names a work."""
    cells = (it.sender, it.sender_name, shown_number(it.number), it.now.title, it.now.iswc)
    return dict(zip(OF_WORK, cells, strict=True))


def became(it: Version) -> Told:
    """Where a version stands, and what became of it."""
    means = faults.means("transaction", it.fault) if it.fault else ""
    told: Told = {"file": as_sent(it.number), "day": it.day, "kind": KINDS[it.kind], "revision": it.revision, "state": it.state}
    return told | {"fault": it.fault, "means": means}


def version_told(it: Version) -> Told:
    """A version with all that it says."""
    return became(it) | {"title": it.title, "iswc": it.iswc, "isrcs": it.isrcs, "holders": [one._asdict() for one in it.holders]}


FORMS = {"table": as_lines, "csv": as_csv, "json": as_json}
