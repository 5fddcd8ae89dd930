"""Plays of nobody's recording as lines, as CSV that a station can be sent, and as JSON."""

import csv
import dataclasses
import io
import itertools
import json
from collections.abc import Iterator, Sequence

from society_office.basics.plain_text import plain
from society_office.credits.unknown import Candidate, Unknown
from society_office.formats.numbering import counted
from society_office.formats.return_names import names_text

COLUMNS = ["station", "isrc", "returns", "plays", "points", "units", "title", "how", "likely", "likely_title", "work", "publisher"]
# Recordings of a station that are printed.
MOST = 50


def as_lines(found: Sequence[Unknown]) -> str:
    """By station each recording with what may be meant."""
    return "".join(f"{it}\n" for it in lines(found)) if found else "each recording that a station has played is in a file\n"


def lines(found: Sequence[Unknown]) -> Iterator[str]:
    """It in lines, a blank one between stations."""
    for station, listed in itertools.groupby(found, key=lambda it: it.station):
        own = list(listed)
        yield f"{station}: {counted(len(own), 'recording')}, {counted(sum(it.units for it in own), 'unit')} to nobody"
        for it in own[:MOST]:
            title, played = f" {it.title}" if it.title else "", f"{counted(it.plays, 'play')}, {counted(it.points, 'point')}"
            yield f"  {it.isrc}{title}: {counted(it.units, 'unit')}, {played}; {names_text(it.returns)}"
            yield from (f"    {candidate_text(one)}" for one in it.candidates)
            if it.more:
                yield f"    and {it.more:,} more that differ by a digit"
        if len(own) > MOST:
            yield f"  and {len(own) - MOST:,} more: `--format csv` has every one of them"
        yield ""


def candidate_text(it: Candidate) -> str:
    """What may be meant."""
    return f"{it.how}: {it.isrc + ' ' if it.isrc else ''}{it.title or '(no title)'}, {it.work} of {it.sender} {it.sender_name}".rstrip()


def as_csv(found: Sequence[Unknown]) -> str:
    """A row for each recording that may be meant; one without where none is."""
    out = io.StringIO()
    writer = csv.writer(out, lineterminator="\n")
    writer.writerow(COLUMNS)
    for it in found:
        own = [it.station, it.isrc, names_text(it.returns), it.plays, it.points, it.units, plain(it.title)]
        for one in it.candidates or [Candidate("", "", "", "", "", "")]:
            writer.writerow([*own, one.how, one.isrc, plain(one.title), plain(one.work), plain(f"{one.sender} {one.sender_name}".strip())])
    return out.getvalue()


def as_json(found: Sequence[Unknown]) -> str:
    """An object for each recording of a station."""
    told = [dataclasses.asdict(it) | {"returns": [f"{reporter}/{number}" for reporter, number in it.returns]} for it in found]
    return json.dumps(told, ensure_ascii=False, indent=1) + "\n"


FORMS = {"table": as_lines, "csv": as_csv, "json": as_json}
