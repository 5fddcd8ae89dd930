"""Returns of plays: the one reader of their CSV with its limits, and the rows and points of those that were taken."""

import collections
import csv
import enum
import io
from collections.abc import Iterator

from society_office.formats.fields import MAX_BODY

BOM = b"\xef\xbb\xbf"
HEADER = ["isrc", "plays", "seconds"]
MOST_ROWS, MOST_PLAYS, MOST_SECONDS = 10_000, 1_000_000, 10_000
# A quote that is never closed makes one field of all that follows.
csv.field_size_limit(MAX_BODY)


class ReturnFault(enum.IntEnum):
    """Faults of a return."""

    HEADER = 1
    FIELDS = 2
    ISRC = 3
    PLAYS = 4
    SECONDS = 5
    ROWS = 6


def records(body: bytes) -> Iterator[list[str]]:
    """The records of a return as the office reads them: a byte order mark is passed over, and lines without a byte are none."""
    return filter(None, csv.reader(io.StringIO(body.removeprefix(BOM).decode("latin-1"), newline="")))


def rows(body: bytes) -> Iterator[tuple[str, int, int]]:
    """The rows of a return that was taken: recording in twelve characters, plays, seconds; a ValueError where it is none."""
    listed = records(body)
    if next(listed, None) != HEADER:
        raise ValueError("a return without its header")
    for isrc, plays, seconds in listed:
        yield isrc.upper().replace("-", ""), int(plays), int(seconds)


def points(body: bytes) -> collections.Counter[str]:
    """The points of each recording: plays times seconds."""
    found: collections.Counter[str] = collections.Counter()
    for isrc, plays, seconds in rows(body):
        found[isrc] += plays * seconds
    return found
