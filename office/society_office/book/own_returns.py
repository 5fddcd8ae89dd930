"""Returns that the office itself writes: what they are called, and rows whose points are units.

`DUE3F0A9C21` and `LATE3F0A9C21` pay what is lacking; behind the word stands a sum of the return's bytes, so that an order can only be
closed over the very return that it was written with. `AMEND7` tells that pool 7 was amended. Each has the number of the pool that pays it.
Older books have `SETTLED`, which is read as LATE, and `CORRECTED7`, which is read as DUE. They are no plays.
"""

import hashlib
import re
from collections.abc import Iterator, Mapping

from society_office.formats.plays import HEADER, MOST_PLAYS, MOST_SECONDS

DUE, LATE, AMEND, SETTLED, CORRECTED = "DUE", "LATE", "AMEND", "SETTLED", "CORRECTED"
DIGITS = 8
REPORTER = re.compile(rf"({DUE}|{LATE})[0-9A-F]{{{DIGITS}}}|{SETTLED}|({AMEND}|{CORRECTED})([1-9][0-9]{{0,4}})", re.ASCII)
# A return without a row.
ROWLESS = ",".join(HEADER) + "\n"


def is_own(reporter: str) -> bool:
    """Whether a reporter is the office itself, and no station."""
    return REPORTER.fullmatch(reporter) is not None


def is_numbered_down(reporter: str) -> bool:
    """Whether its returns have the numbers of the pools that pay them, which go down."""
    found = REPORTER.fullmatch(reporter)
    return found is not None and (found[1] is not None or found[2] == AMEND)


def pays_late(reporter: str) -> bool:
    """Whether its returns pay what had no owner at its own cut."""
    found = REPORTER.fullmatch(reporter)
    return found is not None and (found[1] == LATE or reporter == SETTLED)


def reporter_of(word: str, body: str) -> str:
    """The reporter of a return that pays what is lacking."""
    return word + hashlib.sha256(body.encode()).hexdigest()[:DIGITS].upper()


def amends(pool: int) -> str:
    """The reporter of the returns that tell of a pool's amendments."""
    return f"{AMEND}{pool}"


def amended_by(reporter: str) -> int | None:
    """The pool that a reporter's returns amend; None where they amend none."""
    found = REPORTER.fullmatch(reporter)
    return int(found[3]) if found and found[2] == AMEND else None


def corrected_by(reporter: str) -> int | None:
    """The pool that a reporter's returns corrected in an older book; None where they corrected none."""
    found = REPORTER.fullmatch(reporter)
    return int(found[3]) if found and found[2] == CORRECTED else None


def unit_rows(isrc: str, units: int) -> Iterator[str]:
    """Rows whose plays times seconds are so many units: full ones, one of whole seconds, and one of what is left."""
    most = MOST_PLAYS * MOST_SECONDS
    full, rest = divmod(units, most)
    yield from [f"{isrc},{MOST_PLAYS},{MOST_SECONDS}\n"] * full
    plays, left = (0, rest) if rest <= MOST_PLAYS else divmod(rest, MOST_SECONDS)
    if plays:
        yield f"{isrc},{plays},{MOST_SECONDS}\n"
    if left:
        yield f"{isrc},{left},1\n"


def return_of(by_isrc: Mapping[str, int]) -> str:
    """A return whose points are the units of each recording."""
    return ROWLESS + "".join(row for isrc, units in sorted(by_isrc.items()) for row in unit_rows(isrc, units))
