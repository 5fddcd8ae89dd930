"""Whether a copy can be what an office wrote: what its tables say of each other. Only `society audit` tells all."""

from typing import Any

from society_office.basics.errors import OfficeError
from society_office.book.copy import Copy
from society_office.formats.fields import SENDER
from society_office.formats.numbering import PER_YEAR, YEARS

CURE = "ask `society audit` about it, and take another copy"
# What reading a copy ends with where its rows are not of an office.
BROKEN = (ArithmeticError, AssertionError, AttributeError, LookupError, RecursionError, TypeError, ValueError)
# Each finds what no office writes, as a pair of words; the tables of layout 2 are enough.
QUESTIONS: tuple[tuple[Any, ...], ...] = (
    ("SELECT 'pool ' || pool, 'an amount of ' || amount FROM pools WHERE amount < 0",),
    (
        """SELECT sender, 'file ' || number || ', whose header names ' || quote(CAST(substr(body, ?, ?) AS TEXT)) FROM transmissions
          WHERE CAST(substr(body, ?1, ?2) AS TEXT) <> sender""",
        SENDER.first,
        SENDER.last - SENDER.first + 1,
    ),
    (
        """SELECT sender, 'a work of file ' || number || ', which has not come' FROM versions
          WHERE (sender, number) NOT IN (SELECT sender, number FROM transmissions)""",
    ),
    (
        # (a front can be the number before the first one of a year)
        """SELECT sender, 'a front of ' || front || ', which has not come' FROM fronts
          WHERE front > 0 AND NOT (front >= ? AND front % ? = 0) AND (sender, front) NOT IN (SELECT sender, number FROM transmissions)""",
        YEARS,
        PER_YEAR,
    ),
    ("SELECT DISTINCT sender, 'files and no front' FROM transmissions WHERE sender NOT IN (SELECT sender FROM fronts)",),
)
# The same of sums, for which all credits are read.
SUMS: tuple[tuple[Any, ...], ...] = (
    (
        """SELECT 'pool ' || pool, 'an amount of ' || amount || ' and credits of ' || coalesce(units, 0) FROM pools
          LEFT JOIN (SELECT pool, sum(units) AS units FROM credits GROUP BY pool) USING (pool) WHERE amount <> coalesce(units, 0)""",
    ),
    ("SELECT 'pool ' || pool, 'credits, and is not closed' FROM credits WHERE pool NOT IN (SELECT pool FROM pools)",),
    (
        """SELECT 'the office', 'balances of ' || b || ' and pools of ' || p FROM
          (SELECT (SELECT coalesce(sum(units), 0) FROM balances) AS b, (SELECT coalesce(sum(amount), 0) FROM pools) AS p) WHERE b <> p""",
    ),
)


def need_sound(copy: Copy, sums: bool = False) -> None:
    """An OfficeError where the tables of a copy say what no office writes; with `sums`, where its sums differ too."""
    for question, *values in QUESTIONS + (SUMS if sums else ()):
        if (found := copy.row(question, *values)) is not None:
            raise OfficeError(f"{copy.path} is not sound: {found[0]} has {found[1]}; {CURE}")
    if (found := copy.row("PRAGMA foreign_key_check")) is not None:
        raise OfficeError(f"{copy.path} is not sound: a row of {found[0]} has lost the row of {found[2]} to which it refers; {CURE}")
