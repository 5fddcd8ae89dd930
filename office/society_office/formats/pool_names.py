"""Names and periods of pools, out of pools.txt of the folder of decisions: `3 2026-01-01/2026-03-31 First quarter` in a line."""

import dataclasses
import datetime
import pathlib
import re

from society_office.basics.errors import OfficeError
from society_office.formats.word_lists import entries_of

ENTRY = re.compile(r"([1-9][0-9]{0,4}) +([0-9]{4}-[0-9]{2}-[0-9]{2})/([0-9]{4}-[0-9]{2}-[0-9]{2}) +(.+)", re.ASCII)
FORM = "write a pool, its first and last day, and its name: 3 2026-01-01/2026-03-31 First quarter"


@dataclasses.dataclass(frozen=True)
class PoolName:
    """What a pool is called, and the days whose plays it pays."""

    name: str
    first: datetime.date
    last: datetime.date

    @property
    def period(self) -> str:
        """Its days in words."""
        return f"{self.first} to {self.last}"

    @property
    def words(self) -> str:
        """Both."""
        return f"{self.name}, {self.period}"


# The pools that have a name.
PoolNames = dict[int, PoolName]
# What a CSV says of a pool beside its number.
POOL_COLUMNS = ["pool_name", "first_day", "last_day"]


def names_in(file: pathlib.Path) -> PoolNames:
    """The names of a list; an OfficeError with the line of what is none, or is there twice."""
    found: PoolNames = {}
    for where, words in entries_of(file):
        entry = ENTRY.fullmatch(words)
        if not entry or not entry[4].isprintable():
            raise OfficeError(f"{where}: {words!r} names no pool: {FORM}")
        pool, first, last = int(entry[1]), day(where, entry[2]), day(where, entry[3])
        if last < first:
            raise OfficeError(f"{where}: the period {entry[2]}/{entry[3]} ends before it begins")
        if pool in found:
            raise OfficeError(f"{where}: pool {pool} has a name already, {found[pool].name}")
        found[pool] = PoolName(entry[4], first, last)
    return found


def day(where: str, words: str) -> datetime.date:
    """A day of the calendar."""
    try:
        return datetime.date.fromisoformat(words)
    except ValueError as error:
        raise OfficeError(f"{where}: {words} is no day of the calendar") from error


def pool_text(names: PoolNames, pool: int) -> str:
    """A pool as it is told of: `pool 3`, or `pool 3 (First quarter, 2026-01-01 to 2026-03-31)`."""
    return f"pool {pool} ({names[pool].words})" if pool in names else f"pool {pool}"


def named(names: PoolNames, pool: int) -> tuple[str, str, str]:
    """The name, the first and the last day of a pool, empty where it has none."""
    name = names.get(pool)
    return (name.name, str(name.first), str(name.last)) if name else ("", "", "")
