"""The lines of statements: what they say, what they come to, and they as CSV."""

import collections
import csv
import dataclasses
import functools
import io
from collections.abc import Iterable
from typing import NamedTuple, TextIO

from society_office.basics.plain_text import plain
from society_office.formats.pool_names import POOL_COLUMNS, PoolNames, named

NO_RECORDING = "-"
# What a line says of its pool beside the number stands last, so that who reads lines by their places reads on.
COLUMNS = ["pool", "right", "isrc", "title", "work", "publisher", "account", "units", *POOL_COLUMNS]
HEADER = ",".join(COLUMNS) + "\n"
# Lines of a statement that are held; of more of them there are the sums, and all of them as CSV.
MOST_HELD = 2_000
# A work as lines name it: title, number, publisher. The empty words are those of a recording that no work owns.
Words = tuple[str, str, str]
NO_WORK = ("", "", "")


class Credit(NamedTuple):
    """One line of a statement."""

    pool: int
    right: str
    isrc: str
    title: str
    work: str
    publisher: str
    account: str
    units: int


@dataclasses.dataclass
class Sums:
    """What lines come to: how many they are, their units by pool and right, by work (title, number, publisher) and by account."""

    count: int = 0
    by_pool: dict[tuple[int, str], int] = dataclasses.field(default_factory=lambda: collections.defaultdict(int))
    by_work: dict[Words, int] = dataclasses.field(default_factory=lambda: collections.defaultdict(int))
    by_account: dict[str, int] = dataclasses.field(default_factory=lambda: collections.defaultdict(int))

    @property
    def total(self) -> int:
        """All units."""
        return sum(self.by_pool.values())

    def add(self, it: Credit) -> None:
        """Adds a line."""
        pool, right, _, title, work, publisher, account, units = it
        self.count += 1
        self.by_pool[pool, right] += units
        self.by_work[title, work, publisher] += units
        self.by_account[account] += units


def held(credits: Iterable[Credit]) -> tuple[list[Credit], Sums]:
    """The first of some lines, no more than are held, and the sums of all."""
    found, sums = list[Credit](), Sums()
    for it in credits:
        sums.add(it)
        if sums.count <= MOST_HELD:
            found.append(it)
    return found, sums


def as_line(cells: Iterable[str]) -> str:
    """Texts as CSV, without the end of the line."""
    out = io.StringIO()
    csv.writer(out, lineterminator="").writerow([plain(it) for it in cells])
    return out.getvalue()


class Csv:
    """Lines as CSV. What many lines have alike is written once: a work with its account, and what is said of a pool."""

    def __init__(self, names: PoolNames) -> None:
        """With the names and days of pools."""
        self.names = names
        self.texts, self.end = functools.cache(as_line), functools.cache(self.end_of)

    def end_of(self, pool: int) -> str:
        """What stands at the end of the lines of a pool."""
        return as_line(named(self.names, pool))

    def line(self, it: Credit) -> str:
        """A line, with its end."""
        return f"{it.pool},{it.right},{it.isrc},{self.texts(it[3:7])},{it.units},{self.end(it.pool)}\n"


def write_csv(credits: Iterable[Credit], names: PoolNames, out: TextIO) -> Sums:
    """Writes lines as CSV with a header, one by one; answers their sums."""
    line, sums = Csv(names).line, Sums()
    out.write(HEADER)
    for it in credits:
        sums.add(it)
        out.write(line(it))
    return sums


def as_csv(credits: Iterable[Credit], names: PoolNames) -> str:
    """Lines as CSV, with a header."""
    return HEADER + "".join(map(Csv(names).line, credits))
