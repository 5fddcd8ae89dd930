"""What a member's statement says: all that changed what it was owed between two days, and what it was owed before and after.

Law: opening balance + credits - deductions + adjustments - orders + what came back = closing balance, to the unit, and the closing
balance of one statement is the opening balance of the next.
"""

import dataclasses
import datetime
import functools
import itertools
import operator
from collections.abc import Iterable, Iterator, Sequence
from typing import NamedTuple

from society_office.basics.errors import OfficeError
from society_office.book.copy import Copy
from society_office.book.own_returns import corrected_by, is_own
from society_office.closings.pool_kinds import Book
from society_office.credits.statements import Statements
from society_office.formats.pool_names import PoolNames, pool_text
from society_office.payments.booking import Credits, need_same
from society_office.payments.home import Home
from society_office.payments.members import Member
from society_office.payments.owed import Entry, Kind
from society_office.payments.words import Words
from society_office.works.owners import OWNER
from society_office.works.records import UNCLAIMED


class Earned(NamedTuple):
    """What a pool credited to an account for a work; without a title where no work owned the recording."""

    pool: int
    right: str
    account: str
    title: str
    work: str
    publisher: str
    units: int


@dataclasses.dataclass(frozen=True)
class Pay:
    """A payment: its day, the batch, whether it came back, what the bank has told of it, and the units as they change what is owed."""

    day: datetime.date
    batch: int
    is_return: bool
    told: str
    units: int


@dataclasses.dataclass(frozen=True)
class Account:
    """A member's statement from one day to another."""

    number: str
    made: datetime.date
    first: datetime.date
    last: datetime.date
    office: str
    words: Words
    member: Member
    opening: int
    earned: list[Earned]
    deducted: list[tuple[int, str, int]]
    adjusted: list[tuple[datetime.date, str, int]]
    paid: list[Pay]
    pools: dict[int, str]

    @property
    def credited(self) -> int:
        """All that pools credited."""
        return sum(it.units for it in self.earned)

    @property
    def deductions(self) -> int:
        """All that was deducted."""
        return sum(units for _, _, units in self.deducted)

    @property
    def adjustments(self) -> int:
        """All adjustments."""
        return sum(units for _, _, units in self.adjusted)

    @property
    def payments(self) -> int:
        """All that was ordered and came back, as it changes what is owed."""
        return sum(it.units for it in self.paid)

    @property
    def closing(self) -> int:
        """What the member is owed at the end."""
        return self.opening + self.credited - self.deductions + self.adjustments + self.payments

    @property
    def is_empty(self) -> bool:
        """Whether it has no line, and nothing is owed."""
        return not (self.opening or self.earned or self.deducted or self.adjusted or self.paid)

    def amount(self, units: int) -> str:
        """Units as an amount of the currency, with commas between thousands."""
        return self.words.shown(units)


class Accounts:
    """Statements of members out of a ledger, with the works out of a copy."""

    def __init__(self, copy: Copy, credits: Credits, home: Home, first: datetime.date | None, last: datetime.date) -> None:
        """An OfficeError where the copy is not the ledger's."""
        need_same(credits, home)
        self.copy, self.home, self.first, self.last = copy, home, first or datetime.date.min, last
        self.today = datetime.datetime.now(datetime.UTC).date()
        self.statements = Statements(copy)
        self.by_member: dict[str, list[Entry]] = {}
        for it in home.ledger.lines:
            self.by_member.setdefault(it.entry.member, []).append(it.entry)

    @functools.cached_property
    def pools(self) -> dict[int, str]:
        """What each pool is called, and which one it corrects."""
        return named(self.copy, self.home.decided.pools)

    @property
    def keys(self) -> list[str]:
        """All members and all of whom the ledger has lines."""
        return sorted(self.home.members.by_key.keys() | (self.home.ledger.owed.keys() - {UNCLAIMED}))

    def of(self, key: str) -> Account:
        """The statement of a member; an OfficeError where there is none."""
        if key not in self.keys:
            raise OfficeError(f"there is no member {key}")
        return next(self.each([key]))

    def each(self, keys: Sequence[str]) -> Iterator[Account]:
        """The statements of members in the order of these keys, with one reading of all credits."""
        none: tuple[int, list[Earned]] = (len(keys), [])
        rows = self.rows(keys)
        following = next(rows, none)
        for k, key in enumerate(keys):
            own: list[Earned] = []
            if following[0] == k:
                own, following = following[1], next(rows, none)
            yield self.account(key, own)

    def rows(self, keys: Sequence[str]) -> Iterator[tuple[int, list[Earned]]]:
        """What each member was credited for works between the days, with its place; a member without such credits is left out."""
        database = self.copy.database
        database.execute("CREATE TEMP TABLE IF NOT EXISTS booked (pool INTEGER, account TEXT, place INTEGER, PRIMARY KEY (pool, account))")
        database.execute("DELETE FROM booked")
        places = {key: k for k, key in enumerate(keys)}
        days = self.home.ledger.days
        wanted = (
            (pool, account, places[to])
            for (pool, account), (to, _) in self.home.ledger.credited.items()
            if to in places and self.first <= days[pool] <= self.last
        )
        database.executemany("INSERT INTO booked VALUES (?, ?, ?)", wanted)
        self.statements.begin("SELECT isrc FROM credits CROSS JOIN booked USING (pool, account)")
        question = f"""SELECT place, pool, isrc, account, units, {OWNER} FROM credits c CROSS JOIN booked USING (pool, account)
          WHERE units > 0 ORDER BY place, pool, account, line"""
        for place, found in itertools.groupby(self.copy.rows(question), key=operator.itemgetter(0)):
            yield place, self.earned(found)

    def earned(self, rows: Iterable[tuple[int, int, str, str, int, int | None]]) -> list[Earned]:
        """Rows of credits as what works earned."""
        sums: dict[tuple[int, str, str, str, str, str], int] = {}
        for it in self.statements.credits(row[1:] for row in rows):
            key = (it.pool, it.right, it.account, it.title, it.work, it.publisher)
            sums[key] = sums.get(key, 0) + it.units
        return [Earned(*key, units) for key, units in sums.items()]

    def account(self, key: str, earned: list[Earned]) -> Account:
        """A statement by the lines of the ledger and what works earned."""
        every = self.by_member.get(key, [])
        opening = sum(it.change for it in every if it.day < self.first)
        lines = [it for it in every if self.first <= it.day <= self.last]
        booked = sum(it.units for it in lines if it.kind == Kind.CREDITED)
        if booked != sum(it.units for it in earned):
            raise OfficeError(f"{key}: the ledger has credits of {booked:,} units, and {self.copy.path} has others")
        words = self.home.words
        first = self.first if self.first != datetime.date.min else min((it.day for it in every), default=self.last)
        return Account(
            f"{key}/{self.last:%Y%m%d}/{len(self.home.ledger.lines)}",
            self.today,
            first,
            self.last,
            words.name or self.copy.name,
            words,
            self.home.members.by_key.get(key, Member(key, "")),
            opening,
            earned,
            [(it.place, it.words, it.units) for it in lines if it.kind == Kind.DEDUCTED],
            [(it.day, it.words, it.units) for it in lines if it.kind == Kind.ADJUSTED],
            [self.payment(it) for it in lines if it.kind in (Kind.ORDERED, Kind.RETURNED)],
            self.pools,
        )

    def payment(self, it: Entry) -> Pay:
        """A payment, with what the bank has told of it."""
        batch = self.home.ledger.batches[it.place]
        told = it.words
        if it.kind == Kind.ORDERED:
            paid, back = batch.confirmed.get(it.member), batch.returned.get(it.member)
            told = f"paid on {paid}" if paid else f"sent back on {back}" if back else "the bank has not told yet"
        return Pay(it.day, it.place, it.kind == Kind.RETURNED, told, it.change)


def named(copy: Copy, names: PoolNames) -> dict[int, str]:
    """What each pool is called: its name and days, and where it corrects others, which."""
    book, found = Book(copy), dict[int, str]()
    for pool, order in book.orders.items():
        told = pool_text(names, pool)
        corrected = sorted(it for reporter, _ in order.returns if (it := corrected_by(reporter)) is not None)
        if corrected:
            told += f" corrects pool {', '.join(map(str, corrected))}"
        elif pool in book.amending:
            told += f" corrects pool {book.amending[pool]}"
        elif any(is_own(reporter) for reporter, _ in order.returns):
            # (the amendments that are in force when it is closed have higher numbers, as the row goes down)
            before = sorted({amended for number, amended in book.amending.items() if number > pool})
            listed = ", ".join(map(str, before))
            told += " makes up what was lacking" + (f", as pool {listed} was corrected" if before else "")
        found[pool] = told
    return found
