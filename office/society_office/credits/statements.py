"""Statements: every credit of an account, or of a publisher's works, with sums by pool, by work and in all."""

import dataclasses
import functools
import itertools
import operator
import re
from collections.abc import Iterable, Iterator
from typing import NamedTuple, TextIO

from society_office.basics.errors import OfficeError
from society_office.book.copy import Copy
from society_office.credits.lines import NO_WORK, Credit, Sums, Words, held, write_csv
from society_office.credits.parties import names_of, parties
from society_office.credits.spans import Span
from society_office.formats.pool_names import PoolNames
from society_office.works.owners import OWNER, Claim, Owners
from society_office.works.records import UNCLAIMED, Works, sender_names

SENDER = re.compile(r"[0-9A-Z]{11}", re.ASCII)
# What is a sender by its form, and an account that was mistyped by its looks.
MISTYPED, HINT = re.compile(r"I[0-9]{10}|[0-9]{11}", re.ASCII), " (an account of an IPI name number is I and eleven digits)"
ACCOUNT = re.compile(r"UNCLAIMED|I[0-9]{11}|P[0-9A-Z]{11}[!-~]([ -~]{0,7}[!-~])?", re.ASCII)
# Lines in their order. All rows are looked at in any case; by the key's index they would be looked up one by one.
LINES = f"""SELECT pool, isrc, account, units, {OWNER} FROM credits c NOT INDEXED
  WHERE {{}} AND pool BETWEEN ? AND ? ORDER BY pool, line"""


class Sum(NamedTuple):
    """What some lines come to, under the words that name them."""

    words: tuple[str, ...]
    units: int


@dataclasses.dataclass(frozen=True)
class Statement:
    """What an account was credited, or what a publisher's works earned: its first lines, no more than are held, and the sums of all."""

    key: str
    name: str
    office: str
    span: Span
    credits: list[Credit]
    sums: Sums
    balance: int | None
    publishers: dict[str, str]
    accounts: dict[str, str]
    is_named: bool = True

    @property
    def is_of_publisher(self) -> bool:
        """Whether it tells what a publisher's works earned, for whatever account."""
        return self.balance is None

    @property
    def total(self) -> int:
        """All its units."""
        return self.sums.total

    @property
    def is_held(self) -> bool:
        """Whether all its lines are held."""
        return len(self.credits) == self.sums.count

    @property
    def is_whole(self) -> bool:
        """Whether it is over all pools."""
        return self.span.is_whole

    @property
    def agrees(self) -> bool:
        """Whether its units are the account's balance; a statement of some pools or of a publisher has none to agree with."""
        return self.balance is None or not self.is_whole or self.balance == self.total

    @property
    def by_pool(self) -> list[Sum]:
        """The units by pool and right."""
        return [Sum((str(pool), right), units) for (pool, right), units in self.sums.by_pool.items()]

    @functools.cached_property
    def by_work(self) -> list[Sum]:
        """The units by work, the greatest first."""
        return greatest_first(self.sums.by_work.items())

    @property
    def works(self) -> int:
        """How many works it has, whatever titles they had; what stands without a work is none."""
        return len({it.words[1:] for it in self.by_work} - {NO_WORK[1:]})

    @functools.cached_property
    def by_account(self) -> list[Sum]:
        """The units by account, the greatest first."""
        return greatest_first(((account,), units) for account, units in self.sums.by_account.items() if self.is_of_publisher)


def greatest_first(sums: Iterable[tuple[tuple[str, ...], int]]) -> list[Sum]:
    """Sums, the greatest first."""
    return sorted((Sum(*it) for it in sums), key=lambda it: (-it.units, it.words))


class Statements:
    """Statements out of one copy."""

    def __init__(self, copy: Copy) -> None:
        """Reads what all statements need: the rights of the pools, and the senders' names."""
        copy.need_derived()
        self.copy, self.works = copy, Works(copy)
        self.rights, self.names = copy.rights(), sender_names(copy)

    def begin(self, which: str = "", *values: str) -> None:
        """Looks up who owns the recordings that a question lists, or all of them; titles are read when lines are."""
        self.owners, self.owned = Owners(self.copy, which, *values), dict[int, Claim]()
        self.words: dict[int | None, Words] = {None: NO_WORK}

    def credits(self, rows: Iterable[tuple[int, str, str, int, int | None]]) -> Iterator[Credit]:
        """Rows of credits with the titles and the works that they come from."""
        words, rights = self.words, self.rights
        for pool, isrc, account, units, owner in rows:
            if owner is not None and owner not in words:
                it = self.owned[owner] = self.owners.row(owner)
                words[owner] = self.works.title(it.sender, it.number, it.place), it.work, it.sender
            yield Credit(pool, rights[pool], isrc, *words[owner], account, units)

    def of(self, key: str, *pools: int) -> Statement:
        """The statement of an account or of a sender of files, by all pools or those of a span; an OfficeError where the key is neither."""
        span = Span(*pools)
        credits, sums = held(self.lines(key, span))
        if is_sender(self.copy, key):
            accounts = names_of(parties(self.copy, key))
            return Statement(key, self.names.get(key, ""), self.copy.name, span, credits, sums, None, self.names, accounts)
        listed = {key: self.name_of(key)} if sums.count else self.named(key)
        name = listed.get(key, "")
        return Statement(key, name, self.copy.name, span, credits, sums, self.balance(key), self.names, {key: name}, key in listed)

    def write_csv(self, key: str, span: Span, out: TextIO, names: PoolNames) -> Statement:
        """Writes every line as CSV while it is read; answers the statement without lines and names, to be compared with the balance."""
        sums = write_csv(self.lines(key, span), names, out)
        if is_sender(self.copy, key):
            return Statement(key, "", self.copy.name, span, [], sums, None, {}, {})
        return Statement(key, "", self.copy.name, span, [], sums, self.balance(key), {}, {}, bool(sums.count) or key in self.named(key))

    def named(self, account: str) -> dict[str, str]:
        """The account with its name, where a work names it now: one that was mistyped is not to be told as one that was not played."""
        if account == UNCLAIMED:
            return {account: ""}
        return {key: name for key, name in names_of(parties(self.copy)).items() if key == account}

    def balance(self, account: str) -> int:
        """An account's balance."""
        found = self.copy.row("SELECT units FROM balances WHERE account = ?", account)
        return int(found[0]) if found else 0

    def lines(self, key: str, span: Span) -> Iterator[Credit]:
        """What some pools have credited to an account, or for the works of a sender to whatever account."""
        if is_sender(self.copy, key):
            self.begin("SELECT isrc FROM recordings WHERE sender = ?", key)
            rows = self.copy.rows(LINES.format("isrc IN (SELECT isrc FROM temp.named)"), *span)
            return (it for it in self.credits(rows) if it.publisher == key)
        self.begin("SELECT isrc FROM credits NOT INDEXED WHERE account = ?", key)
        return self.credits(self.copy.rows(LINES.format("account = ?"), key, *span))

    def name_of(self, account: str) -> str:
        """The name that the last of the works that lines come from gives an account's party."""
        owned = [] if account == UNCLAIMED else sorted(self.owned.values(), key=lambda it: (-it.number, it.sender, it.place))
        for it in owned:
            for party in self.works.transaction(it.sender, it.number, it.place).parties(it.sender):
                if party.account == account and party.name:
                    return party.name
        return ""

    def all(self, span: Span, names: dict[str, str]) -> Iterator[Statement]:
        """The statement of each account but that of what nobody was paid, and then of each publisher that has works; `names` has the names
        of accounts."""
        self.begin()
        self.copy.listed("CREATE TEMP TABLE earned (pool INTEGER, line INTEGER, isrc TEXT, account TEXT, units INTEGER, owner INTEGER)")
        credits = f"SELECT pool, line, isrc, account, units, {OWNER} FROM credits c WHERE pool BETWEEN ? AND ?"
        self.copy.listed(f"INSERT INTO earned {credits}", *span)
        balances = dict(self.copy.rows("SELECT account, units FROM balances"))
        for key, lines in self.earned("account", f"WHERE account <> '{UNCLAIMED}'"):
            sums, balance = held(lines)[1], balances.get(key, 0)
            yield Statement(key, names.get(key, ""), self.copy.name, span, lines, sums, balance, self.names, names)
        others = {it.sender for it in self.copy.lines() if it.works}
        for key, lines in self.earned("sender", "JOIN temp.named n ON n.rowid = owner"):
            others.discard(key)
            yield Statement(key, self.names.get(key, ""), self.copy.name, span, lines, held(lines)[1], None, self.names, names)
        for key in sorted(others):
            yield Statement(key, self.names.get(key, ""), self.copy.name, span, [], Sums(), None, self.names, names)

    def earned(self, by: str, which: str) -> Iterator[tuple[str, list[Credit]]]:
        """The lines of each account or sender, one after another."""
        question = f"SELECT pool, e.isrc, account, units, owner, {by} FROM earned e {which} ORDER BY {by}, pool, line"
        for key, rows in itertools.groupby(self.copy.rows(question), key=operator.itemgetter(5)):
            yield key, list(self.credits(it[:5] for it in rows))


def is_sender(copy: Copy, key: str) -> bool:
    """Whether a key is a sender of files, not an account; an OfficeError where it is neither, or where nothing has come of the sender."""
    if not SENDER.fullmatch(key) and not ACCOUNT.fullmatch(key):
        raise OfficeError(
            f"{key} is no account (I00000000199, PPB000000012A1, UNCLAIMED) and no sender of files (PB000000012); "
            "`society-office parties COPY` lists the names of accounts"
        )
    if not SENDER.fullmatch(key):
        return False
    copy.need_line(key, HINT if MISTYPED.fullmatch(key) else "")
    return True


def folder_of(key: str) -> str:
    """The name of a key's folder: the key itself, each character but letters and digits as `%` and its number."""
    return "".join(it if it.isascii() and it.isalnum() else f"%{ord(it):02X}" for it in key)
