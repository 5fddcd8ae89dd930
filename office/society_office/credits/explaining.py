"""How the credits of an account came about: plays, points, the recording's part of the pool, whose work, the share, the last units."""

import collections
import dataclasses
import itertools
from collections.abc import Iterable, Iterator, Sequence

from society_office.basics.errors import OfficeError
from society_office.book.copy import Copy
from society_office.book.own_returns import is_own
from society_office.book.soundness import CURE
from society_office.closings.closing import credits_of
from society_office.closings.credit import Ask, Asked, Row
from society_office.closings.dues import body_of
from society_office.closings.pool_ties import ties_of
from society_office.credits.lines import NO_RECORDING
from society_office.credits.statements import is_sender
from society_office.decided.decisions import Decisions
from society_office.formats.numbering import as_sent, counted, ranges
from society_office.formats.plays import rows
from society_office.formats.return_names import Return
from society_office.works.owners import Claim, Owners
from society_office.works.records import UNCLAIMED, Works, sender_names


@dataclasses.dataclass(frozen=True)
class Part:
    """What one of several gets of an amount: by its weight among all, with its place among the remainders, the units left, and its own."""

    amount: int
    weight: int
    all_weights: int
    place: int
    left: int
    units: int

    @property
    def whole(self) -> int:
        """Its whole units."""
        return self.amount * self.weight // self.all_weights

    @property
    def remainder(self) -> int:
        """What the division leaves."""
        return self.amount * self.weight % self.all_weights

    @property
    def last(self) -> int:
        """The unit that it gets of those that are left, 0 or 1."""
        return self.units - self.whole


def parts(listed: Sequence[tuple[int, int]]) -> list[Part]:
    """What several get of an amount, by the weight and the units of each."""
    amount, total = sum(units for _, units in listed), sum(weight for weight, _ in listed)
    ordered = sorted(range(len(listed)), key=lambda k: (-(amount * listed[k][0] % total), k))
    places = {k: place for place, k in enumerate(ordered, 1)}
    left = amount - sum(amount * weight // total for weight, _ in listed)
    return [Part(amount, weight, total, places[k], left, units) for k, (weight, units) in enumerate(listed)]


@dataclasses.dataclass(frozen=True)
class Played:
    """Plays of a recording in a return, all of one length."""

    reporter: str
    number: int
    plays: int
    seconds: int

    @property
    def points(self) -> int:
        """Plays times seconds."""
        return self.plays * self.seconds


# By recording its plays.
Plays = dict[str, list[Played]]


@dataclasses.dataclass(frozen=True)
class Owned:
    """The work that a recording's part goes to, in the version of a file; of none of them there is only why."""

    title: str = ""
    work: str = ""
    publisher: str = ""
    publisher_name: str = ""
    file: str = ""
    why: str = ""


@dataclasses.dataclass(frozen=True)
class Explained:
    """A credit: the plays of its recording, the recording's part of the pool, whose work it is, and the account's part of that."""

    isrc: str
    owned: Owned
    played: tuple[Played, ...]
    part: Part
    party: str
    share: Part
    units: int


@dataclasses.dataclass(frozen=True)
class Lacked:
    """What an account was due of a recording by a pool that a make-up makes up, and what it had been credited there."""

    pool: int
    amount: int
    points: int
    isrc: str
    due: list[Explained]
    credited: int

    @property
    def units(self) -> int:
        """What it was due."""
        return sum(it.units for it in self.due)


@dataclasses.dataclass(frozen=True)
class Explanation:
    """All that a pool credits to an account, or that of one recording; of a make-up also what was lacking, and of what other make-ups."""

    account: str
    name: str
    pool: int
    right: str
    amount: int
    points: int
    credits: list[Explained]
    notes: list[str] = dataclasses.field(default_factory=list)
    lacked: list[Lacked] = dataclasses.field(default_factory=list)
    made_up: dict[str, int] = dataclasses.field(default_factory=dict)

    @property
    def units(self) -> int:
        """All of it."""
        return sum(it.units for it in self.credits)


class Explainer:
    """Tells how the credits of a pool of a copy came about, by what the program says of its order."""

    def __init__(self, copy: Copy, pool: int, ask: Ask, known: Decisions | None = None) -> None:
        """Reads the order and the plays of the pool, and to which pools it is tied; an OfficeError where it is not closed."""
        self.ties = ties_of(copy, known)
        orders = self.ties.book.orders
        if pool not in orders:
            raise OfficeError(f"pool {pool} is not closed; closed are {ranges(orders, 20) or 'none'}")
        self.copy, self.pool, self.order, self.ask = copy, pool, orders[pool], ask
        self.works, self.names, self.played = Works(copy), sender_names(copy), played_in(copy, orders[pool].returns)
        self.owners = Owners(copy, "SELECT isrc FROM credits WHERE pool = ?", pool)

    def of(self, account: str, isrc: str | None = None) -> Explanation:
        """What the pool credits to an account; an OfficeError where it credits nothing, or where the copy has other credits than these."""
        if is_sender(self.copy, account):
            raise OfficeError(f"{account} is a sender of files: name an account, as `society-office statement COPY {account}` lists them")
        credited = credits_of(self.copy, self.pool)
        own = dict.fromkeys(it for it, to, _ in credited if to == account and isrc in (None, it))
        if not own:
            notes = "".join(f"; {it}" for it in self.ties.notes(self.pool))
            raise OfficeError(f"pool {self.pool} credits nothing to {account}{f' for {isrc}' if isrc else ''}{notes}")
        [listed] = self.ask([Asked(self.order)])
        if credited != [(it.isrc, it.account, it.part) for it in listed]:
            raise OfficeError(f"{self.copy.path} is not sound: pool {self.pool} credits otherwise than its order says; {CURE}")
        found = self.explained(listed, own, account, self.played)
        named = (it.party for it in found if it.party and account != UNCLAIMED)
        points, name = sum_of_points(listed), next(named, "")
        lacked, made_up = list(self.lacking(account, own)), self.made_up(account) if self.made else {}
        order = self.order
        return Explanation(account, name, self.pool, order.kind, order.amount, points, found, self.ties.notes(self.pool), lacked, made_up)

    def explained(self, listed: Sequence[Row], isrcs: Iterable[str], account: str, played: Plays) -> list[Explained]:
        """What an order credits to an account for some recordings, by all that it credits and its plays."""
        said = {it: list(rows) for it, rows in itertools.groupby(listed, key=lambda it: it.isrc)}
        recordings = dict(zip(said, parts([(it[0].points or 1, it[0].units) for it in said.values()])))
        wanted = [it for it in isrcs if it in said]
        self.works.load(self.place(said[it][0]) for it in wanted if said[it][0].sender)
        return [line for it in wanted for line, to in self.lines(said[it], recordings[it], played) if to == account]

    @property
    def made(self) -> list[int]:
        """The pools that this one makes up."""
        it = self.ties.by_pool[self.pool]
        return it.makes_up or (it.corrects if self.ties.book.is_make_up(self.pool) else [])

    def lacking(self, account: str, isrcs: Iterable[str]) -> Iterator[Lacked]:
        """What an account was due of recordings by the pools that this one makes up, with the owners of its own cut."""
        named = list(isrcs)
        orders = {it: dataclasses.replace(self.ties.due_before(it, self.pool), cut=self.order.cut) for it in self.made}
        for (pool, order), listed in zip(orders.items(), self.ask([Asked(it) for it in orders.values()]) if orders else ()):
            credited = collections.Counter[str]()
            for isrc, to, units in credits_of(self.copy, pool):
                credited[isrc] += units if to == account else 0
            due = self.explained(listed, named, account, played_in(self.copy, order.returns))
            for isrc, lines in itertools.groupby(due, key=lambda it: it.isrc):
                yield Lacked(pool, order.amount, sum_of_points(listed), isrc, list(lines), credited[isrc])

    def made_up(self, account: str) -> dict[str, int]:
        """What other make-ups of the same right had credited to an account before, by recording: those of higher numbers."""
        book, found = self.ties.book, collections.Counter[str]()
        for pool, order in book.orders.items():
            if pool > self.pool and order.kind == self.order.kind and book.is_make_up(pool):
                for isrc, to, units in credits_of(self.copy, pool):
                    found[isrc] += units if to == account else 0
        return found

    def place(self, it: Row) -> tuple[str, int, int]:
        """Where the version of a row stands: its sender, its file, its place there."""
        question = "SELECT number, place FROM versions WHERE sender = ? AND work = ? AND revision = ?"
        number, place = self.copy.row(question, it.sender, it.work, it.revision)
        return it.sender, number, place

    def lines(self, said: Sequence[Row], part: Part, played: Plays) -> Iterator[tuple[Explained, str]]:
        """Every credit of a recording with its account."""
        owned, names = self.owner(said[0])
        own = tuple(played.get(said[0].isrc, ()))
        for it, name, share in zip(said, [*names, ""], parts([(it.weight, it.part) for it in said])):
            yield Explained(it.isrc, owned, own, part, name, share, it.part), it.account

    def owner(self, it: Row) -> tuple[Owned, list[str]]:
        """The work that a recording's part goes to, and the names of its parties."""
        if not it.sender:
            return Owned(why=why_nobody(it.isrc, self.owners.at(it.isrc, self.pool))), []
        place = self.place(it)
        transaction = self.works.transaction(*place)
        owned = Owned(transaction.title, it.work, it.sender, self.names.get(it.sender, ""), as_sent(place[1]))
        return owned, [one.name for one in transaction.parties(it.sender)]


def why_nobody(isrc: str, there: Sequence[Claim]) -> str:
    """Why a recording's part goes to nobody."""
    if isrc == NO_RECORDING:
        return "the pool has no points"
    if not there:
        return "no work of the cut names it"
    return f"{counted(len(there), 'work')} of the cut name it: {', '.join(f'{it.work} of {it.sender}' for it in there)}"


def sum_of_points(listed: Iterable[Row]) -> int:
    """The points of all recordings of an order."""
    return sum({it.isrc: it.points for it in listed}.values())


def played_in(copy: Copy, returns: Iterable[Return]) -> Plays:
    """The plays of each recording in some returns, by return and length; those of the office itself are no plays."""
    found: Plays = {}
    for reporter, number in returns:
        if is_own(reporter):
            continue
        plays: collections.Counter[tuple[str, int]] = collections.Counter()
        for isrc, count, seconds in rows(body_of(copy, (reporter, number))):
            plays[isrc, seconds] += count
        for (isrc, seconds), count in plays.items():
            found.setdefault(isrc, []).append(Played(reporter, number, count, seconds))
    return found
