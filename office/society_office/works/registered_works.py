"""What a copy has of works: all that was sent of each, with its holders, what became of it, and what pools credited for it."""

import dataclasses
from collections.abc import Iterable, Iterator, Mapping, Sequence
from typing import NamedTuple

from society_office.book.copy import Copy
from society_office.formats.numbering import Line
from society_office.works.owners import OWNER, Owners
from society_office.works.records import UNCLAIMED, Transaction, Works, made_on, sender_names, shown_number, transactions
from society_office.works.shares import holders_of
from society_office.works.work_search import Facts, number_of, words_of

ACCEPTED, REJECTED, WAITS, NEVER = "accepted", "rejected", "waits", "never applied"


class Place(NamedTuple):
    """Where a registration or a revision stands: in a file of the work's sender, from 0."""

    number: int
    place: int


class Sent(NamedTuple):
    """A work: its sender, its number as it is registered, the places of all that was sent of it, its title now, and what it is found by."""

    sender: str
    work: str
    places: list[Place]
    title: str
    facts: Facts


class Holding(NamedTuple):
    """A holder of a work, and what it collects at the office in each right, in hundredths of a percent."""

    account: str
    name: str
    side: str
    pr: int
    mr: int


@dataclasses.dataclass(frozen=True)
class Version:
    """A registration or a revision: its file, the day on which that was made, its kind, what became of it, and what it says."""

    number: int
    day: str
    kind: str
    state: str
    fault: int
    revision: int
    title: str
    iswc: str
    isrcs: list[str]
    holders: list[Holding]


class Credited(NamedTuple):
    """What a pool credited for a work: all of it, and what of that went to nobody."""

    pool: int
    right: str
    units: int
    unclaimed: int


@dataclasses.dataclass(frozen=True)
class Work:
    """A work with all that was sent of it, in the order of the files, and what each pool credited for it."""

    sender: str
    sender_name: str
    number: str
    versions: list[Version]
    credited: list[Credited]

    @property
    def now(self) -> Version:
        """The last version that was accepted; where none was, the last one that was sent."""
        accepted = [it for it in self.versions if it.state == ACCEPTED]
        return (accepted or self.versions)[-1]


class Verdict(NamedTuple):
    """What became of a registration or a revision: its state, the fault that it was rejected with (0: none), and its revision."""

    state: str
    fault: int
    revision: int


class Verdicts:
    """What became of all that a sender has sent."""

    def __init__(self, copy: Copy, line: Line) -> None:
        """Reads the verdicts of the sender's files that are applied."""
        self.skipped = set(line.skipped)
        question = "SELECT number, place, fault, revision FROM verdicts WHERE sender = ?"
        self.listed = {(number, place): (fault, revision) for number, place, fault, revision in copy.rows(question, line.sender)}

    def of(self, number: int, place: int) -> Verdict:
        """That of one place."""
        if (found := self.listed.get((number, place))) is None:
            return Verdict(NEVER if number in self.skipped else WAITS, 0, 0)
        return Verdict(REJECTED if found[0] else ACCEPTED, *found)


@dataclasses.dataclass
class Gathered:
    """What is gathered of a work while the files of its sender are read."""

    places: list[Place] = dataclasses.field(default_factory=list)
    words: set[str] = dataclasses.field(default_factory=set)
    numbers: set[str] = dataclasses.field(default_factory=set)
    title: str = ""
    is_registered: bool = False

    def add(self, sender: str, place: Place, sent: Transaction, state: str) -> None:
        """Adds what was sent at a place."""
        title, parties = sent.title, list(sent.parties(sender))
        for text in (title, *(it.name for it in parties)):
            self.words.update(words_of(text))
        accounts = (it.account for it in parties if it.account != UNCLAIMED)
        self.numbers.update(map(number_of, (sender, shown_number(sent.work), sent.iswc, *sent.isrcs, *accounts)))
        self.places.append(place)
        if state == ACCEPTED or not self.is_registered:
            self.title, self.is_registered = title, state == ACCEPTED

    @property
    def facts(self) -> Facts:
        """What it is found by."""
        return Facts(self.words, self.numbers - {""})


def sent_works(copy: Copy) -> Iterator[Sent]:
    """All works of which anything was sent, sender by sender; each file is read once."""
    copy.need_derived()
    for line in copy.lines():
        gathered, verdicts = dict[str, Gathered](), Verdicts(copy, line)
        for number in line.numbers:
            for k, sent in enumerate(transactions(copy.body(line.sender, number))):
                of_work = gathered.setdefault(sent.work, Gathered())
                of_work.add(line.sender, Place(number, k), sent, verdicts.of(number, k).state)
        for work, it in gathered.items():
            yield Sent(line.sender, work, it.places, it.title, it.facts)


def told(copy: Copy, wanted: Sequence[tuple[str, str, Sequence[Place]]]) -> list[Work]:
    """Works by their senders, numbers and places, in this order, with all that the copy has of them."""
    names, lines = sender_names(copy), {it.sender: it for it in copy.lines()}
    verdicts = {sender: Verdicts(copy, lines[sender]) for sender in {it[0] for it in wanted}}
    works, credited = Works(copy), credits_of(copy, [it[:2] for it in wanted])
    works.load((sender, *place) for sender, _, places in wanted for place in places)
    days = days_of(copy, ((sender, place.number) for sender, _, places in wanted for place in places))
    found = []
    for sender, work, places in wanted:
        versions = []
        for it in places:
            verdict, sent = verdicts[sender].of(*it), works.transaction(sender, *it)
            versions.append(version(sender, sent, it.number, days[sender, it.number], verdict, copy.territory))
        found.append(Work(sender, names.get(sender, ""), work, versions, credited.get((sender, work), [])))
    return found


def version(sender: str, sent: Transaction, number: int, day: str, verdict: Verdict, territory: int) -> Version:
    """What was sent at a place, with what became of it."""
    parties = zip(sent.parties(sender), holders_of(sent.lines, territory), strict=True)
    holders = [Holding(it.account, it.name, it.side, *shares.collects[:2]) for it, shares in parties]
    return Version(number, day, sent.kind, *verdict, sent.title, sent.iswc, sent.isrcs, holders)


def days_of(copy: Copy, files: Iterable[tuple[str, int]]) -> dict[tuple[str, int], str]:
    """The day on which each file was made."""
    question = "SELECT CAST(substr(body, 1, 100) AS BLOB) FROM transmissions WHERE sender = ? AND number = ?"
    return {it: made_on(bytes(copy.row(question, *it)[0]).partition(b"\n")[0]) for it in set(files)}


def credits_of(copy: Copy, works: Sequence[tuple[str, str]]) -> Mapping[tuple[str, str], list[Credited]]:
    """What each pool credited for works, by the recordings that they owned at its cut."""
    copy.listed("DROP TABLE IF EXISTS temp.wanted")
    copy.listed("CREATE TEMP TABLE wanted (isrc TEXT PRIMARY KEY)")
    for it in works:
        copy.listed("INSERT OR IGNORE INTO temp.wanted SELECT isrc FROM recordings WHERE sender = ? AND work = ?", *it)
    owners, rights, asked = Owners(copy, "SELECT isrc FROM temp.wanted"), copy.rights(), set(works)
    question = f"""SELECT pool, owner, sum(units), sum(units * (account = '{UNCLAIMED}')) FROM
      (SELECT pool, account, units, {OWNER} AS owner FROM credits c NOT INDEXED WHERE isrc IN (SELECT isrc FROM temp.wanted))
      WHERE owner IS NOT NULL GROUP BY pool, owner ORDER BY pool, owner"""
    found: dict[tuple[str, str], dict[int, tuple[int, int]]] = {}
    for pool, owner, units, unclaimed in copy.listed(question):
        claim = owners.row(owner)
        if (claim.sender, claim.work) in asked:
            before = found.setdefault((claim.sender, claim.work), {}).get(pool, (0, 0))
            found[claim.sender, claim.work][pool] = before[0] + units, before[1] + unclaimed
    return {work: [Credited(pool, rights[pool], *sums) for pool, sums in listed.items()] for work, listed in found.items()}
