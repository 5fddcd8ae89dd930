"""Unclaimed money: why nobody was paid, whose it may be, and what can be done about it."""

import dataclasses
import enum
import functools
import json
from collections.abc import Iterable, Iterator, Mapping, Sequence
from typing import Any, NamedTuple

from society_office.book.copy import Copy
from society_office.credits.lines import NO_RECORDING
from society_office.formats.fields import WHOLE
from society_office.formats.numbering import as_sent
from society_office.works.owners import CLAIMS, Claim, Owners
from society_office.works.records import UNCLAIMED, Transaction, Works, shown_number, transactions

NAMELESS = " (with neither an IPI name number nor an IP #)"
TO_NOBODY = f"account = '{UNCLAIMED}' AND units > 0"


class Cause(enum.Enum):
    """Why units of a recording went to nobody."""

    SHARE = "a share that nobody collects"
    CONFLICT = "several works claim it"
    LATE = "not in the cut yet"
    REJECTED = "rejected"
    WAITING = "in a file that waits"
    NOBODY = "nobody has the recording"
    NO_PLAYS = "no plays"


# What may have one owner later: no work of the cut named it, or several did, so that all of it went to nobody.
MAY_BE_OWNED = (Cause.CONFLICT, Cause.LATE)
CURES = {
    Cause.SHARE: "The publisher sends a REV whose SPT and SWT rows of the world (2136) or the office's territory come to 10000 in it.",
    Cause.CONFLICT: "The publishers settle it; the one that gives way sends a REV without the REC. Then `society-office dues` has it.",
    Cause.LATE: "Nothing is wrong with the work now: `society-office dues` has it as due to its holders.",
    Cause.REJECTED: "The publisher cures the fault and sends the work again under its next number.",
    Cause.WAITING: "The publisher sends what its file waits for.",
    Cause.NOBODY: "Ask the publisher of the recording to register the work, or the station whether the number is right.",
    Cause.NO_PLAYS: "The order named no return with a play. A further pool has to name returns.",
}
# What stands with every list of money of conflicts, and of works that came later.
BOOKING = (
    "A closed pool stays as it is: its units stay on UNCLAIMED. What a make-up credits for them stands in the books once more, "
    "so write off UNCLAIMED outside of the office what `society-office dues` says. Elsewhere societies hold the money of a conflict on an "
    "account of the work until the claimants agree, and pay it then as an adjustment with the next distribution. In the European Union "
    "what could not be distributed three years after the end of the financial year in which it was collected is non-distributable, and the "
    "members' meeting decides on its use (Directive 2014/26/EU, article 13)."
)


@dataclasses.dataclass(frozen=True)
class Claimant:
    """A work that names a recording."""

    publisher: str
    work: str
    title: str
    file: str


# By recording why works that name it are none of the office, and these.
Named = dict[str, tuple[str, tuple[Claimant, ...]]]


@dataclasses.dataclass(frozen=True)
class Item:
    """Units of a pool that went to nobody for one recording."""

    pool: int
    right: str
    isrc: str
    units: int
    cause: Cause
    claimants: tuple[Claimant, ...]
    why: str
    since: str = ""
    part: int = 0


class Found(NamedTuple):
    """Units of a recording that went to nobody, and their cause."""

    pool: int
    isrc: str
    units: int
    cause: Cause


class Unclaimed:
    """The unclaimed money of a copy."""

    def __init__(self, copy: Copy) -> None:
        """Reads cuts and rights; bodies are read when a cause asks for them."""
        copy.need_derived()
        self.copy, self.works = copy, Works(copy)
        self.owners = Owners(copy, f"SELECT isrc FROM credits NOT INDEXED WHERE {TO_NOBODY}")
        self.cuts, self.rights = copy.cuts(), copy.rights()

    def each(self, pool: int | None = None) -> Iterator[Found]:
        """What went to nobody by pool and recording, in the order of the pools and their lines; of one pool where one is given."""
        which, values = (f"NOT INDEXED WHERE {TO_NOBODY}", ()) if pool is None else (f"WHERE {TO_NOBODY} AND pool = ?", (pool,))
        # A work may have several lines to nobody: one for each party that no number names, and what all parties leave.
        found = f"SELECT pool, isrc, sum(units) AS units, min(line) AS line FROM credits {which} GROUP BY pool, isrc"
        question = f"SELECT pool, isrc, units, {CLAIMS}, isrc IN (SELECT isrc FROM temp.named) FROM ({found}) c ORDER BY pool, line"
        for number, isrc, units, claims, is_named in self.copy.rows(question, *values):
            yield Found(number, isrc, units, self.cause(isrc, claims, is_named))

    def cause(self, isrc: str, claims: int, is_named: bool) -> Cause:
        """Why nobody was paid for a recording that so many works of the cut name, or which a version ever names."""
        if isrc == NO_RECORDING:
            return Cause.NO_PLAYS
        if claims:
            return Cause.SHARE if claims == 1 else Cause.CONFLICT
        if is_named:
            return Cause.LATE
        return Cause.REJECTED if isrc in self.rejected else Cause.WAITING if isrc in self.waiting else Cause.NOBODY

    def items(self, pool: int | None = None) -> list[Item]:
        """All of it with titles and claimants; of one pool where one is given."""
        return self.told(list(self.each(pool)))

    def told(self, listed: Sequence[Found]) -> list[Item]:
        """Some of it with titles and claimants; each file is read once."""
        claims = [self.claims(it) for it in listed]
        self.works.load((it.sender, it.number, it.place) for found in claims for it in found)
        lines = self.lines(it for it in listed if it.cause is Cause.SHARE)
        return [self.item(it, named, lines.get((it.pool, it.isrc), [])) for it, named in zip(listed, claims)]

    def claims(self, it: Found) -> Sequence[Claim]:
        """What names a recording: at the cut, or ever where nothing does there."""
        return self.owners.at(it.isrc, it.pool) if it.cause in (Cause.SHARE, Cause.CONFLICT) else self.owners.ever(it.isrc)

    def lines(self, listed: Iterable[Found]) -> dict[tuple[int, str], list[tuple[str, int]]]:
        """All credits of some recordings in their pools, in the order of their parties."""
        found: dict[tuple[int, str], list[tuple[str, int]]] = {(it.pool, it.isrc): [] for it in listed}
        for pool in {it[0] for it in found}:
            for isrc, account, units in self.copy.rows("SELECT isrc, account, units FROM credits WHERE pool = ? ORDER BY line", pool):
                if (own := found.get((pool, isrc))) is not None:
                    own.append((account, units))
        return found

    def claimant(self, claim: Claim) -> Claimant:
        """A work that names a recording, with its title in the version that does."""
        title = self.works.title(claim.sender, claim.number, claim.place)
        return Claimant(claim.sender, claim.work, title, as_sent(claim.number))

    def item(self, it: Found, claims: Sequence[Claim], lines: Sequence[tuple[str, int]]) -> Item:
        """It with titles, claimants, and why."""
        named = tuple(dict.fromkeys(map(self.claimant, claims)))
        why, since, part = "no file names it", "", 0
        if it.cause is Cause.NO_PLAYS:
            why = "the pool has no points"
        elif it.cause is Cause.CONFLICT:
            why, since = f"{len(claims)} works of the cut name it", self.settled(it.isrc)
        elif it.cause is Cause.SHARE:
            whole = sum(units for _, units in lines)
            why, since = self.uncollected(it, claims[0], lines), "" if claims[0].is_last else "revised since"
            part = (it.units * WHOLE + whole // 2) // whole
        elif it.cause is Cause.LATE:
            why, since = late_text(claims, self.cuts[it.pool]), self.settled(it.isrc)
        elif it.cause in (Cause.REJECTED, Cause.WAITING):
            why, named = (self.rejected if it.cause is Cause.REJECTED else self.waiting)[it.isrc]
        return Item(it.pool, self.rights[it.pool], it.isrc, it.units, it.cause, named, why, since, part)

    def uncollected(self, it: Found, claim: Claim, lines: Sequence[tuple[str, int]]) -> str:
        """What nobody collects of a recording's units, and who collects how many: `ANNA WRITER 500`."""
        parties = self.works.transaction(claim.sender, claim.number, claim.place).parties(claim.sender)
        told = [f"{one.name or to} {units:,}{NAMELESS if to == UNCLAIMED else ''}" for one, (to, units) in zip(parties, lines)]
        return f"nobody collects {it.units:,} of its {sum(units for _, units in lines):,} units: {', '.join(told) or 'no party'}"

    def settled(self, isrc: str) -> str:
        """Whose a recording is now, where only one work still names it; the empty text where there are more, or none."""
        now = [it for it in self.owners.ever(isrc) if it.is_last]
        return f"now only {now[0].sender} {now[0].work} names it" if len(now) == 1 else ""

    @functools.cached_property
    def rejected(self) -> Named:
        """What rejected works name."""
        rows = self.copy.listed("SELECT sender, number, place, fault FROM verdicts WHERE fault > 0 ORDER BY sender, number, place")
        self.works.load(it[:3] for it in rows)
        return named_by((it[0], it[1], self.works.transaction(*it[:3]), f"rejected with fault {it[3]}") for it in rows)

    @functools.cached_property
    def waiting(self) -> Named:
        """What works of files name that wait."""
        files = [(line.sender, number) for line in self.copy.lines() for number in line.waiting + line.skipped]
        return named_by((it[0], it[1], work, "the file is not applied") for it in files for work in transactions(self.copy.body(*it)))


def named_by(works: Iterable[tuple[str, int, Transaction, str]]) -> Named:
    """The recordings of works that are none of the office, each with its sender, its file and why it is none."""
    found: Named = {}
    for sender, number, it, why in works:
        claimant = Claimant(sender, shown_number(it.work), it.title, as_sent(number))
        for isrc in it.isrcs:
            had = found.get(isrc, (why, ()))
            found[isrc] = (had[0], (*had[1], claimant))
    return found


def late_text(ever: Sequence[Claim], cut: Mapping[str, int]) -> str:
    """Why versions that name a recording do not count at a cut."""
    for it in ever:
        if it.sender in cut and it.until <= cut[it.sender]:
            return f"a version of {it.sender} {it.work} named it, and the one at the cut does not"
    inside = [it for it in ever if it.sender in cut]
    if inside:
        first = min(inside, key=lambda it: it.number)
        return f"it came with file {as_sent(first.number)} of {first.sender}, which the cut counts up to {as_sent(cut[first.sender])}"
    return f"the cut does not count the files of {ever[0].sender}"


def by_cause(items: Iterable[Item]) -> dict[Cause, list[Item]]:
    """The items by their causes, in the order of the causes."""
    found: dict[Cause, list[Item]] = {it: [] for it in Cause}
    for it in items:
        found[it.cause].append(it)
    return {cause: listed for cause, listed in found.items() if listed}


def as_data(items: Iterable[Item]) -> list[dict[str, Any]]:
    """The items as they stand in JSON, an object for each."""
    return [{**dataclasses.asdict(it), "cause": it.cause.value} for it in items]


def as_json(items: Iterable[Item]) -> str:
    """The items as JSON."""
    return json.dumps(as_data(items), ensure_ascii=False, indent=1)
