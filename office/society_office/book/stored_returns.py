"""The returns that an office has: which pool has paid each, what it comes to, and what is odd about it."""

import dataclasses
import hashlib
import statistics
from collections.abc import Iterable, Iterator, Mapping, Sequence

from society_office.book.copy import Copy
from society_office.book.own_returns import is_own
from society_office.formats.plays import rows
from society_office.formats.return_names import Entry, Return, are_listed

# A return is far from the others of its station where it has so many times their points, or they have so many times its own.
FAR = 10
# So many others have to be there before a return is told to be small.
FEW = 2


@dataclasses.dataclass(frozen=True)
class Stored:
    """A return: its rows and points, what it has in common with one of the same plays, and the pool that has paid it (0: none)."""

    reporter: str
    number: int
    rows: int
    points: int
    content: bytes
    pool: int

    @property
    def key(self) -> Return:
        """Its reporter and number."""
        return self.reporter, self.number

    @property
    def name(self) -> str:
        """As it is written."""
        return f"{self.reporter}/{self.number}"

    @property
    def is_play(self) -> bool:
        """Whether a station has reported it, and not the office itself."""
        return not is_own(self.reporter)


def content_of(listed: Sequence[tuple[str, int, int]]) -> bytes:
    """What two returns have in common whose rows report the same plays, however they are written and in whatever order."""
    return hashlib.sha256(repr(sorted(listed)).encode()).digest()


def stored_returns(copy: Copy) -> dict[Return, Stored]:
    """All returns, in the order of their reporters and numbers."""
    paid = {(reporter, number): pool for reporter, number, pool in copy.rows("SELECT reporter, number, pool FROM pool_returns")}
    found = {}
    for reporter, number, raw in copy.rows("SELECT reporter, number, body FROM returns ORDER BY reporter, number"):
        listed = list(rows(bytes(raw)))
        points = sum(plays * seconds for _, plays, seconds in listed)
        key = (reporter, number)
        found[key] = Stored(reporter, number, len(listed), points, content_of(listed), paid.get(key, 0))
    return found


@dataclasses.dataclass(frozen=True)
class Same:
    """A return with the same plays as another one that goes before it, and what that one is."""

    it: Stored
    other: Stored
    right: str

    @property
    def why(self) -> str:
        """In words; `right` is that of the pool that has paid the other one, empty where no pool has."""
        how = f"paid by pool {self.other.pool} in the {self.right}" if self.right else "named here"
        return f"the same plays as {self.other.name}, {how}"


def same_plays(named: Iterable[Stored], stored: Mapping[Return, Stored], rights: Mapping[int, str], kind: str) -> Iterator[Same]:
    """The named returns that have the plays of one named before, or of one that a pool has paid; of several one paid in the same right."""
    paid: dict[bytes, list[Stored]] = {}
    for it in stored.values():
        if it.pool and it.is_play:
            paid.setdefault(it.content, []).append(it)
    seen: dict[bytes, Stored] = {}
    for it in named:
        others = sorted((one for one in paid.get(it.content, []) if one is not it), key=lambda one: rights[one.pool] != kind)
        if others and rights[others[0].pool] == kind:
            yield Same(it, others[0], kind)
        elif it.content in seen:
            yield Same(it, seen[it.content], "")
        else:
            seen[it.content] = it
            if others:
                yield Same(it, others[0], rights[others[0].pool])


def far_ones(named: Iterable[Stored], stored: Mapping[Return, Stored], void: Sequence[Entry]) -> Iterator[str]:
    """What is said of returns that are far from the others of their station, void ones aside."""
    by_station: dict[str, list[Stored]] = {}
    for it in stored.values():
        if not are_listed(void, it.key):
            by_station.setdefault(it.reporter, []).append(it)
    for it in named:
        others = [one.points for one in by_station.get(it.reporter, []) if one is not it]
        middle = statistics.median(others) if others else 0
        if middle and it.points >= FAR * middle:
            yield f"{it.name} has {it.points:,} points, {it.points / middle:,.0f} times those of the station's others: look at it"
        elif len(others) >= FEW and it.points * FAR <= middle:
            yield f"{it.name} has {it.points:,} points, and the station's others {middle:,.0f} in the middle: look at it"
