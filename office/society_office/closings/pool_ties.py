"""How pools are tied to each other: which corrects or makes up which, which returns that were paid are void, and what was settled since.

An amendment's pool corrects the pool that it amends. A make-up over DUE makes up the pools of its right that were corrected before it, or
have a void return, and have a recording that it pays; one over LATE also those that have paid such a recording to nobody alone. In older
books a pool over CORRECTED7 corrects pool 7. Settled is what pools have paid to nobody alone of a recording, as far as make-ups of the same
right have paid the recording since, the pools of the least numbers first.
"""

import collections
import dataclasses
from collections.abc import Iterable, Iterator, Sequence

from society_office.book.copy import Copy
from society_office.book.own_returns import corrected_by, pays_late
from society_office.closings.amendments import order_of, remarks_on, without_void
from society_office.closings.dues import OPEN
from society_office.closings.orders import Order
from society_office.closings.pool_kinds import Book
from society_office.decided.decisions import Amendment, Decisions
from society_office.formats.return_names import Entry, Return, are_listed, names_text

# What make-ups have credited of each recording, and which other pools have one of these.
MAKE_UPS = "CREATE TEMP TABLE made_up AS SELECT pool, isrc, sum(units) AS units FROM credits WHERE pool IN ({}) GROUP BY pool, isrc"
PLAYED = "SELECT DISTINCT m.pool, c.pool, c.isrc FROM credits c NOT INDEXED JOIN temp.made_up m ON m.isrc = c.isrc AND m.pool <> c.pool"


@dataclasses.dataclass
class Tied:
    """How a pool is tied to others, by their numbers, and its returns that are void."""

    corrects: list[int] = dataclasses.field(default_factory=list)
    corrected_by: list[int] = dataclasses.field(default_factory=list)
    makes_up: list[int] = dataclasses.field(default_factory=list)
    made_up_by: list[int] = dataclasses.field(default_factory=list)
    void: list[Return] = dataclasses.field(default_factory=list)


class Ties:
    """The ties of all pools of a copy."""

    def __init__(self, copy: Copy, void: Sequence[Entry] = (), amendments: Sequence[Amendment] = ()) -> None:
        """By the book and by what the office has decided."""
        self.copy, self.book, self.void, self.amendments = copy, Book(copy), void, {it.number: it for it in amendments}
        self.by_pool = {pool: Tied() for pool in self.book.orders}
        for pool, order in self.book.orders.items():
            self.by_pool[pool].void = [it for it in order.returns if are_listed(void, it)]
        for pool, other in self.corrections():
            if self.book.is_play(other):
                self.by_pool[pool].corrects.append(other)
                self.by_pool[other].corrected_by.append(pool)
        make_ups = [it for it in self.book.orders if self.book.is_make_up(it)]
        self.copy.listed("DROP TABLE IF EXISTS temp.made_up")
        self.copy.listed(MAKE_UPS.format(", ".join(map(str, make_ups))))
        self.open = self.paid_to_nobody()
        for pool, other, isrc in self.copy.listed(PLAYED) if make_ups else ():
            self.tie_make_up(pool, other, isrc)

    def corrections(self) -> Iterator[tuple[int, int]]:
        """Each pool that corrects another one, with that one, in the order in which they were closed."""
        for pool, order in sorted(self.book.orders.items(), reverse=True):
            if pool in self.book.amending:
                yield pool, self.book.amending[pool]
            yield from ((pool, other) for other in {corrected_by(it) for it, _ in order.returns} if other is not None)

    def paid_to_nobody(self) -> dict[str, dict[int, int]]:
        """Of the recordings of make-ups, what each play pool has paid for them to nobody alone."""
        found: dict[str, dict[int, int]] = collections.defaultdict(dict)
        if self.copy.row("SELECT 1 FROM temp.made_up"):
            for pool, isrc, units in self.copy.rows(f"{OPEN} AND c.isrc IN (SELECT isrc FROM temp.made_up) ORDER BY c.pool"):
                if self.book.is_play(pool):
                    found[isrc][pool] = units
        return found

    def tie_make_up(self, pool: int, other: int, isrc: str) -> None:
        """Ties a make-up to another pool that has the recording, where it makes that up."""
        made, order, tied = self.book.orders[pool], self.book.orders[other], self.by_pool[other]
        if not self.book.is_play(other) or order.kind != made.kind or self.by_pool[pool].corrects or pool in tied.made_up_by:
            return
        is_late = any(pays_late(it) for it, _ in made.returns) and other in self.open.get(isrc, {})
        if is_late or tied.void or any(it > pool for it in tied.corrected_by):
            self.by_pool[pool].makes_up.append(other)
            tied.made_up_by.append(pool)

    def order_before(self, pool: int, number: int) -> Order:
        """A pool's order as it was closed, or as the last amendment has it that was there before the pool of a number."""
        before = [it for it in self.by_pool[pool].corrected_by if it > number and it in self.amendments]
        return order_of(self.amendments[min(before)]) if before else self.book.orders[pool]

    def due_before(self, pool: int, number: int) -> Order:
        """The order by which a pool was due when the make-up of a number was closed, without returns that are void now."""
        return without_void(self.order_before(pool, number), self.void)

    def settled(self) -> dict[tuple[int, str], int]:
        """What of the units that a pool has paid to nobody for a recording make-ups have paid since."""
        left: dict[tuple[str, str], int] = collections.Counter()
        for pool, isrc, units in self.copy.listed("SELECT pool, isrc, units FROM temp.made_up"):
            left[self.book.orders[pool].kind, isrc] += units
        found = {}
        for isrc, by_pool in self.open.items():
            for pool, units in by_pool.items():
                key = self.book.orders[pool].kind, isrc
                found[pool, isrc] = min(units, left[key])
                left[key] -= found[pool, isrc]
        return {key: units for key, units in found.items() if units}

    def notes(self, pool: int) -> list[str]:
        """What is said of a pool."""
        it = self.by_pool[pool]
        found = [f"pool {pool} corrects {pools_text([other])}{self.changes(pool, other)}" for other in it.corrects]
        if it.makes_up:
            found.append(f"pool {pool} makes up what was lacking by {pools_text(it.makes_up)}")
        found += [f"pool {pool} was corrected by pool {other}{self.changes(other, pool)}" for other in it.corrected_by]
        if it.void:
            found.append(f"{names_text(it.void)}, paid by pool {pool}, {'is' if len(it.void) == 1 else 'are'} void")
        if it.made_up_by:
            found.append(f"what was lacking by pool {pool} was made up by {pools_text(it.made_up_by)}")
        return found

    def all_notes(self) -> dict[int, list[str]]:
        """What is said of each pool of which anything is."""
        return {pool: found for pool in self.by_pool if (found := self.notes(pool))}

    def changes(self, number: int, pool: int) -> str:
        """What an amendment changed of a pool's order as it was before, behind a colon; nothing where the list does not have it."""
        if number not in self.amendments:
            return ""
        remarks = remarks_on(self.order_before(pool, number), order_of(self.amendments[number]))
        return ": " + (", ".join(remarks) or "nothing is changed")


def ties_of(copy: Copy, known: Decisions | None) -> Ties:
    """The ties of a copy by what was decided, where that is known."""
    return Ties(copy, known.void, known.amendments) if known else Ties(copy)


def pools_text(pools: Iterable[int]) -> str:
    """Pools by their numbers: `pool 1`, `pools 1, 2 and 3`."""
    listed = [str(it) for it in sorted(pools)]
    if len(listed) == 1:
        return f"pool {listed[0]}"
    return f"pools {', '.join(listed[:-1])} and {listed[-1]}"
