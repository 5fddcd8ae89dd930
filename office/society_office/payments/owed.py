"""What a member is owed. This module is the definition: it reads and writes nothing, and all others keep to it.

    owed = credited - deducted + adjusted - ordered + sent back

Credited is what pools credited to the accounts that were the member's on each pool's day, deducted what the rules took of that. An order to
pay takes off what it pays, until the bank sends that back. Amounts are whole units.
"""

import dataclasses
import datetime
import enum
from collections.abc import Callable, Iterable, Iterator, Mapping, Sequence, Set
from typing import NamedTuple

from society_office.works.records import UNCLAIMED

# A percentage is told in hundredths of a percent.
WHOLE = 10_000


class Kind(enum.StrEnum):
    """What a line of the ledger tells."""

    BEGUN = "begun"
    CREDITED = "credited"
    DEDUCTED = "deducted"
    ADJUSTED = "adjusted"
    BATCH = "batch"
    ORDERED = "ordered"
    CONFIRMED = "confirmed"
    RETURNED = "returned"
    ERASED = "erased"


# How a line changes what its member is owed.
SIGNS = {Kind.CREDITED: 1, Kind.DEDUCTED: -1, Kind.ADJUSTED: 1, Kind.ORDERED: -1, Kind.RETURNED: 1}


class Entry(NamedTuple):
    """What a line of the ledger tells: of which day and member, how many units, of which pool or batch, and in which words."""

    kind: Kind
    day: datetime.date
    member: str
    units: int
    place: int
    words: str

    @property
    def change(self) -> int:
        """What it adds to what the member is owed."""
        return SIGNS.get(self.kind, 0) * self.units


class Credit(NamedTuple):
    """What a pool credited to an account in all."""

    pool: int
    right: str
    account: str
    units: int


@dataclasses.dataclass(frozen=True)
class Rule:
    """A deduction: a part of the gross or of what the rules before it have left, or a fixed amount once a pool and member."""

    name: str
    hundredths: int
    fixed: int
    is_of_gross: bool
    applies: Callable[[int, str, str], bool]

    def units(self, gross: int, rest: int, taken: int) -> int:
        """What it takes, as far as there is something left; `taken` is what it has taken of this pool and member before."""
        if self.fixed:
            return min(rest, max(0, self.fixed - taken))
        base = gross if self.is_of_gross else rest
        # (to the nearer unit, as a split over the part and what is left would have it)
        return min(rest, (2 * base * self.hundredths + WHOLE) // (2 * WHOLE))


def owed(entries: Iterable[Entry], member: str) -> int:
    """What a member is owed by the lines of a ledger; below 0 where it owes the office."""
    return sum(it.change for it in entries if it.member == member)


def deductions(gross: int, rules: Sequence[Rule], taken: Mapping[str, int]) -> list[tuple[str, int]]:
    """What the rules take of a gross amount, one after another, each with its name; what takes nothing is left out.

    Law: gross = net + the sum of these, to the unit, and net is never below 0.
    """
    found, rest = list[tuple[str, int]](), gross
    for rule in rules:
        if units := rule.units(gross, rest, taken.get(rule.name, 0)):
            found.append((rule.name, units))
            rest -= units
    return found


@dataclasses.dataclass(frozen=True)
class Booked:
    """What a ledger has of pools: the day of each, the accounts that it has credited there, and what rules have taken of members there."""

    days: Mapping[int, datetime.date]
    credited: Set[tuple[int, str]]
    taken: Mapping[tuple[int, str], Mapping[str, int]]


def bookings(
    credits: Sequence[Credit],
    day_of: Callable[[int], datetime.date],
    member_of: Callable[[str, datetime.date], str | None],
    rules: Sequence[Rule],
    booked: Booked,
) -> Iterator[Entry]:
    """The lines by which credits become what members are owed, each with its deductions; nothing for an account without a member.

    Law: a pool and account are credited once, to the member of the account on the pool's day, which is that of its first booking. Whoever
    owns the account later, and whatever rules there are then, what was booked stays.
    """
    gross: dict[tuple[int, str], list[Credit]] = {}
    days = {it: booked.days[it] if it in booked.days else day_of(it) for it in {one.pool for one in credits}}
    for it in credits:
        member = UNCLAIMED if it.account == UNCLAIMED else member_of(it.account, days[it.pool])
        if it.units and member and (it.pool, it.account) not in booked.credited:
            gross.setdefault((it.pool, member), []).append(it)
    for pool, member in sorted(gross, key=lambda it: (days[it[0]], it)):
        listed = gross[pool, member]
        for it in listed:
            yield Entry(Kind.CREDITED, days[pool], member, it.units, pool, f"{it.right} {it.account}")
        fitting = [it for it in rules if member != UNCLAIMED and it.applies(pool, listed[0].right, member)]
        for name, units in deductions(sum(it.units for it in listed), fitting, booked.taken.get((pool, member), {})):
            yield Entry(Kind.DEDUCTED, days[pool], member, units, pool, name)


def payable(units: int, minimum: int, step: int) -> int:
    """What is paid to who is owed so much: whole steps of the smallest coin, nothing below the minimum, and nothing to who owes the office.

    Law: 0 <= payable <= what is owed, so that an order never makes a member owe the office.
    """
    return units - units % step if units >= max(minimum, step) else 0
