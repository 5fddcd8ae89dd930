"""An office as a value: all that is sent to it, in the order in which it is sent."""

import dataclasses
import functools
import json
from collections.abc import Iterator
from typing import NamedTuple

from cwr import Work, file

PLAIN = -1
YEARS, PER_YEAR = 1_000_000, 10_000
# A reporter and a number; and a row of plays: recording, plays, seconds.
Key = tuple[str, int]
Row = tuple[str, int, int]


class File(NamedTuple):
    """A file of works: its number as the tables keep it, the path behind its sender, and what it registers and revises."""

    sender: str
    number: int
    path: str
    works: list[Work]


class End(NamedTuple):
    """A statement that a segment (a year, or the plain numbers) ends, and which year follows."""

    sender: str
    segment: int
    last: int
    following: int


class Return(NamedTuple):
    """A return of plays."""

    reporter: str
    number: int
    rows: list[Row]


class Pool(NamedTuple):
    """An order that closes a pool."""

    pool: int
    right: str
    amount: int
    cut: dict[str, int]
    returns: list[Key]


Step = File | End | Return | Pool


@dataclasses.dataclass(eq=False)
class Office:
    """What is sent, and the senders' names. What is applied and what is held follows from the files and ends."""

    names: dict[str, str]
    steps: list[Step]
    territory: int = 40

    @functools.cached_property
    def files(self) -> list[File]:
        """All files, in the order of their senders and numbers."""
        return sorted((it for it in self.steps if isinstance(it, File)), key=lambda it: it[:2])

    @functools.cached_property
    def returns(self) -> dict[Key, list[Row]]:
        return {(it.reporter, it.number): it.rows for it in self.steps if isinstance(it, Return)}

    @functools.cached_property
    def pools(self) -> dict[int, Pool]:
        return {it.pool: it for it in self.steps if isinstance(it, Pool)}

    @functools.cached_property
    def applied(self) -> set[tuple[str, int]]:
        """The files that are applied: those of each sender up to its first gap, through the years to which the stated ends lead."""
        came = {(it.sender, it.number) for it in self.files}
        ends = {(it.sender, it.segment): (it.last, it.following) for it in self.steps if isinstance(it, End)}
        return {(sender, number) for sender in {it[0] for it in came} for number in way(sender, came, ends)}

    @property
    def held(self) -> set[tuple[str, int]]:
        return {(it.sender, it.number) for it in self.files} - self.applied

    def fronts(self) -> dict[str, int]:
        """The last applied file of each sender that has one."""
        return {sender: number for sender, number in sorted(self.applied)}

    def replaced(self, pool: Pool) -> "Office":
        """The office in which a pool was closed by another order."""
        return Office(self.names, [pool if isinstance(it, Pool) and it.pool == pool.pool else it for it in self.steps], self.territory)

    def with_steps(self, *steps: Step) -> "Office":
        """The office after further steps."""
        return Office(self.names, [*self.steps, *steps], self.territory)

    def request(self, it: Step) -> tuple[str, bytes]:
        """How a step is sent: the path behind /v1, and the body."""
        if isinstance(it, File):
            return f"/senders/{it.sender}/{it.path}", file(it.sender, self.names[it.sender], it.works)
        if isinstance(it, End):
            segment = "plain" if it.segment == PLAIN else f"{it.segment:02d}"
            return f"/senders/{it.sender}/segments/{segment}", json.dumps({"last": it.last, "next": it.following}).encode()
        if isinstance(it, Return):
            return f"/returns/{it.reporter}/{it.number}", return_body(it.rows)
        return f"/pools/{it.pool}", order_body(it)

    def requests(self) -> list[tuple[str, bytes]]:
        """All that is sent, in order."""
        return [self.request(it) for it in self.steps]


def way(sender: str, came: set[tuple[str, int]], ends: dict[tuple[str, int], tuple[int, int]]) -> Iterator[int]:
    """The numbers of a sender that are applied, in their order."""
    segment, number = PLAIN, 1
    while True:
        if ends.get((sender, segment), (None, 0))[0] == number - 1:
            segment, number = ends[sender, segment][1], 1
        elif (sender, rank(segment, number)) in came:
            yield rank(segment, number)
            number += 1
        else:
            return


def rank(segment: int, number: int) -> int:
    """A number as the tables keep it."""
    return number if segment == PLAIN else YEARS + PER_YEAR * segment + number


def sent(number: int) -> int | str:
    """A number as it stands in an order."""
    return number if number < YEARS else f"{(number - YEARS) // PER_YEAR:02d}-{number % PER_YEAR:04d}"


def return_body(rows: list[Row]) -> bytes:
    """A return's bytes."""
    return b"isrc,plays,seconds\n" + b"".join(b"%s,%d,%d\n" % (isrc.encode(), plays, seconds) for isrc, plays, seconds in rows)


def order_body(it: Pool) -> bytes:
    """An order's bytes."""
    kind = {"kind": "MR"} if it.right == "MR" else {}
    cut = [[sender, sent(number)] for sender, number in it.cut.items()]
    return json.dumps({**kind, "amount": it.amount, "cut": cut, "returns": it.returns}).encode()
