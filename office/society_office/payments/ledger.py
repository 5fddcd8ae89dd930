"""The ledger, ledger.txt: what was credited, deducted, adjusted, ordered to be paid, confirmed and sent back, a line for each.

A line has, with a tab between: its number, when it was written, what it tells, the day, the member, the units, what the member is owed
then, the pool or the batch, words, and its digest: the SHA-256 sum of all that stands before it in the file. So no line can be changed,
taken away from between or put there without that being seen. Only commands write it, and a mistake is a further line.
"""

import contextlib
import dataclasses
import datetime
import functools
import hashlib
import re
from collections.abc import Iterable, Mapping
from typing import NamedTuple

from society_office.basics.errors import OfficeError
from society_office.decided.journal import MOMENT
from society_office.formats.numbering import counted
from society_office.payments.members import KEY
from society_office.payments.owed import Booked, Entry, Kind
from society_office.works.records import UNCLAIMED

HEAD = "# Written by commands alone: `society-office ledger` reads it.\n"
FIELDS = 10
NUMBER, UNITS = re.compile(r"0|[1-9][0-9]{0,8}", re.ASCII), re.compile(r"0|-?[1-9][0-9]{0,17}", re.ASCII)
CREDITED = re.compile(r"(PR|MR) (.+)", re.ASCII)
BATCHED = re.compile(r"([1-9][0-9]{0,6}) ([0-9a-f]{64})", re.ASCII)
# Who a line is of that is of no member.
NOBODY = "-"


@functools.lru_cache(maxsize=64)
def told(moment: datetime.datetime) -> str:
    """A moment as a line has it; those of one command are the same."""
    return moment.strftime(MOMENT)


@functools.lru_cache(maxsize=64)
def moment_of(words: str) -> datetime.datetime:
    """A moment by its words; a ValueError where it is none."""
    return datetime.datetime.strptime(words, MOMENT).replace(tzinfo=datetime.UTC)


@functools.lru_cache(maxsize=1_024)
def day_of(words: str) -> datetime.date:
    """A day by its words; a ValueError where it is none."""
    return datetime.date.fromisoformat(words)


class Line(NamedTuple):
    """A line: its number, when it was written, what it tells, and what its member is owed then."""

    number: int
    written: datetime.datetime
    entry: Entry
    owed: int

    @property
    def text(self) -> str:
        """It up to its digest."""
        kind, day, member, units, place, words = self.entry
        return f"{self.number}\t{told(self.written)}\t{kind}\t{day}\t{member}\t{units}\t{self.owed}\t{place}\t{words}\t"


class Wrong(Exception):
    """Why a line can't stand in the ledger where it stands."""


@dataclasses.dataclass
class Batch:
    """Orders to pay that were given at once: how many and how much they are to be, the sum of the payment file, and what became of them."""

    number: int
    day: datetime.date
    units: int
    count: int
    file_sum: str
    orders: dict[str, int] = dataclasses.field(default_factory=dict)
    confirmed: dict[str, datetime.date] = dataclasses.field(default_factory=dict)
    returned: dict[str, datetime.date] = dataclasses.field(default_factory=dict)

    @property
    def open(self) -> list[str]:
        """The members of whom the bank has said nothing yet."""
        return [it for it in self.orders if it not in self.confirmed and it not in self.returned]


class Ledger:
    """All that a ledger's lines come to. Each line is taken only where it agrees with those before it, whoever wrote it."""

    def __init__(self) -> None:
        """A ledger without a line."""
        self.lines: list[Line] = []
        self.owed: dict[str, int] = {}
        self.days: dict[int, datetime.date] = {}
        self.credited: dict[tuple[int, str], tuple[str, int]] = {}
        self.gross: dict[tuple[int, str], int] = {}
        self.taken: dict[tuple[int, str], dict[str, int]] = {}
        self.batches: dict[int, Batch] = {}
        self.erased: dict[str, datetime.date] = {}
        self.sums: dict[str, int] = {}
        self.hash = hashlib.sha256()

    @property
    def office(self) -> str:
        """The office whose ledger it is."""
        return self.lines[0].entry.words if self.lines else ""

    @property
    def booked(self) -> Booked:
        """What it has of pools."""
        return Booked(self.days, self.credited.keys(), self.taken)

    @property
    def next_batch(self) -> int:
        """The number of the next batch."""
        return len(self.batches) + 1

    def take(self, line: Line) -> None:
        """Adds a line; Wrong where it does not agree with those before it."""
        entry, before = line.entry, self.lines[-1] if self.lines else None
        if line.number != len(self.lines) + 1:
            raise Wrong(f"its number is {line.number}, and that of the line after the one before is {len(self.lines) + 1}")
        if before and line.written < before.written:
            raise Wrong("it was written before the line before it")
        if (entry.kind == Kind.BEGUN) == (before is not None):
            raise Wrong("a ledger begins with `begun`, once")
        if (last := self.batches.get(len(self.batches))) and len(last.orders) < last.count and entry.kind != Kind.ORDERED:
            raise Wrong(f"batch {last.number} has {counted(len(last.orders), 'order')} of {last.count}")
        is_of_member = entry.kind not in (Kind.BEGUN, Kind.BATCH)
        if is_of_member != bool(KEY.fullmatch(entry.member)) or not is_of_member and entry.member != NOBODY:
            raise Wrong(f"{entry.member!r} is no member's key")
        if line.owed != self.owed.get(entry.member, 0) + entry.change:
            raise Wrong(f"{entry.member} is owed {self.owed.get(entry.member, 0) + entry.change:,} units then, and it says {line.owed:,}")
        TAKERS[entry.kind](self, entry)
        if is_of_member:
            self.owed[entry.member] = line.owed
        self.lines.append(line)

    def take_begun(self, entry: Entry) -> None:
        """The first line has the office."""
        if entry.units or entry.place or not entry.words:
            raise Wrong("the first line has the office alone")

    def take_credited(self, entry: Entry) -> None:
        """A pool's credit to an account, once, on the one day of the pool."""
        found = CREDITED.fullmatch(entry.words)
        if not found or entry.units < 1 or entry.place < 1:
            raise Wrong("a credit has units, a pool, its right and an account")
        key = (entry.place, found[2])
        if key in self.credited:
            raise Wrong(f"pool {key[0]} was credited to {key[1]} already")
        if self.days.setdefault(entry.place, entry.day) != entry.day:
            raise Wrong(f"the day of pool {entry.place} is {self.days[entry.place]}")
        if (entry.member == UNCLAIMED) != (found[2] == UNCLAIMED):
            raise Wrong("what nobody was paid is of no member")
        self.credited[key] = entry.member, entry.units
        self.gross[entry.place, entry.member] = self.gross.get((entry.place, entry.member), 0) + entry.units

    def take_deducted(self, entry: Entry) -> None:
        """No more is deducted than a pool credited to the member."""
        key = (entry.place, entry.member)
        taken = self.taken.setdefault(key, {})
        if entry.units < 1 or not entry.words or sum(taken.values()) + entry.units > self.gross.get(key, 0):
            gross = self.gross.get(key, 0)
            raise Wrong(f"it deducts {entry.units:,} units, and pool {entry.place} has credited {gross:,} to {entry.member}")
        taken[entry.words] = taken.get(entry.words, 0) + entry.units

    def take_adjusted(self, entry: Entry) -> None:
        """An adjustment has units and tells why."""
        if not entry.units or not entry.words or entry.place:
            raise Wrong("an adjustment has units and a why")

    def take_batch(self, entry: Entry) -> None:
        """Batches have the numbers 1, 2, 3: of two that were written over one ledger one can stand in it."""
        found = BATCHED.fullmatch(entry.words)
        if not found or entry.units < 1 or entry.place != self.next_batch:
            raise Wrong(f"the next batch is {self.next_batch}, with units, how many orders, and the sum of the payment file")
        self.batches[entry.place] = Batch(entry.place, entry.day, entry.units, int(found[1]), found[2])

    def take_ordered(self, entry: Entry) -> None:
        """An order pays no more than the member is owed by all lines before it, in the batch that is being written."""
        batch = self.batches.get(entry.place)
        if batch is None or batch.number != len(self.batches) or len(batch.orders) == batch.count or entry.member in batch.orders:
            raise Wrong(f"it is no order of a batch that is being written: {entry.place}, {entry.member}")
        if not 0 < entry.units <= self.owed.get(entry.member, 0) or entry.member == UNCLAIMED:
            raise Wrong(f"it orders {entry.units:,} units, and {entry.member} is owed {self.owed.get(entry.member, 0):,}")
        batch.orders[entry.member] = entry.units
        if len(batch.orders) == batch.count and sum(batch.orders.values()) != batch.units:
            raise Wrong(f"the orders of batch {batch.number} come to {sum(batch.orders.values()):,} units, and it has {batch.units:,}")

    def take_confirmed(self, entry: Entry) -> None:
        """What the bank has paid: what was ordered, once, and not what came back."""
        batch = self.need_order(entry)
        if entry.member in batch.confirmed or entry.member in batch.returned:
            raise Wrong(f"the bank has answered for {entry.member} in batch {batch.number} already")
        batch.confirmed[entry.member] = entry.day

    def take_returned(self, entry: Entry) -> None:
        """What the bank has sent back: what was ordered, once."""
        batch = self.need_order(entry)
        if entry.member in batch.returned:
            raise Wrong(f"what was ordered for {entry.member} in batch {batch.number} has come back already")
        batch.returned[entry.member] = entry.day

    def need_order(self, entry: Entry) -> Batch:
        """The batch whose order the bank answers."""
        batch = self.batches.get(entry.place)
        if batch is None or batch.orders.get(entry.member) != entry.units:
            ordered = batch.orders.get(entry.member, 0) if batch else 0
            raise Wrong(f"batch {entry.place} has ordered {ordered:,} units for {entry.member}, and it says {entry.units:,}")
        return batch

    def take_erased(self, entry: Entry) -> None:
        """Who has left is owed nothing, and was erased once."""
        if entry.member in self.erased or self.owed.get(entry.member, 0) or entry.units or entry.place:
            raise Wrong(f"{entry.member} is owed {self.owed.get(entry.member, 0):,} units, or was erased already")
        self.erased[entry.member] = entry.day

    def need_whole(self) -> None:
        """Wrong where the last batch has not all of its orders."""
        if (last := self.batches.get(len(self.batches))) and len(last.orders) < last.count:
            raise Wrong(f"batch {last.number} has {counted(len(last.orders), 'order')} of {last.count}")

    def lines_of(self, entries: Iterable[Entry], now: datetime.datetime) -> list[Line]:
        """Further lines, which are taken; an OfficeError where one does not agree with those before it: then none is to be written."""
        written = max([now, *(it.written for it in self.lines[-1:])])
        found = list[Line]()
        try:
            for entry in entries:
                found.append(Line(len(self.lines) + 1, written, entry, self.owed.get(entry.member, 0) + entry.change))
                self.take(found[-1])
            self.need_whole()
        except Wrong as wrong:
            raise OfficeError(f"nothing was written in the ledger: {wrong}") from wrong
        return found

    def ended(self, line: Line) -> str:
        """A line with its digest; what the file's sum is then is noted."""
        text = line.text
        self.hash.update(text.encode())
        digest = self.hash.hexdigest()
        self.hash.update(f"{digest}\n".encode())
        self.sums[self.hash.hexdigest()] = line.number
        return f"{text}{digest}\n"


TAKERS = {
    Kind.BEGUN: Ledger.take_begun,
    Kind.CREDITED: Ledger.take_credited,
    Kind.DEDUCTED: Ledger.take_deducted,
    Kind.ADJUSTED: Ledger.take_adjusted,
    Kind.BATCH: Ledger.take_batch,
    Kind.ORDERED: Ledger.take_ordered,
    Kind.CONFIRMED: Ledger.take_confirmed,
    Kind.RETURNED: Ledger.take_returned,
    Kind.ERASED: Ledger.take_erased,
}


def read(content: bytes, where: str) -> Ledger:
    """The ledger of a file, checked whole: each line, its sums, the chain of its digests; an OfficeError with the line that is wrong."""
    found = Ledger()
    lines = content.split(b"\n")
    if lines[0] + b"\n" != HEAD.encode() or lines.pop() != b"":
        raise OfficeError(f"{where}: its first line is not that of a ledger, or its last one has no end: {CURE}")
    found.hash.update(HEAD.encode())
    found.sums[found.hash.hexdigest()] = 0
    for number, raw in enumerate(lines[1:], 2):
        try:
            line = line_of(raw.decode())
            found.take(line)
            if found.ended(line).encode() != raw + b"\n":
                raise Wrong("its digest is another: it, or a line before it, was changed, taken away or put there")
        except (Wrong, UnicodeDecodeError) as wrong:
            raise OfficeError(f"{where}, line {number}: {wrong}: {CURE}") from wrong
    try:
        found.need_whole()
    except Wrong as wrong:
        raise OfficeError(f"{where}: {wrong}: {CURE}") from wrong
    return found


CURE = "the ledger is never changed by hand; put back the one of the last command, as a backup has it"


def line_of(text: str) -> Line:
    """A line by its text; Wrong where it is none."""
    cells = text.split("\t")
    if len(cells) == FIELDS and NUMBER.fullmatch(cells[0]) and NUMBER.fullmatch(cells[7]) and all(UNITS.fullmatch(it) for it in cells[5:7]):
        with contextlib.suppress(ValueError):
            entry = Entry(Kind(cells[2]), day_of(cells[3]), cells[4], int(cells[5]), int(cells[7]), cells[8])
            return Line(int(cells[0]), moment_of(cells[1]), entry, int(cells[6]))
    raise Wrong("it is not what a command writes there")


def appended(before: bytes, ledger: Ledger, entries: Iterable[Entry], now: datetime.datetime) -> bytes:
    """The file with further lines behind those that it has; `ledger` is what was read of it, and takes them."""
    return before + "".join(ledger.ended(it) for it in ledger.lines_of(entries, now)).encode()


def owed_by(ledger: Ledger) -> Mapping[str, int]:
    """What each member is owed, below 0 where it owes the office; nobody aside."""
    return {key: units for key, units in ledger.owed.items() if key != UNCLAIMED}
