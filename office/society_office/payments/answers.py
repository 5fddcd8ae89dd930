"""What a bank has told of orders, taken into the ledger: paid, or sent back, each once."""

import dataclasses
import datetime
from collections.abc import Sequence

from society_office.basics.errors import OfficeError
from society_office.payments.bank_lists import Told
from society_office.payments.home import Home
from society_office.payments.ledger import Batch
from society_office.payments.owed import Entry, Kind

# Why something came back, where the bank does not say it.
NO_REASON = "sent back by the bank"


@dataclasses.dataclass(frozen=True)
class Answers:
    """The lines for what is new, how many payments the ledger has already, and how many are not what was asked for."""

    entries: list[Entry]
    known: int
    others: int


def of_list(home: Home, told: Sequence[Told], are_returns: bool) -> Answers:
    """What a list tells that the ledger has not; an OfficeError where it tells of what was never ordered, or of another amount."""
    found, known, others = list[Entry](), 0, 0
    seen: set[tuple[int, str]] = set()
    for it in told:
        if it.is_return != are_returns:
            others += 1
            continue
        batch = need_order(home, it)
        answered = batch.returned if are_returns else {**batch.confirmed, **batch.returned}
        if it.member in answered or (it.batch, it.member) in seen:
            known += 1
            continue
        seen.add((it.batch, it.member))
        kind = Kind.RETURNED if are_returns else Kind.CONFIRMED
        found.append(Entry(kind, it.day, it.member, it.units, it.batch, (it.why or NO_REASON) if are_returns else it.why))
    return Answers(found, known, others)


def need_order(home: Home, it: Told) -> Batch:
    """The batch whose order a bank tells of; an OfficeError where there is none, or of another amount."""
    batch = home.ledger.batches.get(it.batch)
    if it.society != int(home.ledger.office.split(" ")[0] or 0) or batch is None or it.member not in batch.orders:
        raise OfficeError(
            f"{it.where}: the ledger has not ordered a payment {it.society:03d}-PAY-{it.batch}-{it.member}: the list is another office's, "
            "or the ledger is older than what was sent to the bank"
        )
    if batch.orders[it.member] != it.units:
        raise OfficeError(
            f"{it.where}: {it.units:,} units, and batch {it.batch} has ordered {batch.orders[it.member]:,} for {it.member}: where the bank "
            "has kept a charge, write the whole amount there, and book the charge outside"
        )
    return batch


def of_batch(home: Home, number: int, day: datetime.date) -> Answers:
    """That all of a batch was paid of which the bank has said nothing else."""
    batch = home.ledger.batches.get(number)
    if batch is None:
        raise OfficeError(f"batch {number} was not ordered; the last one is {len(home.ledger.batches)}")
    found = [Entry(Kind.CONFIRMED, day, it, batch.orders[it], number, "") for it in batch.open]
    return Answers(found, len(batch.orders) - len(found), 0)
