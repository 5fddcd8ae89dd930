"""What nobody was paid and is to be written off: as much as `dues` says, less what the ledger has written off."""

from society_office.basics.errors import OfficeError
from society_office.book.copy import Copy
from society_office.closings.amendments import orders_as_due
from society_office.closings.credit import asking
from society_office.closings.dues import Dues
from society_office.closings.pool_kinds import Book
from society_office.decided.decisions import Decisions
from society_office.payments.ledger import Ledger
from society_office.payments.owed import Kind
from society_office.works.records import UNCLAIMED


def to_be_written_off(copy: Copy, known: Decisions, program: str) -> int:
    """What was credited to nobody, and is due to others, or was paid to them since."""
    book = Book(copy)
    dues = Dues(copy, book, orders_as_due(book, known.amendments, known.void), asking(program, copy))
    return max(0, -sum(units for (_, _, account), units in dues.difference.items() if account == UNCLAIMED))


def need_within(units: int, most: int, ledger: Ledger) -> None:
    """An OfficeError where more would be written off than is to be, or than the ledger has of what nobody was paid."""
    written_off = -sum(it.entry.units for it in ledger.lines if it.entry.kind == Kind.ADJUSTED and it.entry.member == UNCLAIMED)
    left = min(most - written_off, ledger.owed.get(UNCLAIMED, 0))
    if not -left <= units < 0:
        raise OfficeError(f"{max(0, left):,} units of {UNCLAIMED} are to be written off, by `dues` and the ledger: give them with a minus")
