"""The ledger as people and other programs read it: a table, CSV, and a journal for hledger and ledger."""

import csv
import io
from collections.abc import Callable, Iterable, Iterator

from society_office.basics.plain_text import plain
from society_office.credits.balances import harmless
from society_office.credits.statements import folder_of
from society_office.payments.ledger import Ledger, Line
from society_office.payments.owed import Kind
from society_office.works.records import UNCLAIMED

COLUMNS = ["number", "written", "what", "day", "member", "units", "owed", "pool", "batch", "words"]
# The accounts of a journal: what members are owed, and where that came from or went.
OWED, POOLS, DEDUCTED, ADJUSTED, ORDERED, PAID = "Members", "Pools", "Deductions", "Adjustments", "Ordered", "Paid"


def cells(it: Line) -> list[str | int]:
    """A line as cells."""
    kind, day, member, units, place, words = it.entry
    is_of_pool = kind in (Kind.CREDITED, Kind.DEDUCTED)
    pool, batch = (str(place), "") if is_of_pool else ("", str(place or ""))
    return [it.number, it.written.isoformat(), kind, day.isoformat(), member, units, it.owed, pool, batch, plain(words)]


def as_csv(ledger: Ledger, member: str | None) -> str:
    """The lines as CSV with a header, of all members or of one."""
    out = io.StringIO()
    writer = csv.writer(out, lineterminator="\n")
    writer.writerow(COLUMNS)
    writer.writerows(cells(it) for it in lines_of(ledger, member))
    return out.getvalue()


def lines_of(ledger: Ledger, member: str | None) -> Iterable[Line]:
    """All lines, or those of a member."""
    return ledger.lines if member is None else [it for it in ledger.lines if it.entry.member == member]


def other_account(ledger: Ledger, it: Line) -> str:
    """Where the units of a line come from, or go to; the empty text of one that moves nothing."""
    kind, _, member, _, place, words = it.entry
    if kind == Kind.CREDITED:
        return f"{POOLS}:{place}:{words.split(' ')[0]}"
    if kind == Kind.DEDUCTED:
        return f"{DEDUCTED}:{folder_of(words)}"
    if kind == Kind.ADJUSTED:
        return ADJUSTED
    if kind == Kind.ORDERED or kind == Kind.CONFIRMED:
        return f"{ORDERED}:{place}"
    if kind == Kind.RETURNED:
        confirmed = ledger.batches[place].confirmed.get(member)
        return f"{PAID if confirmed is not None else ORDERED}:{place}"
    return ""


def transaction(ledger: Ledger, it: Line) -> Iterator[str]:
    """A line as a transaction on the day on which it was written, with what its member is owed then."""
    kind, day, member, units, place, words = it.entry
    if not (other := other_account(ledger, it)):
        return
    told = f"pool {place} of {day} {words}" if kind in (Kind.CREDITED, Kind.DEDUCTED) else f"batch {place} {words}" if place else words
    yield f"\n{it.written.date()} ({it.number}) {kind} {harmless(told)}"
    if kind == Kind.CONFIRMED:
        yield f"    {PAID}:{place}    {units}"
        yield f"    {other}    {-units}"
        return
    yield f"    {OWED}:{member}    {it.entry.change}  = {it.owed}"
    yield f"    {other}    {-it.entry.change}"


def as_journal(ledger: Ledger, member: str | None) -> str:
    """The lines as a journal, whose balances of members are what they are owed; what pools gave stands with a minus."""
    listed = [text for it in lines_of(ledger, member) for text in transaction(ledger, it)]
    return "\n".join([f"; {harmless(ledger.office)}, units", *listed]) + "\n"


def owed_rows(ledger: Ledger) -> Iterator[tuple[str, int, int, int, int, int, int]]:
    """Each member with what was credited, deducted, adjusted, ordered, sent back, and is owed."""
    sums: dict[str, dict[Kind, int]] = {}
    for it in ledger.lines:
        own = sums.setdefault(it.entry.member, {})
        own[it.entry.kind] = own.get(it.entry.kind, 0) + it.entry.units
    kinds = (Kind.CREDITED, Kind.DEDUCTED, Kind.ADJUSTED, Kind.ORDERED, Kind.RETURNED)
    for key in sorted(ledger.owed, key=lambda it: (it == UNCLAIMED, it)):
        credited, deducted, adjusted, ordered, returned = (sums[key].get(it, 0) for it in kinds)
        yield key, credited, deducted, adjusted, ordered, returned, ledger.owed[key]


FORMS: dict[str, Callable[[Ledger, str | None], str]] = {"csv": as_csv, "hledger": as_journal}
