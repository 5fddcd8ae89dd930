"""Orders as they should have been: what the list of amendments means over a book, and how a pool is amended.

An amendment is a line of the list, its number, the pool, and the whole order as it should have been. It is in force once the pool of its
number is closed with 0 units over a rowless return `AMENDp` of that number and the returns that the order adds and no other pool has paid.
"""

import dataclasses
from collections.abc import Iterator, Mapping, Sequence

from society_office.basics.errors import OfficeError
from society_office.book.copy import Copy
from society_office.book.own_returns import amends, corrected_by
from society_office.book.stored_returns import Stored
from society_office.closings.orders import LARGEST_AMOUNT, MOST_SENDERS, Order, changed_cut, refuse_wrong
from society_office.closings.pool_kinds import Book
from society_office.decided.decisions import Amendment
from society_office.formats.numbering import as_json, rank_of
from society_office.formats.return_names import Entry, Return, are_listed, names_text


@dataclasses.dataclass(frozen=True)
class Changes:
    """How an order should have been, where it was not so; and whether the pool was corrected in an older way."""

    amount: int | None = None
    kind: str | None = None
    cut: Sequence[str] = ()
    returns: Sequence[Entry] = ()
    was_corrected: bool = False


def order_of(it: Amendment) -> Order:
    """The order of an amendment; an OfficeError where it is none."""
    try:
        cut = sorted((str(sender), rank_of(number) or 0) for sender, number in it.order["cut"])
        returns = sorted((str(reporter), int(number)) for reporter, number in it.order["returns"])
        return Order(str(it.order.get("kind", "PR")), int(it.order["amount"]), cut, returns)
    except (KeyError, TypeError, ValueError) as error:
        raise OfficeError(f"{it.where}: {it.order} is no order: {error}") from error


def orders_as_due(book: Book, amendments: Sequence[Amendment], void: Sequence[Entry], was_corrected: bool = False) -> dict[int, Order]:
    """By play pool the order by which it is due: as it was closed, or as the last amendment in force has it, without void returns.

    An OfficeError names what doesn't fit together; with `was_corrected` an older correction may lack its amendment."""
    found = {pool: it for pool, it in book.orders.items() if book.is_play(pool)}
    wrong = [*without_pool(book, amendments), *without_line(book, amendments)]
    for it in sorted(amendments, key=lambda it: -it.number):
        if book.amending.get(it.number) == it.pool and it.pool in found:
            found[it.pool] = order_of(it)
            wrong += unpaid(book, it)
    wrong += [] if was_corrected else [it for _, it in not_amended(book, amendments)]
    wrong += twice(found)
    if wrong:
        raise OfficeError("; ".join(wrong))
    return {pool: without_void(it, void) for pool, it in found.items()}


def without_void(it: Order, void: Sequence[Entry]) -> Order:
    """An order without void returns."""
    return dataclasses.replace(it, returns=[one for one in it.returns if not are_listed(void, one)])


def without_pool(book: Book, amendments: Sequence[Amendment]) -> Iterator[str]:
    """The lines whose pool is not there, or is another one's."""
    for it in amendments:
        line, own = f"{it.where}: `{it.number} {it.pool}`", f"{amends(it.pool)}/{it.number}"
        if not book.is_play(it.pool):
            yield f"{line}: pool {it.pool} is none that people have closed over plays: take the line out"
        elif book.amending.get(it.number) != it.pool:
            what = f"pool {it.number} is not over {own}" if it.number in book.orders else f"no pool {it.number} is closed over {own}"
            yield f"{line} is not in force, {what}: close it (`amend` with the same words writes it again), or take the line out"


def without_line(book: Book, amendments: Sequence[Amendment]) -> Iterator[str]:
    """The amendments' pools whose line is not there."""
    lines = {(it.number, it.pool) for it in amendments}
    for number, pool in book.amending.items():
        if (number, pool) not in lines:
            yield f"pool {number} amends pool {pool}, and the list of amendments has no line `{number} {pool} ..`: put it back"


def unpaid(book: Book, it: Amendment) -> Iterator[str]:
    """The returns of an amendment that no pool has paid, so that a further pool could pay them again."""
    if left := [one for one in order_of(it).returns if one not in book.paid_by]:
        yield f"{it.where}: `{it.number} {it.pool}` adds {names_text(left)}, which pool {it.number} does not name"


def not_amended(book: Book, amendments: Sequence[Amendment]) -> Iterator[tuple[int, str]]:
    """The pools that an older book has corrected and that have no amendment, each with what is to be done."""
    corrected = {pool for reporter, _ in book.stored if (pool := corrected_by(reporter)) is not None and book.is_play(pool)}
    for pool in sorted(corrected - {it.pool for it in amendments}):
        cure = f"say once by which order it is due: `amend COPY {pool} --was-corrected ..`"
        yield pool, f"pool {pool} was corrected by CORRECTED{pool}: {cure}"


def twice(orders: Mapping[int, Order]) -> Iterator[str]:
    """The returns that two pools are due by."""
    seen: dict[Return, int] = {}
    for pool, order in sorted(orders.items()):
        for it in order.returns if order.amount else ():
            if it in seen:
                yield f"{names_text([it])} is of pool {seen[it]} and of pool {pool}: amend one of them, so that it is without it"
            seen.setdefault(it, pool)


def amended(
    copy: Copy, orders: Mapping[int, Order], pool: int, changes: Changes, stored: Mapping[Return, Stored], void: Sequence[Entry]
) -> Order:
    """The order of a pool with changes, void returns still in it; an OfficeError where it can't be due by it."""
    was = orders[pool]
    others = {it: one for one, order in orders.items() if one != pool and order.amount for it in order.returns}

    def barred(it: Stored) -> str:
        if it.key in others:
            return f"of pool {others[it.key]}: amend that one first, so that it is without it"
        if not it.is_play:
            return "a return of the office itself"
        return "void" if are_listed(void, it.key) else ""

    refuse_wrong(changes.returns, stored, barred)
    named = [it.key for it in stored.values() if are_listed(changes.returns, it.key) and not barred(it)]
    cut = changed_cut(copy, was.cut, changes.cut)
    if len(cut) > MOST_SENDERS:
        raise OfficeError(f"--cut: {len(cut):,} senders, and a cut has {MOST_SENDERS} at most")
    amount = was.amount if changes.amount is None else changes.amount
    if amount > LARGEST_AMOUNT:
        raise OfficeError(f"an amount is 0 to {LARGEST_AMOUNT:,} units")
    return Order(changes.kind or was.kind, amount, cut, named if changes.returns else was.returns)


def order_over(book: Book, number: int, pool: int, should: Order) -> Order:
    """The order of an amendment's pool: no units, over its own return, and over what the order adds that no pool has paid."""
    added = [it for it in should.returns if it not in book.paid_by]
    return Order(should.kind, 0, should.cut, sorted([*added, (amends(pool), number)]))


def remarks_on(was: Order, now: Order) -> Iterator[str]:
    """What is changed of an order."""
    if was.amount != now.amount:
        yield f"amount {now.amount:,} in the place of {was.amount:,}"
    if was.kind != now.kind:
        yield f"of the {now.kind} in the place of the {was.kind}"
    here, there = dict(now.cut), dict(was.cut)
    for it in sorted({*here, *there}):
        if here.get(it) != there.get(it):
            yield f"the cut counts {it} up to {text_of(here, it, 'nothing')}, and was {text_of(there, it, 'without it')}"
    if more := [it for it in now.returns if it not in was.returns]:
        yield f"pays {names_text(more)} too"
    if less := [it for it in was.returns if it not in now.returns]:
        yield f"does not pay {names_text(less)}"


def text_of(cut: Mapping[str, int], sender: str, none: str) -> str:
    """How far a cut counts a sender."""
    return str(as_json(cut[sender])) if sender in cut else none
