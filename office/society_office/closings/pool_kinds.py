"""What the pools of a book are: closed by people over plays, or by the office's own orders, whose numbers go down in one row.

A make-up pays what is lacking: its return is `DUE..` or `LATE..`, of its own number. An amendment's pool has a return `AMENDp` of its own
number: pool p is due by another order than the one that closed it. Any other pool is a play pool. In older books pools over SETTLED or
CORRECTEDn alone, which people numbered, are make-ups too, and so is one that was sent under a wrong number.
"""

import collections

from society_office.basics.errors import OfficeError
from society_office.book.copy import Copy
from society_office.book.own_returns import amended_by, is_numbered_down, is_own, pays_late
from society_office.closings.orders import LAST_POOL, Order, cut_of
from society_office.formats.return_names import Return

# A cut: the senders in their order, each with the last of its files that counts.
Cut = tuple[tuple[str, int], ...]


class Book:
    """The pools of a copy, each with the order that closed it, and the names of its returns."""

    def __init__(self, copy: Copy) -> None:
        """Reads them."""
        amounts, rights, cuts, returns = copy.pools(), copy.rights(), copy.cuts(), collections.defaultdict[int, list[Return]](list)
        for reporter, number, pool in copy.rows("SELECT reporter, number, pool FROM pool_returns ORDER BY reporter, number"):
            returns[pool].append((reporter, number))
        self.orders = {it: Order(rights[it], amounts[it], sorted(cuts[it].items()), returns[it]) for it in amounts}
        self.paid_by = {it: pool for pool, listed in returns.items() for it in listed}
        self.stored: set[Return] = set(copy.rows("SELECT reporter, number FROM returns"))
        self.newest: Cut = tuple(cut_of(copy))
        # The amendments' pools, each with the pool that it amends.
        own = [(pool, amended_by(reporter)) for (reporter, number), pool in self.paid_by.items() if number == pool]
        self.amending = {pool: amended for pool, amended in own if amended is not None}

    def is_make_up(self, pool: int) -> bool:
        """Whether a pool pays what is lacking."""
        returns = self.orders[pool].returns
        return bool(returns) and all(is_own(reporter) and amended_by(reporter) is None for reporter, _ in returns)

    def is_play(self, pool: int) -> bool:
        """Whether there is a pool of this number, and people have closed it over plays, or over no return."""
        return pool in self.orders and pool not in self.amending and not self.is_make_up(pool)

    def late(self, right: str) -> list[int]:
        """The make-ups of a right that pay what has an owner by now, as they were closed: those of older books first."""
        found = sorted((is_numbered_down(it), -number, pool) for (it, number), pool in self.paid_by.items() if pays_late(it))
        older = sorted(pool for is_down, _, pool in found if not is_down)
        listed = [*older, *(pool for is_down, _, pool in found if is_down)]
        return [it for it in dict.fromkeys(listed) if self.orders[it].kind == right and self.is_make_up(it)]

    def next_number(self) -> int:
        """The number of the next pool in the row: below those of all own returns that were paid; an OfficeError where none is left."""
        number = min((it for reporter, it in self.paid_by if is_numbered_down(reporter)), default=LAST_POOL + 1) - 1
        while number in self.orders:
            number -= 1
        if number < 1:
            raise OfficeError(f"all pool numbers from {LAST_POOL:,} down are used")
        return number
