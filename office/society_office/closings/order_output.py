"""What is proposed and unclaimed, as it is printed."""

import heapq

from rich.console import Console

from society_office.basics.terminal import say, table
from society_office.closings.orders import Proposal
from society_office.credits.unclaimed import CURES, Cause, Item, by_cause
from society_office.formats.numbering import counted
from society_office.formats.return_names import names_text
from society_office.printed.pages import percent

# Rows of a table of unclaimed money; of more of them the greatest are printed.
MOST_ROWS = 1_000


def tell_proposal(it: Proposal) -> None:
    """Says what stands beside a proposed order."""
    order = it.order
    say(f"{counted(len(order.cut), 'sender')}, {counted(len(order.returns), 'return')}; pool {it.pool} is free", error=True)
    for left in it.left_out:
        say(f"left out: {names_text(left.returns)}, {left.why}", error=True)
    for remark in it.remarks:
        say(f"note: {remark}", error=True)


def claimants_text(it: Item) -> str:
    """The works that name a recording."""
    return "; ".join(f"{who.publisher} {who.work} {who.title}" for who in it.claimants)


def printed(listed: list[Item]) -> list[Item]:
    """The items that are printed: all, or of very many those with the most units."""
    return listed if len(listed) <= MOST_ROWS else heapq.nlargest(MOST_ROWS, listed, key=lambda it: it.units)


def of_what(cause: Cause, listed: list[Item]) -> str:
    """Of how many recordings units are, each counted once however many pools had it; of those without plays of how many pools."""
    if cause is Cause.NO_PLAYS:
        return counted(len(listed), "pool")
    return counted(len({it.isrc for it in listed}), "recording")


def show_unclaimed(out: Console, items: list[Item], amounts: dict[int, int], rest: str) -> None:
    """Prints unclaimed money by cause, and its sums by pool; `rest` says where the items are that are too many to be printed."""
    for cause, listed in by_cause(items).items():
        out.print(f"{cause.value}: {counted(sum(it.units for it in listed), 'unit')}, {of_what(cause, listed)}")
        out.print(CURES[cause])
        if len(listed) > MOST_ROWS:
            out.print(f"the greatest {MOST_ROWS:,} of {len(listed):,} stand here: {rest}")
        rows = [
            (str(it.pool), it.right, it.isrc, it.units, claimants_text(it), "; ".join(filter(None, (it.why, it.since))))
            for it in printed(listed)
        ]
        out.print(table(["pool", "right", "ISRC", "units", "works that name it", "why"], rows, ["pool", "units"]))
        out.print()
    sums: dict[int, dict[Cause, int]] = {}
    for it in items:
        sums.setdefault(it.pool, dict.fromkeys(Cause, 0))[it.cause] += it.units
    columns = ["pool", "amount", "unclaimed", "part"]
    rows2 = [
        (str(pool), amounts[pool], sum(causes.values()), percent(sum(causes.values()), amounts[pool])) for pool, causes in sums.items()
    ]
    out.print(table(columns, rows2, columns, "By pool") if items else "nothing is unclaimed")
