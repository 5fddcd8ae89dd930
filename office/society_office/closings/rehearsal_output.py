"""A rehearsal as it is printed: the returns by station, what is odd, what is credited, and what stays unclaimed; also as CSV and JSON."""

import csv
import dataclasses
import io
import itertools
import json
from collections.abc import Iterator, Mapping, Sequence
from typing import Any

from rich.console import Console

from society_office.basics.plain_text import plain
from society_office.basics.terminal import table
from society_office.book.copy import Copy
from society_office.book.stored_returns import Stored
from society_office.closings.order_output import show_unclaimed
from society_office.closings.rehearsal import Rehearsal, credited
from society_office.credits.parties import names_of, parties
from society_office.credits.unclaimed import Unclaimed, as_data
from society_office.formats.numbering import counted
from society_office.formats.pool_names import PoolNames, pool_text
from society_office.formats.return_names import names_text
from society_office.printed.pages import percent

# Accounts and returns that a rehearsal lists.
MOST_LISTED = 40


def heading(it: Rehearsal, copy: Copy, pools: PoolNames, accounts: int) -> str:
    """What becomes of the order."""
    pool, what = pool_text(pools, it.pool), f"{copy.pools()[it.pool]:,} units of the {copy.rights()[it.pool]}"
    if it.is_repeated:
        return f"{pool} is closed already by this very order, with {what}, credited to {counted(accounts, 'account')}: nothing would change"
    return f"{pool} would be closed with {what}, credited to {counted(accounts, 'account')}"


def return_rows(returns: Sequence[Stored]) -> Iterator[tuple[str, str, int, int, str]]:
    """The returns with their rows and points by station, each of them and all; where they are many only all of a station."""
    total = sum(it.points for it in returns)
    for station, group in itertools.groupby(returns, key=lambda it: it.reporter):
        listed = list(group)
        if 1 < len(listed) and len(returns) <= MOST_LISTED:
            yield from ((station, it.name, it.rows, it.points, percent(it.points, total)) for it in listed)
        points = sum(it.points for it in listed)
        yield station, names_text(it.key for it in listed), sum(it.rows for it in listed), points, percent(points, total)


def show(out: Console, it: Rehearsal, pools: PoolNames) -> None:
    """Prints what an order would credit, and what would stay unclaimed."""
    if it.copy is None:
        out.print(f"REFUSED, status {it.answer.status}: {it.refusal}", soft_wrap=True)
        return
    names, listed, amount = names_of(parties(it.copy)), credited(it.copy, it.pool), it.copy.pools()[it.pool]
    out.print(heading(it, it.copy, pools, len(listed)))
    for note in it.notes:
        out.print(f"note: {note}", soft_wrap=True)
    if it.returns:
        out.print()
        columns = ["station", "returns", "rows", "points", "part"]
        out.print(table(columns, return_rows(it.returns), columns[2:], "Plays"))
    out.print()
    rows = [(account, names.get(account, ""), units, percent(units, amount)) for account, units in listed[:MOST_LISTED]]
    out.print(table(["account", "name", "units", "part"], rows, ["units", "part"], "Credits"))
    if len(listed) > MOST_LISTED:
        out.print(f"and {len(listed) - MOST_LISTED:,} more accounts with {sum(units for _, units in listed[MOST_LISTED:]):,} units")
    out.print()
    out.print("What stays unclaimed:" if it.is_repeated else "What would stay unclaimed:")
    show_unclaimed(out, Unclaimed(it.copy).items(it.pool), it.copy.pools(), "each of the others has no more units")
    out.print()
    out.print("Nothing was sent to the office. A closed pool stays closed.")


def as_csv(it: Rehearsal, copy: Copy) -> str:
    """What it credits to each account as CSV, with a header."""
    out, names = io.StringIO(), names_of(parties(copy))
    writer = csv.writer(out, lineterminator="\n")
    writer.writerow(["pool", "right", "account", "name", "units"])
    right = copy.rights()[it.pool]
    writer.writerows((it.pool, right, plain(account), plain(names.get(account, "")), units) for account, units in credited(copy, it.pool))
    return out.getvalue()


def account_data(copy: Copy, pool: int, names: Mapping[str, str]) -> list[dict[str, Any]]:
    """What each account is credited."""
    return [{"account": account, "name": names.get(account, ""), "units": units} for account, units in credited(copy, pool)]


def as_json(it: Rehearsal) -> str:
    """All of it as JSON; of an order that is refused why."""
    data: dict[str, Any] = {"pool": it.pool, "status": it.answer.status, "refusal": it.refusal}
    if it.copy is not None:
        data |= {"right": it.copy.rights()[it.pool], "amount": it.copy.pools()[it.pool], "notes": list(it.notes)}
        keys = ("reporter", "number", "rows", "points")
        data["returns"] = [{key: value for key, value in dataclasses.asdict(one).items() if key in keys} for one in it.returns]
        data["accounts"] = account_data(it.copy, it.pool, names_of(parties(it.copy)))
        data["unclaimed"] = as_data(Unclaimed(it.copy).items(it.pool))
    return json.dumps(data, ensure_ascii=False, indent=1)
