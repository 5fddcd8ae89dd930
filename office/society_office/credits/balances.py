"""Balances by pool and right: as CSV, as JSON, and as a journal for ledger and hledger."""

import csv
import dataclasses
import datetime
import io
import json
from collections.abc import Callable, Iterator, Sequence

from society_office.basics.plain_text import plain
from society_office.book.copy import Copy
from society_office.credits.parties import names_of, parties
from society_office.credits.statements import folder_of
from society_office.formats.pool_names import POOL_COLUMNS, PoolNames, named, pool_text

COLUMNS = ["account", "name", "pool", *POOL_COLUMNS, "right", "units"]
# The accounts of the journal: what accounts have, and what pools gave for it.
HAVE, GAVE = "Accounts", "Pools"
# What a comment of a journal may have beside letters and digits, so that nothing in it is read as a tag or a date.
HARMLESS = " .,'&/-"


@dataclasses.dataclass(frozen=True)
class Balance:
    """What a pool credited to an account."""

    account: str
    name: str
    pool: int
    right: str
    units: int


def read(copy: Copy) -> list[Balance]:
    """All of them, by account and pool."""
    names, rights = names_of(parties(copy)), copy.rights()
    question = "SELECT account, pool, sum(units) FROM credits GROUP BY account, pool ORDER BY account, pool"
    return [Balance(account, names.get(account, ""), pool, rights[pool], units) for account, pool, units in copy.rows(question)]


def as_csv(found: Sequence[Balance], names: PoolNames, copy: Copy) -> str:
    """They as CSV with a header."""
    out = io.StringIO()
    writer = csv.writer(out, lineterminator="\n")
    writer.writerow(COLUMNS)
    for it in found:
        name, first, last = named(names, it.pool)
        writer.writerow([plain(it.account), plain(it.name), it.pool, plain(name), first, last, it.right, it.units])
    return out.getvalue()


def as_json(found: Sequence[Balance], names: PoolNames, copy: Copy) -> str:
    """They as JSON, an object for each."""
    rows = [(it.account, it.name, it.pool, *named(names, it.pool), it.right, it.units) for it in found]
    return json.dumps([dict(zip(COLUMNS, row)) for row in rows], ensure_ascii=False, indent=1) + "\n"


def harmless(words: str) -> str:
    """Words that can stand in a journal."""
    return "".join(it if it.isalnum() or it in HARMLESS else " " for it in words).strip()


def journal_lines(found: Sequence[Balance], names: PoolNames, copy: Copy) -> Iterator[str]:
    """The lines of a journal: a transaction for each pool, on the last day of its period, else on the day of the copy."""
    today, rights = datetime.date.fromtimestamp(copy.taken), copy.rights()
    by_pool: dict[int, list[Balance]] = {}
    for it in found:
        by_pool.setdefault(it.pool, []).append(it)
    yield f"; {harmless(copy.name)}, units of all pools out of the copy of {today}"
    for pool, amount in copy.pools().items():
        day = names[pool].last if pool in names else today
        yield f"\n{day} ({pool}) {harmless(pool_text(names, pool))}"
        for it in by_pool[pool]:
            yield f"    {HAVE}:{folder_of(it.account)}:{it.right}    {it.units}" + (f"  ; {harmless(it.name)}" if it.name else "")
        yield f"    {GAVE}:{pool}:{rights[pool]}    {-amount}"


def as_journal(found: Sequence[Balance], names: PoolNames, copy: Copy) -> str:
    """They as a journal, in which what pools gave stands with a minus."""
    return "\n".join(journal_lines(found, names, copy)) + "\n"


FORMS: dict[str, Callable[[Sequence[Balance], PoolNames, Copy], str]] = {"csv": as_csv, "json": as_json, "ledger": as_journal}
