"""Parties: the names of accounts, out of the last versions of all works."""

import collections
import csv
import dataclasses
import io
import json
from collections.abc import Iterable

from society_office.basics.plain_text import plain
from society_office.book.copy import Copy
from society_office.works.records import UNCLAIMED, transactions


@dataclasses.dataclass(frozen=True)
class Named:
    """An account with its name, as most works write it, the other writings, and in how many works it stands."""

    account: str
    ipi: str
    sender: str
    number: str
    name: str
    others: list[str]
    sides: list[str]
    works: int


def named(account: str, writings: collections.Counter[tuple[str, str]], works: int) -> Named:
    """An account by the names and sides with which it was written."""
    names: collections.Counter[str] = collections.Counter()
    for (name, _), count in writings.items():
        names[name] += count
    ordered = [it for it, _ in sorted(names.items(), key=lambda it: (it[0] == "", -it[1], it[0]))]
    sides = sorted({side for _, side in writings})
    ipi, sender, number = (account[1:], "", "") if account.startswith("I") else ("", account[1:12], account[12:])
    return Named(account, ipi, sender, number, ordered[0], [it for it in ordered[1:] if it], sides, works)


def parties(copy: Copy, sender: str | None = None) -> list[Named]:
    """All parties of the last versions of all works, or of one sender's, in the order of their accounts."""
    copy.need_derived()
    question = """SELECT sender, number, place FROM versions
      JOIN (SELECT sender, work, max(revision) AS revision FROM versions
        WHERE ?1 IS NULL OR sender = ?1 GROUP BY sender, work) USING (sender, work, revision)
      ORDER BY sender, number, place"""
    places: dict[tuple[str, int], list[int]] = {}
    for by, number, place in copy.rows(question, sender):
        places.setdefault((by, number), []).append(place)
    writings: dict[str, collections.Counter[tuple[str, str]]] = {}
    works: collections.Counter[str] = collections.Counter()
    for (by, number), wanted in places.items():
        found = transactions(copy.body(by, number))
        for place in wanted:
            listed = [it for it in found[place].parties(by) if it.account != UNCLAIMED]
            works.update({it.account for it in listed})
            for it in listed:
                writings.setdefault(it.account, collections.Counter())[it.name, it.side] += 1
    return [named(account, writings[account], works[account]) for account in sorted(writings)]


def names_of(found: Iterable[Named]) -> dict[str, str]:
    """The names by account."""
    return {it.account: it.name for it in found}


def as_json(found: Iterable[Named]) -> str:
    """The parties as JSON, an object for each."""
    return json.dumps([dataclasses.asdict(it) for it in found], ensure_ascii=False, indent=1)


def as_csv(found: Iterable[Named]) -> str:
    """The parties as CSV, with a header; other writings and sides are parted by `; `."""
    out = io.StringIO()
    writer = csv.writer(out, lineterminator="\n")
    writer.writerow(["account", "ipi", "sender", "number", "name", "others", "sides", "works"])
    for it in found:
        cells = [
            plain(it.account),
            it.ipi,
            it.sender,
            plain(it.number),
            plain(it.name),
            plain("; ".join(it.others)),
            "; ".join(it.sides),
        ]
        writer.writerow([*cells, it.works])
    return out.getvalue()
