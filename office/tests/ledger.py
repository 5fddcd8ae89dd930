"""An office in memory, for long chains: it takes files, returns and orders as the program does, and what is due is reckoned by the rules.

Nothing of the package decides here. A work has a number, the recordings that it names, and its holders with their weights in both rights.
"""

import dataclasses
import json
import pathlib
import re
import sqlite3
from collections import Counter
from collections.abc import Mapping
from typing import Any, NamedTuple

from reckoning import NOBODY, split

Return = tuple[str, int]
Key = tuple[str, str, str]
Units = Counter[Key]
TABLES = """
CREATE TABLE office (one INTEGER, layout INTEGER, society INTEGER, territory INTEGER, name TEXT);
CREATE TABLE transmissions (sender TEXT, number INTEGER, body BLOB, PRIMARY KEY (sender, number));
CREATE TABLE returns (reporter TEXT, number INTEGER, body BLOB, PRIMARY KEY (reporter, number));
CREATE TABLE pools (pool INTEGER PRIMARY KEY, amount INTEGER);
CREATE TABLE pool_cuts (pool INTEGER, sender TEXT, number INTEGER, PRIMARY KEY (pool, sender));
CREATE TABLE pool_returns (reporter TEXT, number INTEGER, pool INTEGER, PRIMARY KEY (reporter, number));
CREATE TABLE fronts (sender TEXT PRIMARY KEY, front INTEGER, works INTEGER);
CREATE TABLE verdicts (sender TEXT, number INTEGER, place INTEGER, fault INTEGER, ordinal INTEGER, revision INTEGER);
CREATE TABLE versions (sender TEXT, work TEXT, revision INTEGER, number INTEGER, place INTEGER, ordinal INTEGER);
CREATE TABLE recordings (sender TEXT, work TEXT, revision INTEGER, isrc TEXT);
CREATE TABLE credits (pool INTEGER, line INTEGER, isrc TEXT, account TEXT, units INTEGER, PRIMARY KEY (pool, line));
CREATE TABLE balances (account TEXT PRIMARY KEY, units INTEGER);
CREATE TABLE segment_ends (sender TEXT, segment INTEGER, last INTEGER, next INTEGER);
CREATE TABLE mechanical_pools (pool INTEGER PRIMARY KEY);
INSERT INTO office VALUES (1, 3, 900, 40, 'EXAMPLE SOCIETY');
"""


class Work(NamedTuple):
    """A version of a work: its number, the recordings that it names, and its holders with their weights in the PR and the MR."""

    number: str
    isrcs: tuple[str, ...]
    holders: tuple[tuple[str, int, int], ...]


@dataclasses.dataclass(frozen=True)
class Order:
    """An order that closes a pool."""

    right: str
    amount: int
    cut: tuple[tuple[str, int], ...]
    returns: tuple[Return, ...]


def read(order: Mapping[str, Any]) -> Order:
    """An order out of what was written."""
    cut = tuple(sorted((sender, number) for sender, number in order["cut"]))
    return Order(order.get("kind", "PR"), order["amount"], cut, tuple(sorted((it[0], it[1]) for it in order["returns"])))


class Ledger:
    """What was sent to an office."""

    def __init__(self) -> None:
        self.files: dict[str, list[list[Work]]] = {}
        self.returns: dict[Return, str] = {}
        self.pools: dict[int, Order] = {}
        self.closings: list[int] = []
        self.paid_by: dict[Return, int] = {}
        self.credits: dict[int, list[tuple[str, str, int]]] = {}
        self.named_at: dict[tuple[tuple[str, int], ...], dict[str, list[tuple[str, Work]]]] = {}
        self.points_of: dict[tuple[str, ...], dict[str, int]] = {}
        self.database = sqlite3.connect(":memory:", isolation_level=None)
        self.database.executescript(TABLES)

    def send_file(self, sender: str, works: list[Work]) -> None:
        own = self.files.setdefault(sender, [])
        own.append(works)
        number = len(own)
        self.database.execute("INSERT INTO transmissions VALUES (?, ?, x'')", (sender, number))
        self.database.execute("INSERT OR REPLACE INTO fronts VALUES (?, ?, 0)", (sender, number))
        rows = [(sender, it.number, number, isrc) for it in works for isrc in it.isrcs]
        self.database.executemany("INSERT INTO recordings VALUES (?, ?, ?, ?)", rows)

    def send_return(self, key: Return, body: str) -> int:
        if key in self.returns:
            return 200 if self.returns[key] == body else 409
        self.returns[key] = body
        self.database.execute("INSERT INTO returns VALUES (?, ?, ?)", (*key, body.encode()))
        return 201

    def close(self, pool: int, order: Order) -> int:
        if pool in self.pools:
            return 200 if self.pools[pool] == order else 409
        if any(it in self.paid_by or it not in self.returns for it in order.returns):
            return 409
        assert len(order.cut) <= 200 and len(order.returns) <= 1_000 and 0 <= order.amount <= 10**12
        self.pools[pool] = order
        self.closings.append(pool)
        self.paid_by.update(dict.fromkeys(order.returns, pool))
        found = [(it[0], it[7], it[9]) for it in self.rows(order)]
        self.credits[pool] = found
        self.database.execute("INSERT INTO pools VALUES (?, ?)", (pool, order.amount))
        self.database.executemany("INSERT INTO pool_cuts VALUES (?, ?, ?)", [(pool, *it) for it in order.cut])
        self.database.executemany("INSERT INTO pool_returns VALUES (?, ?, ?)", [(*it, pool) for it in order.returns])
        self.database.executemany("INSERT INTO credits VALUES (?, ?, ?, ?, ?)", [(pool, k, *it) for k, it in enumerate(found, 1)])
        if order.right == "MR":
            self.database.execute("INSERT INTO mechanical_pools VALUES (?)", (pool,))
        self.database.execute("DELETE FROM balances")
        self.database.execute("INSERT INTO balances SELECT account, sum(units) FROM credits GROUP BY account")
        return 201

    def points(self, returns: tuple[Return, ...]) -> dict[str, int]:
        bodies = tuple(self.returns[it] for it in returns)
        if bodies not in self.points_of:
            self.points_of[bodies] = self.counted(returns)
        return self.points_of[bodies]

    def counted(self, returns: tuple[Return, ...]) -> dict[str, int]:
        found: Counter[str] = Counter()
        for it in returns:
            for line in self.returns[it].splitlines()[1:]:
                isrc, plays, seconds = line.split(",")
                found[isrc] += int(plays) * int(seconds)
        return dict(sorted(found.items()))

    def parts(self, order: Order) -> dict[str, int]:
        points = self.points(order.returns)
        return dict(zip(points, split(order.amount, list(points.values())))) if points else {"-": order.amount}

    def named(self, cut: tuple[tuple[str, int], ...]) -> dict[str, list[tuple[str, Work]]]:
        """The works that name each recording at a cut, which stay the same."""
        if cut in self.named_at:
            return self.named_at[cut]
        found = self.named_at[cut] = dict[str, list[tuple[str, Work]]]()
        for sender, number in cut:
            last = {work.number: work for works in self.files[sender][:number] for work in works}
            for work in last.values():
                for isrc in dict.fromkeys(work.isrcs):
                    found.setdefault(isrc, []).append((sender, work))
        return found

    def holders(self, isrc: str, cut: tuple[tuple[str, int], ...], right: str) -> tuple[str, str, list[tuple[str, int]]] | None:
        """The owner of a recording at a cut with its holders and their weights, nobody last; None where there is none, or several."""
        found = self.named(cut).get(isrc, [])
        if len(found) != 1:
            return None
        [(sender, work)] = found
        weights = [(it[0], it[1] if right == "PR" else it[2]) for it in work.holders]
        return sender, work.number, [*weights, (NOBODY, max(10_000, sum(it[1] for it in weights)) - sum(it[1] for it in weights))]

    def rows(self, order: Order, isrcs: list[str] | None = None) -> list[tuple[str, int, int, int, str, str, int, str, int, int]]:
        """What the program prints for an order."""
        points, found = self.points(order.returns), []
        wanted = None if isrcs is None else set(isrcs)
        for isrc, units in self.parts(order).items():
            if wanted is not None and isrc not in wanted:
                continue
            owned = self.holders(isrc, order.cut, order.right)
            start = (isrc, points.get(isrc, 0), units, 0)
            if owned is None:
                found.append((*start, "", "", 0, NOBODY, 1, units))
                continue
            sender, work, weights = owned
            for (account, weight), part in zip(weights, split(units, [it[1] for it in weights])):
                found.append((*start, sender, work, 0, account, weight, part))
        return found

    def fronts(self) -> tuple[tuple[str, int], ...]:
        return tuple(sorted((sender, len(it)) for sender, it in self.files.items()))

    def kept(self) -> bytes:
        """The office's file as it is now."""
        return self.database.serialize()


def is_own(reporter: str) -> bool:
    return re.fullmatch("(DUE|LATE)[0-9A-F]{8}|AMEND[0-9]+", reporter) is not None


def is_closed_by_the_office(pool: int, it: Order) -> bool:
    own = [one for one, number in it.returns if is_own(one) and number == pool]
    return any(one.startswith("AMEND") for one in own) or len(own) == len(it.returns) == 1


def is_late(it: Return, pool: int) -> bool:
    return is_own(it[0]) and it[0].startswith("LATE") and it[1] == pool


@dataclasses.dataclass
class Due:
    """What is due of a ledger by decisions, each amendment and void return; and of that what the newest cut makes due."""

    ledger: Ledger
    amendments: list[tuple[int, int, Order]]
    void: set[Return]

    def orders(self) -> dict[int, Order]:
        """The play pools with their orders as they should be."""
        found = {pool: it for pool, it in self.ledger.pools.items() if not is_closed_by_the_office(pool, it)}
        for number, pool, order in sorted(self.amendments, reverse=True, key=lambda it: it[0]):
            if number in self.ledger.pools and (f"AMEND{pool}", number) in self.ledger.pools[number].returns:
                found[pool] = order
        return {k: dataclasses.replace(it, returns=tuple(one for one in it.returns if one not in self.void)) for k, it in found.items()}

    def owned(self, isrc: str, order: Order) -> tuple[list[tuple[str, int]], bool]:
        """To whom a recording's units go, and whether that is by the newest cut."""
        if isrc == "-":
            return [(NOBODY, 1)], False
        if found := self.ledger.holders(isrc, order.cut, order.right):
            return found[2], False
        for pool in self.ledger.closings:
            it = self.ledger.pools[pool]
            if it.right == order.right and len(it.returns) == 1 and is_late(it.returns[0], pool) and isrc in self.ledger.points(it.returns):
                if found := self.ledger.holders(isrc, it.cut, order.right):
                    return found[2], False
        if found := self.ledger.holders(isrc, self.ledger.fronts(), order.right):
            return found[2], True
        return [(NOBODY, 1)], False

    def due(self) -> tuple[Units, Units]:
        """What is due, and what of it by the newest cut."""
        found, changing = Units(), Units()
        for order in self.orders().values():
            for isrc, units in self.ledger.parts(order).items():
                weights, is_newest = self.owned(isrc, order)
                for (account, _), part in zip(weights, split(units, [it[1] for it in weights])):
                    found[order.right, isrc, account] += part
                    if is_newest:
                        changing[order.right, isrc, account] += part
        return found, changing

    def paid(self) -> Units:
        found = Units()
        for pool, lines in self.ledger.credits.items():
            for isrc, account, units in lines:
                found[self.ledger.pools[pool].right, isrc, account] += units
        return found


def opened(kept: bytes) -> sqlite3.Connection:
    """An office's file as it was kept."""
    database = sqlite3.connect(":memory:")
    database.deserialize(kept)
    return database


EMPTY = pathlib.Path("/dev/null")


def order_text(it: Order) -> str:
    """An order as the list of amendments has it."""
    kind = {"kind": "MR"} if it.right == "MR" else {}
    return json.dumps({**kind, "amount": it.amount, "cut": it.cut, "returns": it.returns}, separators=(",", ":"))
