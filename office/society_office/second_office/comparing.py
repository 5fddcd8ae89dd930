"""Whether two files hold the same book and the same answers: the rows of both, kind by kind, merged in the order of their keys."""

import dataclasses
import hashlib
import itertools
import os
from collections.abc import Callable, Iterable, Iterator
from typing import Any

from society_office.book.copy import Copy
from society_office.formats.numbering import as_json, as_sent, counted, segment_text

# A row: what it is about, and what is said of that.
Row = tuple[tuple[Any, ...], Any]
# So many characters are shown of a value, and so many before the place at which two long ones differ.
MOST_SHOWN, LEAD = 120, 30
# Rows that are compared at once.
MANY = 1_000


@dataclasses.dataclass(frozen=True)
class Difference:
    """Of one kind, in how many places two offices differ, and the first: where, and what each has there (None: nothing)."""

    kind: str
    count: int
    place: str
    values: tuple[Any, Any]

    def line(self, names: tuple[str, str]) -> str:
        """One line, with the names of both."""
        has = "; ".join(f"{name} has {value}" for name, value in zip(names, where_they_differ(*map(shown, self.values))))
        return f"{self.kind}: {counted(self.count, 'difference')}; first {self.place}: {has}"


def shown(value: Any) -> str:
    """A value in few words; of bytes their count and the beginning of their SHA-256."""
    if value is None:
        return "none"
    if isinstance(value, bytes):
        return f"{counted(len(value), 'byte')} ({hashlib.sha256(value).hexdigest()[:12]})"
    return str(value)


def where_they_differ(one: str, other: str) -> tuple[str, str]:
    """Both texts, long ones from shortly before the place where they differ."""
    same = len(os.path.commonprefix([one, other]))
    start = max(0, same - LEAD) if max(len(one), len(other)) > MOST_SHOWN else 0
    first, second = (
        (".." if start else "") + it[start : start + MOST_SHOWN] + (".." if it[start + MOST_SHOWN :] else "") for it in (one, other)
    )
    return first, second


def differences(kind: str, name: Callable[..., str], one: Iterable[Row], other: Iterable[Row]) -> Iterator[Difference]:
    """The difference of one kind, where there is one; the rows of each side ascend by their keys, and `name` makes a key a text."""
    count, first = 0, None
    for key, values in unequal(iter(one), iter(other)):
        count, first = count + 1, first or (key, values)
    if first:
        yield Difference(kind, count, name(*first[0]), first[1])


def unequal(one: Iterator[Row], other: Iterator[Row]) -> Iterator[tuple[tuple[Any, ...], tuple[Any, Any]]]:
    """The keys at which two ascending runs differ, with what each has there."""
    a, b = next(one, None), next(other, None)
    while a is not None or b is not None:
        if a == b:
            a, b = next(one, None), next(other, None)
        elif b is None or (a is not None and a[0] < b[0]):
            assert a is not None
            yield a[0], (a[1], None)
            a = next(one, None)
        elif a is None or b[0] < a[0]:
            yield b[0], (None, b[1])
            b = next(other, None)
        else:
            yield a[0], (a[1], b[1])
            a, b = next(one, None), next(other, None)


def keyed(rows: Iterable[Any], width: int) -> Iterator[Row]:
    """Rows whose first columns are their keys."""
    return ((it[:width], it[width] if len(it) == width + 1 else it[width:]) for it in rows)


def offices(copy: Copy) -> Iterator[Row]:
    """Whose book it is."""
    yield (), (copy.society, copy.territory, copy.name)


def files(copy: Copy) -> Iterator[Row]:
    """The bytes of each file."""
    return keyed(copy.rows("SELECT sender, number, body FROM transmissions ORDER BY sender, number"), 2)


def ends(copy: Copy) -> Iterator[Row]:
    """The end of each segment, and the next one."""
    if copy.layout >= 3:
        yield from keyed(copy.rows("SELECT sender, segment, last, next FROM segment_ends ORDER BY sender, segment"), 2)


def returns(copy: Copy) -> Iterator[Row]:
    """The bytes of each return."""
    return keyed(copy.rows("SELECT reporter, number, body FROM returns ORDER BY reporter, number"), 2)


def orders(copy: Copy) -> Iterator[Row]:
    """The order of each pool, in which neither the order of its senders nor of its returns counts."""
    rights, cuts = copy.rights(), copy.cuts()
    paid: dict[int, list[list[Any]]] = {}
    for pool, *one in copy.rows("SELECT pool, reporter, number FROM pool_returns ORDER BY reporter, number"):
        paid.setdefault(pool, []).append(one)
    for pool, amount in copy.pools().items():
        cut = [[sender, as_json(number)] for sender, number in sorted(cuts[pool].items())]
        yield (pool,), {"kind": rights[pool], "amount": amount, "cut": cut, "returns": paid.get(pool, [])}


def fronts(copy: Copy) -> Iterator[Row]:
    """The front of each sender, and how many works it has."""
    for sender, front, works in copy.rows("SELECT sender, front, works FROM fronts ORDER BY sender"):
        yield (sender,), f"{as_sent(front)} with {counted(works, 'work')}"


def held(copy: Copy) -> Iterator[Row]:
    """The numbers of each sender that are held: those that wait, and those that are never applied."""
    for line in copy.lines():
        if numbers := sorted(line.waiting + line.skipped):
            yield (line.sender,), [as_json(it) for it in numbers]


def verdict(sender: str, number: int, place: int, fault: int, ordinal: int, revision: int) -> Row:
    """What became of a registration or a revision."""
    return (sender, number, place), f"fault {fault}" if fault else f"revision {revision} of the work with ordinal {ordinal}"


def version(sender: str, work: str, revision: int, number: int, place: int, ordinal: int) -> Row:
    """Where a version of a work stands."""
    return (sender, work, revision), f"ordinal {ordinal}, in transaction {place + 1} of file {as_sent(number)}"


def recording(*it: Any) -> Row:
    """A recording that a version of a work names."""
    return it, "it"


def credit(pool: int, line: int, isrc: str, account: str, units: int) -> Row:
    """A line of a pool."""
    return (pool, line), (isrc, account, units)


def balance(account: str, units: int) -> Row:
    """The units of an account."""
    return (account,), units


def unlike(one: Copy, other: Copy, question: str) -> tuple[Iterator[Any], Iterator[Any]]:
    """The rows of a table of two copies without those that both begin with: these are compared by thousands, as SQLite has them."""
    here, there = one.blocks(question, MANY), other.blocks(question, MANY)
    nothing: list[Any] = []
    for some, others in itertools.zip_longest(here, there, fillvalue=nothing):
        if some != others:
            return chained(some, here), chained(others, there)
    return iter(()), iter(())


def chained(some: list[Any], blocks: Iterator[list[Any]]) -> Iterator[Any]:
    """Rows, and those of the blocks behind them."""
    return itertools.chain(some, itertools.chain.from_iterable(blocks))


def file_name(sender: str, number: int) -> str:
    """A file, as it is told."""
    return f"{sender} {as_sent(number)}"


# Each kind, how a key of it is told, and its rows: what came, then what follows from it. An acknowledgement follows from the office's name,
# the file and its verdicts.
KINDS: list[tuple[str, Callable[..., str], Callable[[Copy], Iterator[Row]]]] = [
    ("office", lambda: "its society, territory and name", offices),
    ("files", file_name, files),
    ("ends", lambda sender, segment: f"{sender} {segment_text(segment)}", ends),
    ("returns", lambda reporter, number: f"{reporter}/{number}", returns),
    ("orders", lambda pool: f"pool {pool}", orders),
    ("fronts", str, fronts),
    ("held numbers", str, held),
]
# Those of very many rows: how a key is told, what a row says, and the question.
TABLES: list[tuple[str, Callable[..., str], Callable[..., Row], str]] = [
    (
        "verdicts",
        lambda sender, number, place: f"{file_name(sender, number)}, transaction {place + 1}",
        verdict,
        "SELECT sender, number, place, fault, ordinal, revision FROM verdicts ORDER BY sender, number, place",
    ),
    (
        "works",
        lambda sender, work, revision: f"{sender} {work}, revision {revision}",
        version,
        "SELECT sender, work, revision, number, place, ordinal FROM versions ORDER BY sender, work, revision",
    ),
    (
        "recordings",
        lambda sender, work, revision, isrc: f"{sender} {work}, revision {revision}, {isrc}",
        recording,
        "SELECT sender, work, revision, isrc FROM recordings ORDER BY sender, work, revision, isrc",
    ),
    (
        "credits",
        lambda pool, line: f"pool {pool}, line {line + 1}",
        credit,
        "SELECT pool, line, isrc, account, units FROM credits ORDER BY pool, line",
    ),
    ("balances", str, balance, "SELECT account, units FROM balances ORDER BY account"),
]


def compare(one: Copy, other: Copy) -> list[Difference]:
    """The first difference of each kind of two copies, of layout 2 or 3 each; none where they hold the same book and answer the same."""
    found = [it for kind, name, rows in KINDS for it in differences(kind, name, rows(one), rows(other))]
    for kind, name, row, question in TABLES:
        found += differences(kind, name, *(itertools.starmap(row, it) for it in unlike(one, other, question)))
    return found


def summary(copy: Copy) -> str:
    """How much a copy holds."""
    tables = {"transmissions": "file", "returns": "return", "pools": "pool", "credits": "credit"}
    return ", ".join(counted(copy.row(f"SELECT count(*) FROM {table}")[0], noun) for table, noun in tables.items())
