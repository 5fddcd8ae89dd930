"""Orders that close pools: one proposed out of a copy, with what it leaves out."""

import dataclasses
import json
from collections.abc import Callable, Iterator, Mapping, Sequence

from society_office.basics.errors import OfficeError
from society_office.book.copy import Copy
from society_office.book.own_returns import is_numbered_down
from society_office.book.stored_returns import Stored, far_ones, same_plays, stored_returns
from society_office.formats.numbering import as_json, as_sent, rank_of
from society_office.formats.return_names import Entry, Return, are_listed, names_text, unmatched

MOST_SENDERS, MOST_RETURNS = 200, 1_000
LARGEST_AMOUNT = 1_000_000_000_000
LAST_POOL = 99_999


@dataclasses.dataclass(frozen=True)
class LeftOut:
    """Returns that the order does not name, and why."""

    returns: tuple[Return, ...]
    why: str


@dataclasses.dataclass(frozen=True)
class Order:
    """An order that closes a pool."""

    kind: str
    amount: int
    cut: list[tuple[str, int]]
    returns: list[Return]

    @property
    def json(self) -> str:
        """The order as it is sent."""
        kind = {"kind": self.kind} if self.kind != "PR" else {}
        cut = [[sender, as_json(number)] for sender, number in self.cut]
        return json.dumps(
            {**kind, "amount": self.amount, "cut": cut, "returns": [list(it) for it in self.returns]},
            separators=(",", ":"),
        )


@dataclasses.dataclass(frozen=True)
class Proposal:
    """An order, what it leaves out, what is to be said of it, and the first pool number that is free."""

    order: Order
    left_out: list[LeftOut]
    remarks: list[str]
    pool: int


@dataclasses.dataclass(frozen=True)
class Wanted:
    """What a proposed order is to name: these returns, or all where none are given; how far it counts files, where not all that are
    applied; and whether it is to name no return or no file."""

    returns: Sequence[Entry] = ()
    cut: Sequence[str] = ()
    no_returns: bool = False
    no_files: bool = False


def cut_of(copy: Copy) -> Iterator[tuple[str, int]]:
    """The last applied file of each sender that has one."""
    for line in copy.lines():
        if applied := line.applied:
            yield line.sender, applied[-1]


def changed_cut(copy: Copy, cut: Sequence[tuple[str, int]], words: Sequence[str]) -> list[tuple[str, int]]:
    """A cut with the changes `PB000000012=3`, `PB000000012=26-0002`, `PB000000012=0` (not counted) or `now`; an OfficeError for others."""
    found, changed = dict(cut), set[str]()
    for word in words:
        sender, _, number = word.partition("=")
        rank = rank_of(number)
        if word == "now":
            found = dict(cut_of(copy))
        elif rank is None or (line := copy.line(sender)) is None:
            raise OfficeError(
                f"--cut: {word!r} is no sender with a number, as PB000000012=3, nor `now`; or nothing of this sender has come"
            )
        elif rank > line.front:
            raise OfficeError(f"--cut: {sender} has all files up to {as_sent(line.front)} only: cut it there, or lower")
        elif sender in changed:
            raise OfficeError(f"--cut: {sender} is cut twice: name it once")
        elif rank == 0:
            found.pop(sender, None)
        else:
            found[sender] = rank
        changed.add(sender)
    return sorted(found.items())


def free_pool(copy: Copy) -> int:
    """The number behind the last pool, the office's own aside, whose numbers go down; or the least that is free where that has the greatest
    number. An OfficeError where none is."""
    own = copy.rows("SELECT DISTINCT pool, reporter FROM pool_returns WHERE number = pool")
    used, down = copy.pools(), {pool for pool, reporter in own if is_numbered_down(reporter)}
    if (following := max(used.keys() - down, default=0) + 1) <= LAST_POOL and following not in used:
        return following
    if (least := next((it for it in range(1, LAST_POOL + 1) if it not in used), None)) is None:
        raise OfficeError(f"all pool numbers up to {LAST_POOL:,} are used")
    return least


def pool_for(copy: Copy, order: bytes) -> int:
    """The number of the pool that an order closes: of the office itself that of its own returns, of any other the next free one."""
    try:
        numbers = {int(number) for reporter, number in json.loads(order)["returns"] if is_numbered_down(str(reporter))}
    except (ValueError, TypeError, KeyError, RecursionError):
        numbers = set()
    [own] = numbers if len(numbers) == 1 else [0]
    return own if 1 <= own <= LAST_POOL else free_pool(copy)


def why_not(it: Stored, void: Sequence[Entry]) -> str:
    """Why a return can't be named by an order; the empty text where it can."""
    if not it.is_play:
        return "a return of the office itself, which has an order of its own"
    if it.pool:
        return f"paid by pool {it.pool}"
    return "void" if are_listed(void, it.key) else ""


# Why a return can't be named; the empty text where it can.
Why = Callable[[Stored], str]


def reasons(found: Sequence[Stored], why: Why) -> str:
    """Why these returns can't be named, grouped by their reasons."""
    by_reason: dict[str, list[Return]] = {}
    for it in found:
        by_reason.setdefault(why(it), []).append(it.key)
    return "; ".join(f"{names_text(listed)}: {reason}" for reason, listed in by_reason.items())


def wrong_entry(one: Entry, stored: Mapping[Return, Stored], why: Why) -> str:
    """What is wrong with returns that were asked for; the empty text where nothing is."""
    found = [it for key, it in stored.items() if one.has(key)]
    barred = [it for it in found if why(it)]
    if not found:
        return f"{one.told}: no such return is stored"
    if not one.ranges:
        return f"{one.told}: none of its returns can be named: {reasons(barred, why)}" if len(barred) == len(found) else ""
    numbers = {number for first, last in one.ranges for number in range(first, last + 1)}
    lacking = numbers - {it.number for it in found}
    told = [f"{names_text((one.reporter, it) for it in lacking)}: not stored"] if lacking else []
    told += [reasons(barred, why)] if barred else []
    return f"{one.told}: " + "; ".join(told) if told else ""


def refuse_wrong(wanted: Sequence[Entry], stored: Mapping[Return, Stored], why: Why) -> None:
    """An OfficeError where a return was asked for that is unknown, or can't be named."""
    if wrong := [told for one in wanted if (told := wrong_entry(one, stored, why))]:
        raise OfficeError("; ".join(wrong))


def void_remarks(void: Sequence[Entry], stored: Mapping[Return, Stored]) -> Iterator[str]:
    """What is said of void returns: entries that name none that is stored, and those that a pool has paid."""
    for one in unmatched(void, stored):
        yield f"{one.told}: no such return is stored"
    paid: dict[int, list[Return]] = {}
    for it in stored.values():
        if it.is_play and it.pool and are_listed(void, it.key):
            paid.setdefault(it.pool, []).append(it.key)
    for pool, listed in sorted(paid.items()):
        yield f"pool {pool} has paid what is void: {names_text(listed)}; `society-office dues` tells who has too much by it"


def sort_returns(
    stored: Mapping[Return, Stored], rights: Mapping[int, str], kind: str, wanted: Wanted, void: Sequence[Entry]
) -> tuple[list[Stored], list[LeftOut], list[str]]:
    """The unpaid returns that an order of this kind names, those that it leaves out, and what is said of those that it names."""
    left: dict[str, list[Return]] = {}
    asked = []
    for it in stored.values():
        if it.pool or not it.is_play:
            continue
        if are_listed(void, it.key):
            left.setdefault("void", []).append(it.key)
        elif wanted.no_returns or wanted.returns and not are_listed(wanted.returns, it.key):
            left.setdefault("not asked for", []).append(it.key)
        else:
            asked.append(it)
    doubled = list(same_plays(asked, stored, rights, kind))
    twice = {one.it.key: one for one in doubled if one.right in ("", kind)}
    for one in twice.values():
        left.setdefault(one.why, []).append(one.it.key)
    remarks = [f"{one.it.name} has {one.why}: right only where it is to be paid in both" for one in doubled if one.it.key not in twice]
    named = [it for it in asked if it.key not in twice]
    return named, [LeftOut(tuple(listed), why) for why, listed in left.items()], remarks


def propose(copy: Copy, amount: int, kind: str, wanted: Wanted, void: Sequence[Entry]) -> Proposal:
    """An order over all files that are applied and all returns that no pool has paid; an OfficeError where it can be none."""
    copy.need_derived()
    if not 0 <= amount <= LARGEST_AMOUNT:
        raise OfficeError(f"an amount is 0 to {LARGEST_AMOUNT:,} units")
    stored = stored_returns(copy)
    refuse_wrong(wanted.returns, stored, lambda it: why_not(it, void))
    cut = [] if wanted.no_files else changed_cut(copy, list(cut_of(copy)), wanted.cut)
    named, left, remarks = sort_returns(stored, copy.rights(), kind, wanted, void)
    if len(cut) > MOST_SENDERS:
        raise OfficeError(
            f"{len(cut):,} senders have files, and a cut has {MOST_SENDERS} at most: write the order by hand, in several pools"
        )
    if len(named) > MOST_RETURNS:
        remarks.append(
            f"{len(named) - MOST_RETURNS:,} more returns are unpaid: an order names {MOST_RETURNS:,} at most, so close a further pool"
        )
        named = named[:MOST_RETURNS]
    remarks += far_ones(named, stored, void)
    remarks += void_remarks(void, stored)
    remarks += [f"{it.sender} has files that wait, which this order does not count" for it in copy.lines() if it.waiting]
    return Proposal(Order(kind, amount, cut, [it.key for it in named]), left, remarks, free_pool(copy))


def refuse_empty(it: Order, wanted: Wanted) -> None:
    """An OfficeError where an order would throw its amount away and that was not asked for."""
    if not it.returns and not wanted.no_returns:
        raise OfficeError(
            "no return can be named, so all of the amount would go to UNCLAIMED: no order was written (--no-returns asks for such a one)"
        )
    if not it.cut and not wanted.no_files:
        raise OfficeError("no file would count, so all of the amount would go to UNCLAIMED: no order was written (--no-files asks for it)")
