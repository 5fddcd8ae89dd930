"""What is due and what was paid, and the next order of what is lacking.

What is due is a function of the book and of what the office has decided: each play pool is due by its order, as it was closed or as it was
amended, without void returns; a recording's units are due to the holders of the work that owns it, at the order's cut, or where none does
there, at the first later cut that has an owner. What was paid is what the book credits, whatever closed its pools. Of what is lacking there
is one next order, a make-up, whose number makes it the only one that can follow: whatever is written over one copy, or over copies in which
the same make-ups and amendments are closed, has the same number, so that the office closes one and answers `reused` to every other.
"""

import bisect
import collections
import dataclasses
import itertools
import json
from collections.abc import Iterable, Iterator, Mapping, Sequence

from society_office.basics.errors import OfficeError
from society_office.book.copy import Copy
from society_office.book.own_returns import DUE, LATE, reporter_of, return_of, unit_rows
from society_office.closings.credit import Ask, Asked, Row, closed
from society_office.closings.orders import LARGEST_AMOUNT, MOST_SENDERS, Order
from society_office.closings.pool_kinds import Book, Cut
from society_office.credits.lines import NO_RECORDING
from society_office.formats.plays import MOST_ROWS, points
from society_office.formats.return_names import Return
from society_office.works.records import UNCLAIMED

# A right, a recording, an account.
Key = tuple[str, str, str]
Units = collections.Counter[Key]
# The accounts to which a recording's units go, each with its weight, in the order of their lines.
Weights = Sequence[tuple[str, int]]
# Credits to nobody alone, which leave open whether a work owns the recording: its only line in its pool.
OPEN = f"""SELECT c.pool, c.isrc, c.units FROM credits c WHERE c.account = '{UNCLAIMED}' AND c.units > 0 AND NOT EXISTS
  (SELECT 1 FROM credits o WHERE o.pool = c.pool AND o.line IN (c.line - 1, c.line + 1) AND o.isrc = c.isrc)"""


@dataclasses.dataclass(frozen=True)
class Way:
    """How a further pool could pay: the right, the reporter of its return, its cut, and whether an owner there may still change, since
    the cut is the newest and no make-up has paid by it."""

    right: str
    reporter: str
    cut: Cut
    may_change: bool = False

    @property
    def place(self) -> tuple[str, bool, str, bool]:
        """Where it stands among ways that pay the same units."""
        return self.right, self.reporter != LATE, json.dumps(self.cut), self.may_change


@dataclasses.dataclass(frozen=True)
class MakeUp:
    """The next order with its number, its return with what that comes to, and how it pays."""

    number: int
    order: Order
    returned: Return
    body: str
    way: Way


class Dues:
    """What is due by a copy and by decisions, beside what was paid."""

    def __init__(self, copy: Copy, book: Book, orders: Mapping[int, Order], ask: Ask) -> None:
        """Asks the program once: by orders that are not as they were closed, and for what nobody owned at its cut at later ones."""
        self.copy, self.book, self.orders = copy, book, orders
        # What is due less what was paid, also by the pool that makes it due; and what of it is due to owners that may still change.
        self.by_pool: dict[int, Units] = collections.defaultdict(Units)
        self.difference, self.changing = Units(), Units()
        self.weights: dict[Way, dict[str, Weights]] = collections.defaultdict(dict)
        self.changed = {it for it, order in orders.items() if order != book.orders[it]}
        self.open: dict[int, dict[str, int]] = {it: {} for it in orders}
        for pool, isrc, units in copy.rows(OPEN):
            if pool in orders and pool not in self.changed and isrc != NO_RECORDING:
                self.open[pool][isrc] = units
        self.late = {right: [(tuple(book.orders[it].cut), named_by(copy, it)) for it in book.late(right)] for right in ("PR", "MR")}
        self.newest = dict(self.newest_cuts()) if len(book.newest) > MOST_SENDERS else {}
        self.add_due(ask)
        self.take_paid()

    def newest_cuts(self) -> Iterator[tuple[str, Cut]]:
        """Where more senders have files than a cut has: for each recording that may be asked for the newest cut over those that name it."""
        isrcs = {it for listed in self.open.values() for it in listed}
        for pool in self.changed:
            isrcs |= {isrc for key in self.orders[pool].returns for isrc in points(body_of(self.copy, key))}
        group, own = set[str](), list[str]()
        for isrc in sorted(isrcs):
            senders = {it[0] for it in self.copy.rows("SELECT DISTINCT sender FROM recordings WHERE isrc = ?", isrc)}
            if len(group | senders) > MOST_SENDERS:
                yield from ((it, cut_over(self.book.newest, group)) for it in own)
                group, own = set(), []
            # (one that more senders have named than a cut has is nobody's)
            if len(senders) <= MOST_SENDERS:
                group, own = group | senders, [*own, isrc]
        yield from ((it, cut_over(self.book.newest, group)) for it in own)

    def ways(self, pool: int) -> Iterator[tuple[Way, list[str] | None]]:
        """The cuts at which a pool's recordings may have an owner, in their order, each with the recordings to ask for."""
        right, wanted = self.orders[pool].kind, None if pool in self.changed else sorted(self.open[pool])
        if wanted == []:
            return
        yield Way(right, DUE, tuple(self.orders[pool].cut)), wanted
        for cut, named in self.late[right]:
            if isrcs := sorted(named if wanted is None else named.intersection(wanted)):
                yield Way(right, LATE, cut), isrcs
        if len(self.book.newest) <= MOST_SENDERS:
            yield Way(right, LATE, self.book.newest, True), wanted
            return
        by_cut: dict[Cut, list[str]] = collections.defaultdict(list)
        for isrc in self.newest if wanted is None else filter(self.newest.__contains__, wanted):
            by_cut[self.newest[isrc]].append(isrc)
        yield from ((Way(right, LATE, cut, True), isrcs) for cut, isrcs in by_cut.items())

    def add_due(self, ask: Ask) -> None:
        """Adds what is due otherwise than it was credited, pool after pool."""
        asked = [(pool, way, isrcs) for pool in self.orders for way, isrcs in self.ways(pool)]
        answers = ask([Asked(dataclasses.replace(self.orders[pool], cut=list(way.cut)), isrcs) for pool, way, isrcs in asked])
        for pool, listed in itertools.groupby(zip(asked, answers), key=lambda it: it[0][0]):
            found: dict[str, tuple[Way, list[Row]]] = {}
            for (_, way, _), rows in listed:
                for isrc, own in itertools.groupby(rows, key=lambda it: it.isrc):
                    group = list(own)
                    # (the first cut that has an owner counts; where none has, the order's own)
                    if isrc not in found or group[0].sender and not found[isrc][1][0].sender:
                        found[isrc] = way, group
            self.add_pool(pool, found)

    def add_pool(self, pool: int, found: Mapping[str, tuple[Way, list[Row]]]) -> None:
        """Adds what is due of the recordings of a pool, less what it has credited itself, and how a further pool pays what then differs."""
        differs, changing = self.credited(pool) if pool in self.changed else Units(), Units()
        late = {isrc: it for isrc, it in found.items() if pool in self.changed or it[0].reporter == LATE}
        for isrc, (way, rows) in late.items():
            for it in rows:
                differs[way.right, isrc, it.account] += it.part
                if way.may_change:
                    changing[way.right, isrc, it.account] += it.part
            if pool not in self.changed:
                differs[way.right, isrc, UNCLAIMED] -= self.open[pool][isrc]
        self.by_pool[pool] = Units({key: units for key, units in differs.items() if units})
        self.changing.update(changing)
        for isrc in {key[1] for key in self.by_pool[pool]} & late.keys():
            self.weights[late[isrc][0]][isrc] = [(it.account, it.weight) for it in late[isrc][1]]

    def credited(self, pool: int) -> Units:
        """What a pool has credited, as taken off."""
        question = "SELECT isrc, account, sum(units) FROM credits WHERE pool = ? AND units > 0 GROUP BY isrc, account"
        right = self.book.orders[pool].kind
        return Units({(right, isrc, account): -units for isrc, account, units in self.copy.rows(question, pool)})

    def take_paid(self) -> None:
        """Takes off what was paid by pools that are no play pools."""
        for pool, order in self.book.orders.items():
            if order.amount and pool not in self.orders:
                self.by_pool[pool] = self.credited(pool)
        for found in self.by_pool.values():
            self.difference.update(found)
        self.difference = Units({key: units for key, units in self.difference.items() if units})

    def lacking(self, way: Way, isrc: str, account: str) -> int:
        """What an account lacks of a recording, as far as a way pays it: what is due to an owner that may change only the newest cut."""
        key = (way.right, isrc, account)
        return max(0, self.difference[key] - (0 if way.may_change else self.changing[key]))

    def need_of_all(self) -> collections.Counter[str]:
        """What accounts lack in all, less what they have too much of."""
        found: collections.Counter[str] = collections.Counter()
        for (_, _, account), units in self.difference.items():
            found[account] += units
        return found

    def needed(self, way: Way, isrcs: Iterable[str] = ()) -> collections.Counter[str]:
        """The same, as far as a way pays it; of what is due to owners that may change only that of these recordings."""
        found = self.need_of_all()
        named = {*isrcs} if way.may_change else set()
        for (right, isrc, account), units in self.changing.items():
            if right != way.right or isrc not in named:
                found[account] -= units
        return found

    def chosen(self, way: Way, apart: bool) -> dict[str, int]:
        """The units of each recording that a way pays."""
        need, found, left, rows = self.needed(way), dict[str, int](), LARGEST_AMOUNT, MOST_ROWS
        for isrc, weights in sorted(self.weights[way].items()):
            added = {it: self.changing[way.right, isrc, it] if way.may_change else 0 for it, _ in weights}
            rooms = {it: self.lacking(way, isrc, it) for it, _ in weights}
            for it in () if apart else rooms.keys() - {UNCLAIMED}:
                rooms[it] = max(0, min(rooms[it], need[it] + added[it]))
            units = 0 if isrc == NO_RECORDING else fitting(weights, rooms, left)
            if not units:
                continue
            if (count := sum(1 for _ in unit_rows(isrc, units))) > rows:
                break
            found[isrc], left, rows = units, left - units, rows - count
            need.update(added)
            need.subtract(shared(units, weights))
        return found

    def make_up(self, apart: bool = False) -> MakeUp | None:
        """The next order, of the way that pays most; None where nothing can be paid. With `apart`, what somebody has too much of one
        recording is not set off against what it lacks of another."""
        found = [(way, units) for way in self.weights if (units := self.chosen(way, apart))]
        if not found:
            return None
        way, units = min(found, key=lambda it: (-sum(it[1].values()), it[0].place))
        number, body = self.book.next_number(), return_of(units)
        returned = reporter_of(way.reporter, body), number
        return MakeUp(number, Order(way.right, sum(units.values()), list(way.cut), [returned]), returned, body, way)

    def beyond(self, made: MakeUp, credits: Mapping[tuple[str, str], int], apart: bool = False) -> list[str]:
        """What credits of a make-up, by recording and account, pass: what an account lacks of a recording, or in all."""
        way = made.way
        held = {key: units for key, units in credits.items() if key[1] != UNCLAIMED}
        found = [
            f"{units:,} units of {isrc} to {account}, which lacks {self.lacking(way, isrc, account):,} of it"
            for (isrc, account), units in sorted(held.items())
            if units > self.lacking(way, isrc, account)
        ]
        need, sums = self.needed(way, {isrc for isrc, _ in credits}), collections.Counter[str]()
        for (_, account), units in held.items():
            sums[account] += units
        if not apart:
            passed = [it for it in sorted(sums) if sums[it] > max(0, need[it])]
            found += [f"{sums[it]:,} units to {it}, which lacks {max(0, need[it]):,} in all" for it in passed]
        return found


def need_within(dues: Dues, made: MakeUp, program: str, apart: bool) -> None:
    """Has the program close a make-up over a throw-away copy's files and returns; an OfficeError where its credits pass what is lacking."""
    credits = closed(program, dues.copy, made.number, made.order, made.returned, made.body)
    if passed := dues.beyond(made, credits, apart):
        raise OfficeError(f"nothing was written, since the program would pay beyond what is due: {'; '.join(passed)}")


def body_of(copy: Copy, it: Return) -> bytes:
    """The bytes of a return."""
    return bytes(copy.row("SELECT body FROM returns WHERE reporter = ? AND number = ?", *it)[0])


def named_by(copy: Copy, pool: int) -> set[str]:
    """The recordings that a pool's returns name."""
    question = "SELECT body FROM returns JOIN pool_returns USING (reporter, number) WHERE pool = ?"
    return {isrc for (body,) in copy.rows(question, pool) for isrc, units in points(bytes(body)).items() if units}


def cut_over(newest: Cut, senders: set[str]) -> Cut:
    """A cut over some senders alone."""
    return tuple(it for it in newest if it[0] in senders)


def shared(units: int, weights: Weights) -> collections.Counter[str]:
    """What accounts would get of a recording's units: whole parts, and the units that are left one by one by the greatest remainders."""
    whole, found = sum(weight for _, weight in weights), collections.Counter[str]()
    ordered = sorted(weights, key=lambda it: -(units * it[1] % whole))
    left = units - sum(units * weight // whole for _, weight in weights)
    for place, (account, weight) in enumerate(ordered):
        found[account] += units * weight // whole + (place < left)
    return found


def fitting(weights: Weights, rooms: Mapping[str, int], most: int) -> int:
    """The units of a recording: all that is lacking, where its split is just that; else as many as give no holder more than its room,
    however last units fall, and where nobody's share is more than a half, nobody more than it lacks there."""
    lacking, whole = sum(rooms.values()), sum(weight for _, weight in weights)
    if lacking <= most and +shared(lacking, weights) == +collections.Counter(rooms):
        return lacking
    lines: dict[str, list[int]] = collections.defaultdict(list)
    for account, weight in weights:
        lines[account].append(weight)
    if 2 * (nobodys := sum(lines.pop(UNCLAIMED, []))) > whole:
        most = min(most, rooms[UNCLAIMED] * whole // nobodys)

    def passes(units: int) -> bool:
        return any(sum(-(-units * it // whole) for it in own) > rooms[account] for account, own in lines.items())

    return bisect.bisect_left(range(most + 1), True, key=passes) - 1
