"""Random chains of an office in memory: works that come late, conflicts, owners that change, void returns, amendments, and make-ups that
are written over any copy, held back, sent late, repeated, half sent. After each step the laws of what is due are asserted.
"""

import dataclasses
import hashlib
import json
import random
import sys
from collections import Counter
from collections.abc import Callable, Sequence

from ledger import EMPTY, Due, Ledger, Order, Return, Units, Work, is_own, opened, order_text, read
from reckoning import NOBODY
from society_office.basics.errors import OfficeError
from society_office.book.copy import Copy
from society_office.book.own_returns import ROWLESS, amends
from society_office.book.stored_returns import stored_returns
from society_office.closings.amendments import Changes, amended, order_over, orders_as_due
from society_office.closings.credit import Asked, Row
from society_office.closings.dues import Dues, MakeUp
from society_office.closings.pool_kinds import Book
from society_office.decided.decisions import Amendment
from society_office.formats.return_names import Entry, entry

SENDERS = ["PB000000012", "PB000000034", "PB000000056"]
RECORDINGS = [f"ATABC26000{k:02d}" for k in range(3)]
ACCOUNTS = ["I00000000001", "I00000000002", "I00000000003", "PPB000000012A1"]
WEIGHTS = [(10_000, 10_000), (5_000, 0), (3_333, 10_000), (1, 5_000), (0, 9_999), (2_500, 2_500), (6_000, 4_000)]
AMOUNTS = [0, 1, 7, 100, 1_000, 1_001, 55_555, 1_000_000_007, 10**12]


@dataclasses.dataclass(frozen=True)
class Letter:
    """Something to be sent: a return, or an order, with what was lacking when it was written."""

    key: Return | int
    body: str
    lacked: Units | None = None
    void: frozenset[Return] = frozenset()


class Chain:
    """An office in memory, its decisions, the copies that were taken, and what was written and may be sent at any time."""

    def __init__(self, number: int) -> None:
        self.rng, self.ledger = random.Random(number), Ledger()
        self.amendments: list[tuple[int, int, Order]] = []
        self.void: set[Return] = set()
        self.lines: dict[tuple[int, str], tuple[int, int, Order]] = {}
        self.letters: list[Letter] = []
        self.copies: list[bytes] = []
        self.counts: Counter[str] = Counter()
        self.apart = self.rng.random() < 0.1
        self.over: Units = Units()

    # What happens at the office.

    def work(self, number: str) -> Work:
        rng, holders, left = self.rng, list[tuple[str, int, int]](), [10_000, 10_000]
        for _ in range(rng.choice([0, 1, 1, 2, 2, 3])):
            pair = rng.choice(WEIGHTS)
            pr, mr = min(pair[0], left[0]), min(pair[1], left[1])
            left = [left[0] - pr, left[1] - mr]
            holders.append((rng.choice([*ACCOUNTS, *ACCOUNTS, NOBODY]), pr, mr))
        isrcs = tuple(rng.sample(RECORDINGS, rng.choice([0, 1, 1, 2])))
        return Work(number, isrcs, tuple(holders))

    def send_file(self) -> None:
        sender = self.rng.choice(SENDERS)
        self.ledger.send_file(sender, [self.work(f"W{k}") for k in self.rng.sample(range(3), self.rng.randint(1, 2))])

    def send_plays(self) -> None:
        rng, key = self.rng, (self.rng.choice(["RADIO1", "TV1"]), self.rng.randint(1, 40))
        rows = [f"{rng.choice(RECORDINGS)},{rng.randint(1, 9)},{rng.randint(1, 400)}\n" for _ in range(rng.choice([0, 1, 1, 2, 3, 5]))]
        self.ledger.send_return(key, ROWLESS + "".join(rows))

    def some_cut(self) -> tuple[tuple[str, int], ...]:
        rng, found = self.rng, []
        for sender, front in self.ledger.fronts():
            if (way := rng.random()) > 0.25:
                found.append((sender, front if way > 0.5 else rng.randint(1, front)))
        return tuple(found)

    def unpaid(self) -> list[Return]:
        return [it for it in self.ledger.returns if it not in self.ledger.paid_by and not is_own(it[0])]

    def close_plays(self) -> None:
        rng, free = self.rng, [it for it in self.unpaid() if it not in self.void]
        named = tuple(sorted(rng.sample(free, min(len(free), rng.choice([0, 1, 1, 2, 2])))))
        number = next(k for k in range(1, 100) if k not in self.ledger.pools)
        if rng.random() < 0.1:
            number = rng.choice([99_999, 99_998, 99_997])
        self.ledger.close(number, Order(rng.choice(["PR", "PR", "MR"]), rng.choice(AMOUNTS), self.some_cut(), named))

    def change_void(self) -> None:
        if plays := [it for it in self.ledger.returns if not is_own(it[0])]:
            self.void ^= {self.rng.choice(plays)}

    # What staff decide and write, over a copy.

    @property
    def void_list(self) -> list[Entry]:
        return [entry(f"{it[0]}/{it[1]}", "void.txt") for it in sorted(self.void)]

    @property
    def listed(self) -> list[Amendment]:
        return [Amendment(number, pool, json.loads(order_text(it)), "amendments.txt") for number, pool, it in self.amendments]

    def copy(self) -> Copy:
        """The office as it is, or as it was some time ago."""
        self.copies.append(self.ledger.kept())
        kept = self.copies[-1] if self.rng.random() < 0.7 else self.rng.choice(self.copies[-4:])
        return Copy(EMPTY, opened(kept))

    def ask(self, asked: Sequence[Asked]) -> list[list[Row]]:
        found = []
        for it in asked:
            for one in it.parts:
                data = json.loads(one.json)
                found.append([Row(*row) for row in self.ledger.rows(read(data), data.get("isrcs"))])
        return found

    def write_amendment(self) -> None:
        copy, rng = self.copy(), self.rng
        book = Book(copy)
        orders = orders_as_due(book, self.listed, [])
        if not orders:
            return
        pool, stored = rng.choice(sorted(orders)), stored_returns(copy)
        plays = [it for it in stored.values() if it.is_play]
        ways = rng.sample(["amount", "kind", "cut", "returns"], rng.choice([1, 1, 2]))
        named = rng.sample(plays, min(len(plays), rng.randint(1, 3))) if "returns" in ways else []
        cut = [] if "cut" not in ways else ["now"] if rng.random() < 0.5 else [f"{it}={rng.randint(0, n)}" for it, n in book.newest]
        changes = Changes(
            rng.choice(AMOUNTS) if "amount" in ways else None,
            rng.choice(["PR", "MR"]) if "kind" in ways else None,
            cut,
            [entry(it.name, "--returns") for it in named],
        )
        number = book.next_number()
        should = amended(copy, orders, pool, changes, stored, self.void_list)
        own, order = (amends(pool), number), order_over(book, number, pool, should)
        self.counts["amended"] += 1
        self.amendments.append((number, pool, read(json.loads(should.json))))
        self.lines[number, order.json] = self.amendments[-1]
        self.write(Letter(own, ROWLESS), Letter(number, order.json))
        if rng.random() < 0.7:
            self.send_last()

    def take_line_out(self) -> None:
        """A line that has no pool is taken out of the list; where its pool is closed all the same, it is put back."""
        self.amendments = [it for it in self.amendments if (f"AMEND{it[1]}", it[0]) in self.ledger.paid_by]

    def write_make_up(self, copy: Copy | None = None) -> MakeUp | None:
        copy = copy or self.copy()
        book = Book(copy)
        dues = Dues(copy, book, orders_as_due(book, self.listed, self.void_list), self.ask)
        made, again = (it.make_up(self.apart) for it in (dues, Dues(copy, book, dues.orders, self.ask)))
        assert made == again
        if made is None:
            return None
        lacked = Units({(made.order.kind, *key): units for key, units in self.check_made(dues, made).items()})
        self.write(Letter(made.returned, made.body), Letter(made.number, made.order.json, lacked, frozenset(self.void)))
        return made

    def check_made(self, dues: Dues, made: MakeUp) -> Counter[tuple[str, str]]:
        """What the program would credit by an order: nothing beyond what is lacking."""
        is_stored = made.returned in self.ledger.returns
        assert self.ledger.returns.setdefault(made.returned, made.body) == made.body
        found: Counter[tuple[str, str]] = Counter()
        for it in self.ledger.rows(read(json.loads(made.order.json))):
            found[it[0], it[7]] += it[9]
        if not is_stored:
            del self.ledger.returns[made.returned]
        assert dues.beyond(made, found, self.apart) == []
        assert made.order.amount == sum(self.ledger_points(made.body).values()) > 0
        assert made.body.count("\n") <= 10_001 and made.order.amount <= 10**12
        return found

    @staticmethod
    def ledger_points(body: str) -> Counter[str]:
        found: Counter[str] = Counter()
        for line in body.splitlines()[1:]:
            isrc, plays, seconds = line.split(",")
            assert 1 <= int(plays) <= 1_000_000 and 1 <= int(seconds) <= 10_000
            found[isrc] += int(plays) * int(seconds)
        return found

    def write(self, *letters: Letter) -> None:
        self.letters += letters
        self.counts["written"] += len(letters)

    # What is sent, in any order.

    def send(self, letter: Letter) -> int:
        if isinstance(letter.key, tuple):
            return self.ledger.send_return(letter.key, letter.body)
        before = self.state()
        status = self.ledger.close(letter.key, read(json.loads(letter.body)))
        self.counts[f"sent {status}"] += 1
        if status == 201 and (line := self.lines.get((letter.key, letter.body))) is not None and line not in self.amendments:
            self.amendments = [*(it for it in self.amendments if it[0] != letter.key), line]
        if status == 201 and letter.lacked is not None:
            self.counts[f"{read(json.loads(letter.body)).returns[0][0][:3]} closed"] += 1
            self.check_paid(letter, before)
        return status

    def send_last(self) -> None:
        """Sends what was written last, in its order."""
        for it in self.letters[-2:]:
            self.send(it)

    def send_some(self) -> None:
        if self.letters and self.rng.random() < 0.5:
            self.send_last()
        elif self.letters:
            self.send(self.rng.choice(self.letters))

    # The laws.

    def state(self) -> tuple[Units, Units, Units]:
        due = Due(self.ledger, self.amendments, self.void)
        return (*due.due(), due.paid())

    def check_paid(self, letter: Letter, before: tuple[Units, Units, Units]) -> None:
        """What a make-up has paid: nobody beyond what is due, in all and of each recording, once what may change is left aside."""
        due, changing, paid = self.state()
        if letter.void != frozenset(self.void):
            return
        for key in paid.keys() | due.keys():
            if key[2] != NOBODY:
                had = before[2][key] - before[0][key] + before[1][key]
                assert paid[key] - due[key] + changing[key] <= max(0, had), (letter, key)
        if not self.apart:
            for account in {key[2] for key in paid} - {NOBODY}:
                had, has = (sum_of(it, account) for it in (before, (due, changing, paid)))
                assert has <= max(0, had), (letter, account, had, has)

    def check_dues(self) -> None:
        """What the package says is due and was paid is what the rules say."""
        copy = Copy(EMPTY, opened(self.ledger.kept()))
        book = Book(copy)
        dues = Dues(copy, book, orders_as_due(book, self.listed, self.void_list), self.ask)
        due, changing, paid = self.state()
        wanted = Units({key: due[key] - paid[key] for key in due.keys() | paid.keys()})
        assert {key: it for key, it in dues.difference.items() if it} == {key: it for key, it in wanted.items() if it}
        assert +dues.changing == +changing
        balances = dict(copy.rows("SELECT account, units FROM balances"))
        assert balances == {it: units for it, units in by_account(paid).items()}

    def step(self) -> None:
        rng = self.rng
        actions: list[tuple[Callable[[], object], float]] = [
            (self.send_file, 3),
            (self.send_plays, 3),
            (self.close_plays, 4),
            (self.change_void, 1),
            (self.write_amendment, 3),
            (self.take_line_out, 0.7),
            (self.write_make_up, 5),
            (self.send_some, 9),
        ]
        action = rng.choices([it for it, _ in actions], [weight for _, weight in actions])[0]
        try:
            action()
        except OfficeError as error:
            self.counts["refused"] += 1
            self.refusal = str(error)
            if self.rng.random() < 0.3:
                self.take_line_out()
        try:
            self.check_dues()
        except OfficeError as error:
            self.counts["not in order"] += 1
            self.counts["not in order: " + " ".join(it for it in str(error).split() if it.isalpha())[:60]] += 1

    def end(self) -> None:
        """All that is lacking is paid, as far as it can be: it ends, and what is left then nobody can be paid by a further order."""
        self.take_line_out()
        for _ in range(200):
            try:
                made = self.write_make_up(Copy(EMPTY, opened(self.ledger.kept())))
            except OfficeError as error:
                # (a return that two pools are due by, or an amendment that another order has crossed)
                self.counts["ended by a refusal"] += 1
                self.refusal = str(error)
                return
            if made is None:
                self.check_dues()
                return
            before = len(self.ledger.pools)
            assert [self.send(it) in (200, 201) for it in self.letters[-2:]].count(False) == 0
            assert len(self.ledger.pools) == before + 1
        raise AssertionError("it does not end")


def sum_of(state: tuple[Units, Units, Units], account: str) -> int:
    """What an account has beyond what is due to it, once what may change is left aside."""
    due, changing, paid = (by_account(it) for it in state)
    return paid[account] - due[account] + changing[account]


def by_account(found: Units) -> Counter[str]:
    sums: Counter[str] = Counter()
    for (_, _, account), units in found.items():
        sums[account] += units
    return sums


def run(number: int, steps: int = 40) -> Chain:
    """The chain of a number."""
    chain = Chain(number)
    for _ in range(steps):
        chain.step()
    chain.end()
    return chain


def written_by(number: int) -> str:
    """A sum of all that a chain writes."""
    return hashlib.sha256(repr([(it.key, it.body) for it in run(number).letters]).encode()).hexdigest()


if __name__ == "__main__":
    for it in range(int(sys.argv[1]), int(sys.argv[2])):
        print(it, written_by(it))
