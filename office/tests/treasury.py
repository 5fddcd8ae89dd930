"""A treasurer at a random office, and a reckoning of its own of what each member is owed; nothing of the package is used to reckon.

What pools credit comes from reckoning.py. A part of an amount is rounded to the next unit, halves up. What is owed is summed anew from what
was booked, deducted, adjusted, ordered and sent back, so that a line that is lost or told twice is noticed.
"""

import copy
import dataclasses
import datetime
import os
import pathlib
import random
import re
from collections import Counter

import reckoning
from answers import rows_of
from command import run
from office_value import Office

DAY = datetime.date(2026, 1, 1)
LENGTHS = {"AT": 20, "DE": 22, "FR": 27, "NO": 15, "MT": 31}
NAMES = ["Anna Writer", "Ödön Ärger & Söhne", "Søren <b>Å</b>", "Łukasz //Żółć//", "Борис Композер", "Ὀδυσσεύς 3", '"; DROP "', "O'Neil"]
CLASSES = ["", "domestic", "foreign"]
HEADER = "member,name,street,postcode,town,country,language,iban,bic,minimum,tax,email,accounts\n"


def iban(rng: random.Random) -> str:
    """A right IBAN, by ISO 13616."""
    country = rng.choice(sorted(LENGTHS))
    letters = "0123456789" if country in ("AT", "DE", "NO") else "0123456789ABCXYZ"
    account = "".join(rng.choice(letters) for _ in range(LENGTHS[country] - 4))
    digits = "".join(str(int(it, 36)) for it in f"{account}{country}00")
    return f"{country}{98 - int(digits) % 97:02d}{account}"


@dataclasses.dataclass
class Person:
    """A member as the treasurer knows it."""

    key: str
    name: str
    iban: str
    minimum: int
    tax: str
    accounts: list[tuple[str, datetime.date | None]]

    def row(self) -> str:
        """As members.csv has it."""
        told = [(account.replace(";", r"\;"), since) for account, since in self.accounts]
        listed = "; ".join(f"{it} from {since}" if since else it for it, since in told)
        cells = [self.key, self.name, "Road 1", "1010", "Town", "AT", "de", self.iban, "", str(self.minimum or ""), self.tax, "", listed]
        return ",".join('"' + it.replace('"', '""') + '"' for it in cells) + "\n"


@dataclasses.dataclass
class Rule:
    """A deduction: a part in hundredths of a percent of gross or rest, or fixed units; and whom it is of."""

    name: str
    part: int
    fixed: int
    of_gross: bool
    right: str
    first_pool: int
    tax: str

    def line(self) -> str:
        """As deductions.txt has it."""
        part = f"{self.part // 100}.{self.part % 100:02d} % of {'gross' if self.of_gross else 'rest'}"
        what = f"{self.fixed} units" if self.fixed else part
        limits = [f"right {self.right}"] * bool(self.right) + [f"from pool {self.first_pool}"] + [f"tax {self.tax}"] * bool(self.tax)
        return f"{self.name}: {'; '.join([what, *limits])}\n"


@dataclasses.dataclass
class Book:
    """What was booked and became of it, as the treasurer would have it on paper."""

    credited: dict[tuple[int, str], tuple[str, int]] = dataclasses.field(default_factory=dict)
    days: dict[int, datetime.date] = dataclasses.field(default_factory=dict)
    deducted: Counter[tuple[int, str, str]] = dataclasses.field(default_factory=Counter)
    adjusted: list[tuple[str, int]] = dataclasses.field(default_factory=list)
    orders: list[dict[str, int]] = dataclasses.field(default_factory=list)
    confirmed: set[tuple[int, str]] = dataclasses.field(default_factory=set)
    returned: set[tuple[int, str]] = dataclasses.field(default_factory=set)

    def owed(self, member: str) -> int:
        """Credited, less deducted, with adjustments, less ordered, with what came back."""
        found = sum(units for to, units in self.credited.values() if to == member)
        found -= sum(units for (_, of, _), units in self.deducted.items() if of == member)
        found += sum(units for of, units in self.adjusted if of == member)
        found -= sum(it.get(member, 0) for it in self.orders)
        return found + sum(self.orders[batch - 1][member] for batch, of in self.returned if of == member)

    def members(self) -> set[str]:
        """All of whom there is a line."""
        return {to for to, _ in self.credited.values()} | {it for it, _ in self.adjusted}

    def open(self) -> list[tuple[int, str]]:
        """The orders of which the bank has told nothing."""
        every = [(batch, of) for batch, orders in enumerate(self.orders, 1) for of in orders]
        return [it for it in every if it not in self.confirmed | self.returned]


class Treasurer:
    """A treasurer who takes copies of an office one after another, changes members and rules, pays, and hears of the bank."""

    def __init__(self, number: int, office: Office, folder: pathlib.Path, decided: pathlib.Path) -> None:
        self.rng, self.office, self.folder, self.decided = random.Random(number), office, folder, decided
        self.book, self.pools, self.path = Book(), list[int](), pathlib.Path()
        self.per, self.least = self.rng.choice([1, 10, 100, 1_000]), self.rng.choice([0, 0, 1, 500, 100_000])
        self.accounts = sorted(set(reckoning.balances(office)) - {reckoning.NOBODY})
        keys = [f"M{k}" for k in range(self.rng.randint(1, 5))]
        self.people = {it: self.person(it) for it in keys}
        for account in self.accounts:
            if self.rng.random() < 0.85:
                self.people[self.rng.choice(keys)].accounts.append((account, None))
        self.rules = self.some_rules()
        self.named = {it: DAY + datetime.timedelta(self.rng.randint(0, 300)) for it in office.pools if self.rng.random() < 0.6}
        self.batches: dict[int, bytes] = {}
        self.begin()

    @property
    def place(self) -> pathlib.Path:
        return self.decided / "payments"

    @property
    def step(self) -> int:
        """The units of a cent."""
        return max(1, self.per // 100)

    def person(self, key: str) -> Person:
        account = "otherwise" if self.rng.random() < 0.2 else iban(self.rng)
        least = self.rng.choice([0, 0, 0, 7, 1_000])
        return Person(key, self.rng.choice(NAMES), account, least, self.rng.choice(CLASSES), [])

    def some_rules(self) -> list[Rule]:
        found = []
        for name in ("administration", "social fund", "tax withheld", "charge")[: self.rng.randint(0, 4)]:
            fixed = self.rng.choice([0, 0, 0, self.rng.choice([1, 50, 5_000])])
            right, tax = self.rng.choice(["", "", "PR", "MR"]), self.rng.choice(CLASSES)
            part, is_gross = self.rng.choice([1, 1_500, 3_333, 5_000, 10_000, self.rng.randint(1, 9_999)]), self.rng.random() < 0.5
            found.append(Rule(name, part, fixed, is_gross, right, self.rng.choice([1, 1, 2, 3]), tax))
        return found

    def begin(self) -> None:
        run("members", "begin")
        lines = "".join(f"{pool} {day - datetime.timedelta(30)}/{day} Pool {pool}\n" for pool, day in self.named.items())
        (self.decided / "pools.txt").write_text(lines)
        words = f"name Exämple Society\niban {iban(self.rng)}\ncurrency EUR\nunits {self.per}\nminimum {self.least}\n"
        (self.place / "payments.txt").write_text(words)
        self.write()

    def write(self) -> None:
        """Writes members and rules by hand, and notes it."""
        (self.place / "members.csv").write_text(HEADER + "".join(it.row() for it in self.people.values()))
        (self.place / "deductions.txt").write_text("".join(it.line() for it in self.rules))
        run("members", "note", "--why", "by hand")

    def take(self, path: pathlib.Path, pools: list[int], day: datetime.date) -> None:
        """Takes a copy of the office in which these pools are closed."""
        noon = datetime.datetime.combine(day, datetime.time(12)).timestamp()
        os.utime(path, (noon, noon))
        self.path, self.pools, self.day = path, pools, day

    def owner(self, account: str, day: datetime.date) -> str | None:
        """Whose account it was on a day."""
        found = [(since or datetime.date.min, it.key) for it in self.people.values() for one, since in it.accounts if one == account]
        return max((it for it in found if it[0] <= day), default=(None, None))[1]

    def booked(self, book: Book) -> Book:
        """The book after what the copy has credited was booked."""
        book, gross = copy.deepcopy(book), Counter[tuple[int, str]]()
        for pool in self.pools:
            sums = reckoning.sums(reckoning.credits(self.office, pool))
            day = book.days.get(pool, self.named.get(pool, self.day))
            for account, units in sums.items():
                to = reckoning.NOBODY if account == reckoning.NOBODY else self.owner(account, day)
                if units and to and (pool, account) not in book.credited:
                    book.credited[pool, account], book.days[pool] = (to, units), day
                    gross[pool, to] += units
        for (pool, to), units in gross.items():
            self.deduct(book, pool, to, units)
        return book

    def deduct(self, book: Book, pool: int, to: str, gross: int) -> None:
        """Takes off what the rules say."""
        rest = gross
        for it in self.rules if to != reckoning.NOBODY else ():
            if it.right not in ("", self.office.pools[pool].right) or pool < it.first_pool or it.tax not in ("", self.people[to].tax):
                continue
            base = gross if it.of_gross else rest
            part = (2 * base * it.part + 10_000) // 20_000
            units = min(rest, max(0, it.fixed - book.deducted[pool, to, it.name]) if it.fixed else part)
            book.deducted[pool, to, it.name] += units
            rest -= units

    def due(self, book: Book) -> dict[str, int]:
        """Who is to be paid how much."""
        found = {}
        for it in self.people.values():
            units = book.owed(it.key)
            if units >= max(it.minimum, self.least, self.step):
                found[it.key] = units // self.step * self.step
        return found

    def ordered(self, book: Book) -> Book:
        """The book after the next batch."""
        book = self.booked(book)
        if due := self.due(book):
            book.orders.append(due)
        return book

    def pay(self) -> None:
        """Pays, and keeps what the payment file was."""
        into = self.folder / "out"
        run("pay", self.path, "--into", into, "--why", "a quarter")
        before, self.book = len(self.book.orders), self.ordered(self.book)
        if len(self.book.orders) > before:
            self.keep(into)
        self.check()

    def keep(self, into: pathlib.Path) -> None:
        """Keeps the list to sign of the last batch, which is the same each time."""
        number = len(self.book.orders)
        self.batches[number] = b"".join((into / name).read_bytes() for name in self.names(number))

    def names(self, number: int) -> list[str]:
        """The files of a batch."""
        has_bank = (self.folder / "out" / f"payment-{number}.xml").exists()
        return [f"payment-{number}.xml"] * has_bank + [f"list-{number}.csv", f"list-{number}.html"]

    def again(self) -> None:
        """A batch asked for again is the same bytes."""
        for number, content in self.batches.items():
            into = self.folder / "again"
            run("pay", "again", number, "--into", into)
            assert b"".join((into / name).read_bytes() for name in self.names(number)) == content

    def check(self) -> None:
        """The ledger has what the book has, for each member, and to the unit."""
        assert self.agrees(self.book)

    def check_statements(self) -> None:
        """Statements have what the book has, pool by pool and account by account, and come to what is owed."""
        into = self.folder / "statements"
        run("members", "statement", self.path, "--all", "--into", into, "--to", "2100-01-01")
        totals = {it["member"]: it for it in rows_of((into / "totals.csv").read_text())}
        assert set(totals) == self.people.keys() | self.book.members() - {reckoning.NOBODY}
        for key, it in totals.items():
            assert int(it["closing"]) == self.book.owed(key) and int(it["opening"]) == 0
            if any(int(it[name]) for name in ("credited", "adjusted", "payments")):
                self.check_lines(key, rows_of((into / key / "statement.csv").read_text()))

    def check_lines(self, key: str, rows: list[dict[str, str]]) -> None:
        """The lines of one statement."""
        found = Counter[tuple[str, ...]]()
        for it in rows[1:-1]:
            found[it["what"], it["pool"], it["account"] or it["batch"] or it["words"] * (it["what"] == "deducted")] += int(it["units"])
        wanted = Counter[tuple[str, ...]]()
        for (pool, account), (to, units) in self.book.credited.items():
            wanted["credited", str(pool), account] += units * (to == key)
        for (pool, to, name), units in self.book.deducted.items():
            wanted["deducted", str(pool), name] -= units * (to == key)
        for to, units in self.book.adjusted:
            wanted["adjusted", "", ""] += units * (to == key)
        for batch, orders in enumerate(self.book.orders, 1):
            wanted["paid", "", str(batch)] -= orders.get(key, 0)
            wanted["sent back", "", str(batch)] += orders[key] if (batch, key) in self.book.returned else 0
        zero = {it for it, units in wanted.items() if not units}
        assert {it: units for it, units in found.items() if it not in zero} == {it: units for it, units in wanted.items() if units}

    def agrees(self, book: Book) -> bool:
        """Whether the ledger has what a book has."""
        rows = rows_of(run("ledger", "--format", "csv"))
        last = {it["member"]: int(it["owed"]) for it in rows if it["member"] != "-"}
        sums = Counter[tuple[str, str]]()
        for it in rows:
            sums[it["what"], it["member"]] += int(it["units"])
        wanted = {it: book.owed(it) for it in book.members()}
        signs = {"credited": 1, "deducted": -1, "adjusted": 1, "ordered": -1, "returned": 1}
        parts = {it: sum(sign * sums[what, it] for what, sign in signs.items()) for it in last}
        credits = {(int(it["pool"]), it["words"][3:]): (it["member"], int(it["units"])) for it in rows if it["what"] == "credited"}
        orders: list[dict[str, int]] = [{} for it in rows if it["what"] == "batch"]
        for it in rows:
            if it["what"] == "ordered":
                orders[int(it["batch"]) - 1][it["member"]] = int(it["units"])
        return last == parts == wanted and credits == book.credited and orders == book.orders

    def reference(self, batch: int, member: str) -> str:
        return f"900-PAY-{batch}-{member}"

    def amount(self, units: int) -> str:
        cents = units * 100 // self.per
        return f"{cents // 100}.{cents % 100:02d}"

    def told(self, what: list[tuple[int, str]], returned: bool) -> pathlib.Path:
        """What the bank tells of some orders, as a table or as camt.054."""
        place = self.folder / "list"
        lines = [(self.reference(*it), self.amount(self.book.orders[it[0] - 1][it[1]])) for it in what]
        place.write_text(camt(lines, returned) if self.rng.random() < 0.5 else table(lines))
        return place

    def hear(self, returned: bool) -> None:
        """The bank tells of some orders, of some of them twice."""
        known = self.book.returned if returned else self.book.confirmed
        every = [(batch, of) for batch, orders in enumerate(self.book.orders, 1) for of in orders]
        possible = [it for it in every if it not in self.book.returned] if returned else self.book.open()
        what = self.rng.sample(possible, self.rng.randint(0, len(possible)))
        repeated = [it for it in self.rng.sample(sorted(known), min(1, len(known)))]
        said = run("pay", "returned" if returned else "confirm", self.told(what + repeated, returned), "--why", "the bank")
        assert re.match(rf"\w+: {len(what)} payments?, ", said), said
        known.update(what)
        self.check()

    def adjust(self) -> None:
        key, units = self.rng.choice(sorted(self.people)), self.rng.choice([-1_000_000, -500, -1, 1, 77, 10_000])
        run("adjust", key, units, "--why", "an advance")
        self.book.adjusted.append((key, units))
        self.check()

    def change(self) -> None:
        """An account changes hands from a day on, somebody joins, a bank or a class changes, or the rules do."""
        way = self.rng.randrange(4)
        if way == 0 and self.accounts:
            account, day = self.rng.choice(self.accounts), DAY + datetime.timedelta(self.rng.randint(0, 300))
            if not any((account, day) in it.accounts for it in self.people.values()):
                self.people[self.rng.choice(sorted(self.people))].accounts.append((account, day))
        elif way == 1:
            key = f"N{len(self.people)}"
            self.people[key] = self.person(key)
        elif way == 2:
            it = self.people[self.rng.choice(sorted(self.people))]
            it.iban, it.tax = iban(self.rng), self.rng.choice(CLASSES)
        else:
            self.rules = self.some_rules()
        if (self.place / "members.csv").read_text() != HEADER + "".join(it.row() for it in self.people.values()) or way == 3:
            (self.place / "members.csv").write_text(HEADER + "".join(it.row() for it in self.people.values()))
            (self.place / "deductions.txt").write_text(f"# {self.rng.random()}\n" + "".join(it.line() for it in self.rules))
            run("members", "note", "--why", "by hand")


def table(lines: list[tuple[str, str]]) -> str:
    return "reference,amount,day,why\n" + "".join(f"{reference},{amount},2026-12-01,a why\n" for reference, amount in lines)


def camt(lines: list[tuple[str, str]], returned: bool) -> str:
    """A notification as a bank sends it."""
    entries = ""
    for reference, amount in lines:
        side, reason = ("CRDT", "<RtrInf><Rsn><Cd>AC04</Cd></Rsn></RtrInf>") if returned else ("DBIT", "")
        entries += (
            f"<Ntry><Amt Ccy='EUR'>{amount}</Amt><CdtDbtInd>{side}</CdtDbtInd><BookgDt><Dt>2026-12-01</Dt></BookgDt><NtryDtls><TxDtls>"
            f"<Refs><EndToEndId>{reference}</EndToEndId></Refs><Amt Ccy='EUR'>{amount}</Amt>{reason}</TxDtls></NtryDtls></Ntry>"
        )
    space = "urn:iso:std:iso:20022:tech:xsd:camt.054.001.08"
    inner = f"<BkToCstmrDbtCdtNtfctn><Ntfctn>{entries}</Ntfctn></BkToCstmrDbtCdtNtfctn>"
    return f"<?xml version='1.0'?><Document xmlns='{space}'>{inner}</Document>"
