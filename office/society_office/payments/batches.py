"""Batches: whom an order pays, how much and where, kept as it was when it was given, so that it is the same bytes when asked again."""

import dataclasses
import datetime
import json
from collections.abc import Iterable, Sequence
from typing import Any

from society_office.basics.errors import OfficeError
from society_office.decided.journal import sum_of
from society_office.payments import pain, private
from society_office.payments.home import Desk, Home
from society_office.payments.ledger import NOBODY
from society_office.payments.members import Member
from society_office.payments.owed import Entry, Kind, payable
from society_office.payments.pain import Office, Order, Payee

# What is said of a member's account beside that of its last order; and of one who was erased, where nothing else is said any more.
NEW, CHANGED, SAME, ERASED = "new", "changed", "as before", "erased"


@dataclasses.dataclass(frozen=True)
class Owing:
    """Why a member is not paid: it owes the office, or is owed less than the least."""

    member: str
    units: int
    least: int


def chosen(home: Home, only: Sequence[str]) -> tuple[list[Payee], list[Owing]]:
    """Who is paid how much, in the order of the keys, and who is owed something else than 0 and is not paid."""
    payees, others, last = list[Payee](), list[Owing](), accounts_before(home)
    for key, member in sorted(home.members.by_key.items()):
        units, least = home.ledger.owed.get(key, 0), max(member.minimum, home.words.minimum)
        if only and key not in only:
            continue
        if amount := payable(units, least, home.words.step):
            payees.append(payee_of(member, amount, last.get(key)))
        elif units:
            others.append(Owing(key, units, least))
    return payees, others


def payee_of(it: Member, units: int, before: str | None) -> Payee:
    """A member as it is paid, and whether its account is that of its last order."""
    seen = NEW if before is None else SAME if before == it.iban else CHANGED
    return Payee(it.key, units, it.name, it.street, it.postcode, it.town, it.country, it.iban, it.bic, seen)


def accounts_before(home: Home) -> dict[str, str]:
    """The account that each member's last order went to."""
    found: dict[str, str] = {}
    for number in home.ledger.batches:
        found.update({it.member: it.iban for it in read(home, number).payees if it.seen != ERASED})
    return found


def order(desk: Desk, payees: Sequence[Payee], day: datetime.date) -> Order:
    """Orders to pay them: what the batch has is kept first, and with the lines of the ledger it is ordered, all of it or nothing."""
    words, number = desk.home.words, desk.home.ledger.next_batch
    society = int(desk.home.ledger.office.split(" ")[0])
    office = Office(society, words.name, words.iban, words.bic, words.currency, words.units, words.decimals)
    made = datetime.datetime.now(datetime.UTC).replace(microsecond=0)
    found = Order(number, made, day, office, tuple(payees))
    private.write(desk.home.batch_file(number), written(found))
    file_sum = sum_of(pain.payment_file(found))
    today = made.date()
    head = Entry(Kind.BATCH, today, NOBODY, found.units, number, f"{len(payees)} {file_sum}")
    desk.book([head, *(Entry(Kind.ORDERED, today, it.member, it.units, number, "") for it in payees)])
    return found


def written(found: Order) -> bytes:
    """A batch as its file has it."""
    data = dataclasses.asdict(found) | {"made": found.made.isoformat(), "day": found.day.isoformat()}
    return (json.dumps(data, ensure_ascii=False, indent=1) + "\n").encode()


def read(home: Home, number: int) -> Order:
    """A batch that was ordered; an OfficeError where it is none, or its file is not that of the ledger."""
    if number not in home.ledger.batches:
        raise OfficeError(f"batch {number} was not ordered; the last one is {len(home.ledger.batches)}")
    file = home.batch_file(number)
    try:
        found = of_data(json.loads(file.read_bytes()))
    except FileNotFoundError as error:
        raise OfficeError(f"{file} is not there: put it back, as a backup has it") from error
    except (ValueError, TypeError, KeyError) as error:
        raise OfficeError(f"{file} is not what a command wrote there: put it back, as a backup has it") from error
    wanted = home.ledger.batches[number]
    if found.number != number or {it.member: it.units for it in found.payees} != wanted.orders:
        raise OfficeError(f"{file} pays others than the ledger has: put it back, as a backup has it")
    return found


def of_data(data: dict[str, Any]) -> Order:
    """A batch by what its file has."""
    made, day = datetime.datetime.fromisoformat(data["made"]), datetime.date.fromisoformat(data["day"])
    return Order(data["number"], made, day, Office(**data["office"]), tuple(Payee(**it) for it in data["payees"]))


def need_file(home: Home, found: Order) -> bytes:
    """The payment file of a batch, just as it was when it was ordered; an OfficeError where it can't be had any more."""
    if gone := [it.member for it in found.payees if it.seen == ERASED]:
        raise OfficeError(
            f"batch {found.number} has paid {', '.join(gone)}, who was erased since: its sums stay in the ledger, and its file is not made"
        )
    content = pain.payment_file(found)
    if sum_of(content) != home.ledger.batches[found.number].file_sum:
        raise OfficeError(
            f"{home.batch_file(found.number)} does not make the payment file that was ordered: it was changed, or another version of this "
            "command wrote it. Put it back, as a backup has it"
        )
    return content


def without(found: Order, member: str) -> Order:
    """A batch in which the person of a member can't be seen."""
    payees = (blank(it) if it.member == member else it for it in found.payees)
    return dataclasses.replace(found, payees=tuple(payees))


def blank(it: Payee) -> Payee:
    """A payment without who it was paid to."""
    return Payee(it.member, it.units, "", "", "", "", "", "", "", ERASED)


def numbers_of(home: Home, member: str) -> Iterable[int]:
    """The batches that have paid a member."""
    return [it.number for it in home.ledger.batches.values() if member in it.orders]
