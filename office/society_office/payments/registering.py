"""Members taken over from a spreadsheet, and a member who has left taken out."""

import dataclasses
import datetime

from society_office.basics.errors import OfficeError
from society_office.decided.journal import one_line
from society_office.payments import batches, members, private
from society_office.payments.home import MEMBERS, Desk
from society_office.payments.members import COLUMNS
from society_office.payments.owed import Entry, Kind
from society_office.works.records import UNCLAIMED

# Other names of columns, in small letters, as spreadsheets of offices have them.
OTHER_NAMES = {
    "member": "key number no id memberno member_number mitglied mitgliedsnummer",
    "name": "fullname full_name full-name member_name",
    "street": "address street_address strasse straße adresse",
    "postcode": "zip zipcode postal_code plz",
    "town": "city place ort stadt",
    "country": "land",
    "language": "sprache lang",
    "iban": "account bank_account",
    "bic": "swift",
    "minimum": "least",
    "tax": "taxclass tax_class steuerklasse",
    "email": "e-mail mail",
    "accounts": "ipi konten",
}
NAMES = {it: it for it in COLUMNS} | {other: it for it, others in OTHER_NAMES.items() for other in others.split()}


@dataclasses.dataclass(frozen=True)
class Taken:
    """How many members of a spreadsheet are new, how many have changed, and how many are as before."""

    new: int
    changed: int
    same: int


def imported(desk: Desk, content: bytes, where: str) -> Taken:
    """Takes the rows of a spreadsheet over into members.csv; a member whom it does not have stays. An OfficeError with each wrong row."""
    rows, faults = members.judged(content, where, NAMES)
    if faults:
        raise OfficeError("\n".join(["nothing was taken over:", *faults]))
    before = desk.home.members.by_key
    if again := sorted(rows.by_key.keys() & desk.home.ledger.erased.keys()):
        raise OfficeError(f"{where}: {again[0]} was erased: give a new member a new key")
    after = before | rows.by_key
    table = members.table_of(after.values())
    if faults := members.judged(table, MEMBERS)[1]:
        raise OfficeError("\n".join(["nothing was taken over, since then it would be wrong:", *faults]))
    counts = [it.key not in before for it in rows.by_key.values()]
    changed = sum(before[it.key].cells != it.cells for it in rows.by_key.values() if it.key in before)
    if table != desk.home.contents[MEMBERS]:
        desk.put(MEMBERS, table)
    return Taken(sum(counts), changed, len(counts) - sum(counts) - changed)


def erase(desk: Desk, key: str, why: str) -> None:
    """Takes the person of a member out of members.csv and of all batches; what was credited and paid stays, under the key alone.

    The line of the ledger comes last, so that what was broken off is ended by asking again. An OfficeError where the member is owed
    something or owes it, or where the bank has not told what became of an order.
    """
    ledger = desk.home.ledger
    if key not in desk.home.members.by_key and (key not in ledger.owed or key == UNCLAIMED):
        raise OfficeError(f"there is no member {key}")
    if units := ledger.owed.get(key, 0):
        what = f"is owed {units:,} units: pay" if units > 0 else f"owes {-units:,} units: adjust"
        raise OfficeError(f"{key} {what} that first, as `pay --member {key}` or `adjust {key}`")
    if waiting := [it.number for it in ledger.batches.values() if key in it.open]:
        raise OfficeError(f"the bank has not told what became of batch {waiting[0]} for {key}: `pay confirm` or `pay returned` first")
    reason = one_line(why, "--why")
    for number in batches.numbers_of(desk.home, key):
        found = batches.read(desk.home, number)
        private.write(desk.home.batch_file(number), batches.written(batches.without(found, key)))
    rest = [it for it in desk.home.members.by_key.values() if it.key != key]
    desk.put(MEMBERS, members.table_of(rest))
    if key in ledger.owed and key not in ledger.erased:
        desk.book([Entry(Kind.ERASED, datetime.datetime.now(datetime.UTC).date(), key, 0, 0, reason)])
