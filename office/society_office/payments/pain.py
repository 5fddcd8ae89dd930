"""The payment file of a batch: ISO 20022, customer credit transfer initiation, pain.001.001.09, as the rules of SEPA take it.

References are of the office, the batch and the member alone, so that two files that were written for one batch have the same ones, and the
bank takes one of them.
"""

import dataclasses
import datetime
import xml.etree.ElementTree as xml
from collections.abc import Sequence

from society_office.payments.bank_text import as_taken
from society_office.payments.members import OTHERWISE
from society_office.payments.words import Words

NAMESPACE = "urn:iso:std:iso:20022:tech:xsd:pain.001.001.09"
# The most characters of names, lines of addresses, towns, postcodes, and of what is told to who is paid.
MOST_NAME, MOST_LINE, MOST_TOWN, MOST_POSTCODE, MOST_TOLD = 70, 70, 35, 16, 140
EURO = "EUR"
UNKNOWN_BANK = "NOTPROVIDED"
BANK = "bank"


@dataclasses.dataclass(frozen=True)
class Office:
    """Who pays: its number, its name, its account, and its money."""

    society: int
    name: str
    iban: str
    bic: str
    currency: str
    per_unit: int
    decimals: int

    @property
    def words(self) -> Words:
        """Its money."""
        return Words(currency=self.currency, units=self.per_unit, decimals=self.decimals)

    def amount(self, units: int) -> str:
        """Units as an amount of the currency."""
        return self.words.amount(units)

    def shown(self, units: int) -> str:
        """Units as an amount that people read, with commas between thousands."""
        return self.words.shown(units)


@dataclasses.dataclass(frozen=True)
class Payee:
    """Who is paid how much, where, and whether that account is new, changed, or as before."""

    member: str
    units: int
    name: str
    street: str
    postcode: str
    town: str
    country: str
    iban: str
    bic: str
    seen: str

    @property
    def way(self) -> str:
        """How it is paid: by the payment file of the bank, or otherwise."""
        return OTHERWISE if self.iban == OTHERWISE else BANK


@dataclasses.dataclass(frozen=True)
class Order:
    """A batch: its number, when it was made, the day on which the bank pays, who pays, and who is paid."""

    number: int
    made: datetime.datetime
    day: datetime.date
    office: Office
    payees: tuple[Payee, ...]

    @property
    def units(self) -> int:
        """All that it pays."""
        return sum(it.units for it in self.payees)

    @property
    def by_bank(self) -> list[Payee]:
        """Who is paid by the payment file."""
        return [it for it in self.payees if it.way == BANK]

    @property
    def reference(self) -> str:
        """What the batch is called at the bank."""
        return f"{self.office.society:03d}-PAY-{self.number}"

    def reference_of(self, member: str) -> str:
        """What a payment is called at all banks, so that it is known when it comes back."""
        return f"{self.reference}-{member}"


def add(parent: xml.Element, name: str, text: str = "") -> xml.Element:
    """Adds an element; one of text that is empty has to be left out by who calls it."""
    found = xml.SubElement(parent, name)
    if text:
        found.text = text
    return found


def payment_file(order: Order) -> bytes:
    """The file: the same bytes for the same batch."""
    root = xml.Element("Document", {"xmlns": NAMESPACE})
    whole = add(root, "CstmrCdtTrfInitn")
    head = add(whole, "GrpHdr")
    add(head, "MsgId", order.reference)
    add(head, "CreDtTm", order.made.strftime("%Y-%m-%dT%H:%M:%SZ"))
    add_sums(head, order, order.by_bank)
    add(add(head, "InitgPty"), "Nm", as_taken(order.office.name, MOST_NAME))
    if order.by_bank:
        add_payments(whole, order, order.by_bank)
    xml.indent(root)
    return f'<?xml version="1.0" encoding="UTF-8"?>\n{xml.tostring(root, encoding="unicode")}\n'.encode()


def add_sums(parent: xml.Element, order: Order, payees: Sequence[Payee]) -> None:
    """How many payments there are, and what they come to."""
    add(parent, "NbOfTxs", str(len(payees)))
    add(parent, "CtrlSum", order.office.amount(sum(it.units for it in payees)))


def add_payments(whole: xml.Element, order: Order, payees: Sequence[Payee]) -> None:
    """The one group of payments: of the office's account on one day."""
    found = add(whole, "PmtInf")
    add(found, "PmtInfId", order.reference)
    add(found, "PmtMtd", "TRF")
    add(found, "BtchBookg", "true")
    add_sums(found, order, payees)
    if order.office.currency == EURO:
        add(add(add(found, "PmtTpInf"), "SvcLvl"), "Cd", "SEPA")
    add(add(found, "ReqdExctnDt"), "Dt", order.day.isoformat())
    add(add(found, "Dbtr"), "Nm", as_taken(order.office.name, MOST_NAME))
    add_account(found, "DbtrAcct", order.office.iban)
    add_bank(found, "DbtrAgt", order.office.bic)
    add(found, "ChrgBr", "SLEV" if order.office.currency == EURO else "SHAR")
    for it in payees:
        add_payment(found, order, it)


def add_payment(parent: xml.Element, order: Order, it: Payee) -> None:
    """One payment."""
    found = add(parent, "CdtTrfTxInf")
    ids = add(found, "PmtId")
    add(ids, "InstrId", order.reference_of(it.member))
    add(ids, "EndToEndId", order.reference_of(it.member))
    add(add(found, "Amt"), "InstdAmt", order.office.amount(it.units)).set("Ccy", order.office.currency)
    if it.bic:
        add_bank(found, "CdtrAgt", it.bic)
    person = add(found, "Cdtr")
    add(person, "Nm", as_taken(it.name, MOST_NAME))
    add_address(person, it)
    add_account(found, "CdtrAcct", it.iban)
    told = as_taken(f"{order.office.name}, payment {order.number} to {it.member}", MOST_TOLD)
    add(add(found, "RmtInf"), "Ustrd", told)


def add_account(parent: xml.Element, name: str, iban: str) -> None:
    """An account by its IBAN."""
    add(add(add(parent, name), "Id"), "IBAN", iban)


def add_bank(parent: xml.Element, name: str, bic: str) -> None:
    """A bank by its BIC; one that is not known is said to be so."""
    found = add(add(parent, name), "FinInstnId")
    if bic:
        add(found, "BICFI", bic)
    else:
        add(add(found, "Othr"), "Id", UNKNOWN_BANK)


def add_address(parent: xml.Element, it: Payee) -> None:
    """An address: postcode, town and country by themselves, and the street as a line."""
    found = add(parent, "PstlAdr")
    for name, words, most in (("PstCd", it.postcode, MOST_POSTCODE), ("TwnNm", it.town, MOST_TOWN), ("Ctry", it.country, 2)):
        if told := as_taken(words, most):
            add(found, name, told)
    if line := as_taken(it.street, MOST_LINE):
        add(found, "AdrLine", line)
