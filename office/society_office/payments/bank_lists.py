"""What a bank tells of payments: notifications of ISO 20022 (camt.054) in any version, or a table `reference,amount,day,why`."""

import csv
import dataclasses
import datetime
import io
import re
import xml.etree.ElementTree as xml
from collections.abc import Iterator

from society_office.basics.errors import OfficeError
from society_office.formats.plays import BOM
from society_office.payments.words import Words

COLUMNS = ["reference", "amount", "day", "why"]
REFERENCE = re.compile(r"([0-9]{3})-PAY-([1-9][0-9]{0,8})-([0-9A-Z]{1,16})", re.ASCII)
DAY = re.compile(r"[0-9]{4}-[0-9]{2}-[0-9]{2}", re.ASCII)
MOST_WHY = 200


@dataclasses.dataclass(frozen=True)
class Told:
    """A payment that a bank tells of: the office's reference, the units, the day, why it came back, and where it stands in the list."""

    society: int
    batch: int
    member: str
    units: int
    day: datetime.date
    why: str
    is_return: bool
    where: str


def read(content: bytes, name: str, words: Words, are_returns: bool) -> tuple[list[Told], int]:
    """The payments of a list that were carried out, or came back; and how many payments of others it has. An OfficeError where it is none.

    A table does not say which of the two its lines are, so they are what is asked for.
    """
    is_xml = content.removeprefix(BOM).lstrip().startswith(b"<")
    listed = list(notified(content, name, words) if is_xml else tabled(content, name, words, are_returns))
    found = [it for it in listed if it is not None]
    return found, len(listed) - len(found)


def tabled(content: bytes, name: str, words: Words, are_returns: bool) -> Iterator[Told | None]:
    """The payments of a table; None for one with another's reference."""
    try:
        text = content.removeprefix(BOM).decode()
        first = text.partition("\n")[0]
        reader = csv.DictReader(io.StringIO(text, newline=""), delimiter=";" if first.count(";") > first.count(",") else ",", strict=True)
        if not {*COLUMNS[:3]} <= {*(reader.fieldnames or ())}:
            raise OfficeError(f"{name}: its first line has to be {','.join(COLUMNS)}")
        for row in reader:
            where = f"{name}, line {reader.line_num}"
            reference, amount, day, why = (row.get(it) or "" for it in COLUMNS)
            yield told(where, words, (reference, amount, day, why), are_returns)
    except (UnicodeDecodeError, csv.Error) as error:
        raise OfficeError(f"{name}: it is no table of UTF-8 and no notification of a bank") from error


def told(where: str, words: Words, texts: tuple[str, str, str, str], is_return: bool) -> Told | None:
    """A payment by its reference, amount, day and why; None where the reference is no office's, an OfficeError where the rest is wrong."""
    reference, amount, day, why = texts
    found = REFERENCE.fullmatch(reference.strip())
    if not found:
        return None
    units = words.units_of(amount.strip())
    if units is None:
        raise OfficeError(f"{where}: {amount!r} is no amount: write it as {words.amount(471)}")
    try:
        when = datetime.date.fromisoformat(day.strip()[:10]) if DAY.match(day.strip()) else None
    except ValueError:
        when = None
    if when is None:
        raise OfficeError(f"{where}: {day!r} is no day: write 2026-07-01")
    reason = "".join(it if it.isprintable() else " " for it in " ".join(why.split()))[:MOST_WHY].strip()
    return Told(int(found[1]), int(found[2]), found[3], units, when, reason, is_return, where)


def notified(content: bytes, name: str, words: Words) -> Iterator[Told | None]:
    """The payments of a notification; None for one with another's reference."""
    if b"<!" in re.sub(rb"<!--.*?-->", b"", content, flags=re.S).split(b"<BkToCstmrDbtCdtNtfctn", 1)[0]:
        raise OfficeError(f"{name}: a notification of a bank declares no types of its own")
    try:
        root = xml.fromstring(content)
    except xml.ParseError as error:
        raise OfficeError(f"{name}: it is no XML: {error}") from error
    for it in root.iter():
        it.tag = it.tag.rpartition("}")[2]
    if root.find("BkToCstmrDbtCdtNtfctn") is None:
        raise OfficeError(f"{name}: it is no notification (camt.054)")
    count = 0
    for entry in root.iter("Ntry"):
        for detail in entry.iter("TxDtls"):
            count += 1
            yield payment_of(entry, detail, f"{name}, payment {count}", words)


def payment_of(entry: xml.Element, detail: xml.Element, where: str, words: Words) -> Told | None:
    """A payment by its entry and its details; one that has a reason, or is credited, came back."""
    amount = first_of(detail, "Amt", "AmtDtls/TxAmt/Amt", "AmtDtls/InstdAmt/Amt")
    if amount is None:
        amount = entry.find("Amt")
    currency = amount.get("Ccy", words.currency) if amount is not None else words.currency
    reference = text_of(detail, "Refs/EndToEndId")
    if REFERENCE.fullmatch(reference) and currency != words.currency:
        raise OfficeError(f"{where}: it is in {currency}, and the office pays in {words.currency}")
    indicator = text_of(detail, "CdtDbtInd") or text_of(entry, "CdtDbtInd")
    day = text_of(entry, "BookgDt/Dt", "BookgDt/DtTm", "ValDt/Dt", "ValDt/DtTm")
    returned = detail.find("RtrInf") is not None or indicator == "CRDT"
    why = " ".join(filter(None, (text_of(detail, "RtrInf/Rsn/Cd", "RtrInf/Rsn/Prtry"), text_of(detail, "RtrInf/AddtlInf"))))
    value = (amount.text or "") if amount is not None else ""
    return told(where, words, (reference, value, day, why), returned)


def first_of(parent: xml.Element, *paths: str) -> xml.Element | None:
    """The first of these elements that is there."""
    return next((it for path in paths if (it := parent.find(path)) is not None), None)


def text_of(parent: xml.Element, *paths: str) -> str:
    """The text of the first of these elements that is there, or nothing."""
    found = first_of(parent, *paths)
    return (found.text or "").strip() if found is not None else ""
