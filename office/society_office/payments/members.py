"""Members: the table members.csv, and whose account each one was on a day."""

import bisect
import csv
import dataclasses
import datetime
import io
import pathlib
import re
from collections.abc import Iterable, Iterator, Mapping

from society_office.basics.errors import OfficeError
from society_office.credits.statements import ACCOUNT
from society_office.formats.plays import BOM
from society_office.payments.bank_accounts import COUNTRY, bic_fault, compact, iban_fault
from society_office.payments.bank_text import can_be_read
from society_office.works.records import UNCLAIMED

COLUMNS = ["member", "name", "street", "postcode", "town", "country", "language", "iban", "bic", "minimum", "tax", "email", "accounts"]
HEAD = ",".join(COLUMNS) + "\n"
KEY = re.compile(r"[0-9A-Z]{1,16}", re.ASCII)
LANGUAGE, TAX = re.compile(r"[a-z]{2}", re.ASCII), re.compile(r"[a-z0-9-]{1,20}", re.ASCII)
EMAIL = re.compile(r"[^@\s]+@[^@\s]+\.[^@\s]+")
# In the place of an IBAN: paid by cheque, in cash, or set off somewhere else.
OTHERWISE = "otherwise"
# Between accounts; one that has the mark itself has a backslash before it.
MARK = re.compile(r"(?<!\\);")
SINCE = re.compile(r"(.+?)(?: from ([0-9]{4}-[0-9]{2}-[0-9]{2}))?", re.ASCII)
FIRST_DAY = datetime.date.min
MOST_UNITS = 10**12


@dataclasses.dataclass(frozen=True)
class Member:
    """A member, as members.csv has it at a line."""

    key: str
    name: str
    street: str = ""
    postcode: str = ""
    town: str = ""
    country: str = ""
    language: str = ""
    iban: str = ""
    bic: str = ""
    minimum: int = 0
    tax: str = ""
    email: str = ""
    accounts: tuple[tuple[str, datetime.date], ...] = ()
    line: int = 0

    @property
    def is_paid_otherwise(self) -> bool:
        """Whether no bank pays it."""
        return self.iban == OTHERWISE

    @property
    def cells(self) -> list[str]:
        """As they stand in members.csv."""
        accounts = "; ".join(account_text(*it) for it in self.accounts)
        place = [self.key, self.name, self.street, self.postcode, self.town, self.country, self.language]
        return [*place, self.iban, self.bic, str(self.minimum or ""), self.tax, self.email, accounts]


def account_text(account: str, since: datetime.date) -> str:
    """An account, and from which day on, as they stand in a cell."""
    return account.replace(";", r"\;") + (f" from {since}" if since != FIRST_DAY else "")


class Fault(Exception):
    """What is wrong with a row and the cure, without what the member told the office."""


def rows_in(content: bytes, where: str, columns: Mapping[str, str] | None = None) -> Iterator[tuple[int, dict[str, str]]]:
    """The rows of a table by the names of their columns, each with its line; an OfficeError where it is none.

    With `columns` it may be a spreadsheet's: parted by `;`, with other names of columns, in the letters of Windows.
    """
    text = decoded(content.removeprefix(BOM), where, is_spreadsheet=columns is not None)
    first = text.partition("\n")[0]
    mark = ";" if columns and first.count(";") > first.count(",") else ","
    reader = csv.reader(io.StringIO(text, newline=""), delimiter=mark, strict=True)
    try:
        names = [it.strip() for it in next(reader, [])]
        names = [columns.get(it.lower(), "") for it in names] if columns else names
        if unknown := [it for it in COLUMNS[:2] if it not in names] or [it for it in names if it and it not in COLUMNS]:
            raise OfficeError(f"{where}, line 1: look at {', '.join(unknown)}: the columns are {', '.join(COLUMNS)}")
        if twice := [it for it in names if it and names.count(it) > 1]:
            raise OfficeError(f"{where}, line 1: the column {twice[0]} is there twice")
        for cells in reader:
            if any(it.strip() for it in cells):
                if len(cells) > len(names):
                    raise OfficeError(f"{where}, line {reader.line_num}: it has {len(cells)} cells, and the table {len(names)} columns")
                told = (" ".join(it.split()) if columns else it.strip() for it in cells)
                yield reader.line_num, {name: it for name, it in zip(names, told) if name}
    except csv.Error as error:
        raise OfficeError(f"{where}, line {reader.line_num}: it is no line of a CSV: {error}") from error


def decoded(content: bytes, where: str, is_spreadsheet: bool) -> str:
    """A table as text; an OfficeError where it is no UTF-8, and no spreadsheet's either."""
    try:
        return content.decode()
    except UnicodeDecodeError as error:
        if is_spreadsheet:
            return content.decode("cp1252", errors="replace")
        line = content.count(b"\n", 0, error.start) + 1
        raise OfficeError(f"{where}, line {line}: a byte is no UTF-8: save the table as UTF-8") from error


def member_of(line: int, row: Mapping[str, str]) -> Member:
    """A row as a member; a Fault where it is none."""
    cells = {it: row.get(it, "") for it in COLUMNS}
    if not KEY.fullmatch(cells["member"]) or cells["member"] == UNCLAIMED:
        raise Fault("member: a key is 1 to 16 capital letters and digits, as M0001")
    if broken := [it for it in COLUMNS if not cells[it].isprintable()]:
        raise Fault(f"{broken[0]}: write it in one line, without characters that are not seen")
    if not cells["name"]:
        raise Fault("name: a member has one")
    iban = cells["iban"].lower() if cells["iban"].lower() == OTHERWISE else compact(cells["iban"])
    found = Member(
        cells["member"],
        cells["name"],
        cells["street"],
        cells["postcode"],
        cells["town"],
        cells["country"].upper(),
        cells["language"].lower(),
        iban,
        compact(cells["bic"]),
        minimum_of(cells["minimum"]),
        cells["tax"].lower(),
        cells["email"],
        tuple(accounts_of(cells["accounts"])),
        line,
    )
    for fault in faults_of(found):
        raise Fault(fault)
    return found


def minimum_of(words: str) -> int:
    """The units below which a member is not paid."""
    if not words:
        return 0
    if not (words.isascii() and words.isdigit() and int(words) <= MOST_UNITS):
        raise Fault("minimum: write a number of units, or nothing")
    return int(words)


def accounts_of(words: str) -> Iterator[tuple[str, datetime.date]]:
    """The accounts of a cell, each with the day from which on it is the member's."""
    for part in MARK.split(words) if words else ():
        found = SINCE.fullmatch(part.strip().replace(r"\;", ";"))
        if not found or not ACCOUNT.fullmatch(found[1]) or found[1] == UNCLAIMED:
            raise Fault("accounts: write I00000000199; PPB000000012A1 from 2026-07-01")
        try:
            yield found[1], datetime.date.fromisoformat(found[2]) if found[2] else FIRST_DAY
        except ValueError as error:
            raise Fault(f"accounts: {found[2]} is no day of the calendar") from error


def faults_of(it: Member) -> Iterator[str]:
    """What is wrong with a member, each with its column and cure."""
    if not it.iban:
        yield f"iban: write it, or `{OTHERWISE}` where no bank pays the member"
    elif not it.is_paid_otherwise:
        if fault := iban_fault(it.iban):
            yield f"iban: it {fault}"
        if not can_be_read(it.name):
            yield "name: no letter of it is taken by banks: write it in Latin letters"
        if not it.town or not can_be_read(it.town):
            yield "town: banks want the town of who is paid, in Latin letters"
    if it.bic and (fault := bic_fault(it.bic)):
        yield f"bic: it {fault}"
    if not COUNTRY.fullmatch(it.country):
        yield "country: write its two letters, as AT"
    if it.language and not LANGUAGE.fullmatch(it.language):
        yield "language: write its two letters, as de"
    if it.tax and not TAX.fullmatch(it.tax):
        yield "tax: a class is small letters and digits, as domestic"
    if it.email and not EMAIL.fullmatch(it.email):
        yield "email: it is no address of mail"


class Members:
    """The members by their keys, and whose account each one was on a day."""

    def __init__(self, found: Iterable[Member]) -> None:
        """Of members with keys of their own; an account twice from one day on is nobody's until `faults` is heeded."""
        self.by_key = {it.key: it for it in found}
        self.owners: dict[str, list[tuple[datetime.date, str]]] = {}
        for it in self.by_key.values():
            for account, since in it.accounts:
                bisect.insort(self.owners.setdefault(account, []), (since, it.key))

    def of(self, account: str, day: datetime.date) -> str | None:
        """The member whose account it was on a day; None where it was nobody's."""
        found = [key for since, key in self.owners.get(account, ()) if since <= day]
        return found[-1] if found else None

    @property
    def taxes(self) -> dict[str, str]:
        """The tax class of each."""
        return {it.key: it.tax for it in self.by_key.values()}


def judged(content: bytes, where: str, columns: Mapping[str, str] | None = None) -> tuple[Members, list[str]]:
    """The members of a table, and what is wrong with its rows, each with its line and the cure."""
    found, faults = dict[str, Member](), list[str]()
    taken: dict[tuple[str, datetime.date], str] = {}
    for line, row in rows_in(content, where, columns):
        place = f"{where}, line {line}"
        try:
            it = member_of(line, row)
        except Fault as fault:
            faults.append(f"{place}, {fault}")
            continue
        if it.key in found:
            faults.append(f"{place}, member: {it.key} stands at line {found[it.key].line} already: a member has one line")
            continue
        for owned in it.accounts:
            if owned in taken:
                both = f"{taken[owned]} and {it.key}" if taken[owned] != it.key else f"{it.key} twice"
                faults.append(f"{place}, accounts: {owned[0]} is of {both}: write from which day on it is whose")
            taken[owned] = it.key
        found[it.key] = it
    return Members(found.values()), faults


def read(file: pathlib.Path) -> Members:
    """The members of a file; an OfficeError with the first line that is wrong, and how many there are."""
    found, faults = judged(file.read_bytes(), str(file))
    if faults:
        more = f" (and {len(faults) - 1:,} more: `society-office members check`)" if len(faults) > 1 else ""
        raise OfficeError(faults[0] + more)
    return found


def table_of(found: Iterable[Member]) -> bytes:
    """Members as a table, in the order of their keys."""
    out = io.StringIO()
    writer = csv.writer(out, lineterminator="\n")
    writer.writerow(COLUMNS)
    writer.writerows(it.cells for it in sorted(found, key=lambda it: it.key))
    return out.getvalue().encode()
