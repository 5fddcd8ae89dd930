"""The office's words for payments, payments.txt: its account, its currency, and how many units make one."""

import dataclasses
import pathlib
import re

from society_office.basics.errors import OfficeError
from society_office.formats.word_lists import entries_of
from society_office.payments.bank_accounts import bic_fault, compact, iban_fault
from society_office.payments.bank_text import can_be_read

HEAD = """\
# The office's words for payments: its name and account as the bank has them, its address for statements, its currency, how many units
# make one of it, its decimals, and below how many units nobody is paid.
#name EXAMPLE SOCIETY
#address Ring 1, 1010 Wien, Austria
#iban AT611904300234573201
#bic BKAUATWW
currency EUR
units 100
decimals 2
minimum 500
"""
ENTRY = re.compile(r"([a-z]+) +(.+)", re.ASCII)
CURRENCY = re.compile(r"[A-Z]{3}", re.ASCII)
MOST_DECIMALS, MOST_MINIMUM = 4, 10**12


@dataclasses.dataclass(frozen=True)
class Words:
    """The office's name, address, IBAN and BIC; its currency, how many units make one of it, and its decimals; the least that is paid."""

    name: str = ""
    address: str = ""
    iban: str = ""
    bic: str = ""
    currency: str = "EUR"
    units: int = 100
    decimals: int = 2
    minimum: int = 0

    @property
    def step(self) -> int:
        """The units of the smallest coin."""
        return max(1, self.units // self.coins)

    @property
    def coins(self) -> int:
        """The smallest coins that make one of the currency."""
        return int("1" + "0" * self.decimals)

    def amount(self, units: int) -> str:
        """Units as an amount of the currency, as 4.71; nothing is lost where they are whole steps."""
        whole, part = divmod(abs(units) * self.coins // self.units, self.coins)
        sign = "-" if units < 0 else ""
        return f"{sign}{whole}.{part:0{self.decimals}d}" if self.decimals else f"{sign}{whole}"

    def shown(self, units: int) -> str:
        """Units as an amount that people read, with commas between thousands, as 1,234.71."""
        whole, point, part = self.amount(abs(units)).partition(".")
        return f"{'-' if units < 0 else ''}{int(whole):,}{point}{part}"

    def units_of(self, amount: str) -> int | None:
        """An amount as a bank writes it, in units; None where it is none, or has parts of a coin."""
        found = re.fullmatch(r"([0-9]{1,15})(?:[.,]([0-9]{1,5}))?", amount, re.ASCII)
        if not found:
            return None
        part = (found[2] or "").rstrip("0")
        coins, rest = divmod(int(found[1] + part) * self.units, 10 ** len(part))
        return None if rest else coins


def is_power(number: int) -> bool:
    """Whether a number is 1, 10, 100 and so on."""
    return str(number).strip("0") == "1"


def read(file: pathlib.Path) -> Words:
    """The words of a file; an OfficeError with the line of what is none."""
    found: dict[str, str | int] = {}
    for where, line in entries_of(file):
        entry = ENTRY.fullmatch(line)
        if not entry or entry[1] not in Words.__dataclass_fields__:
            raise OfficeError(f"{where}: write one of {', '.join(Words.__dataclass_fields__)}, and what it is: currency EUR")
        if entry[1] in found:
            raise OfficeError(f"{where}: {entry[1]} is there twice")
        found[entry[1]] = value(where, entry[1], entry[2].strip())
    return Words(**found)  # type: ignore[arg-type]


def value(where: str, name: str, words: str) -> str | int:
    """What a word is; an OfficeError that tells the cure where it is none."""
    fault = ""
    if name in ("units", "decimals", "minimum"):
        number = int(words) if words.isascii() and words.isdigit() and len(words) <= len(str(MOST_MINIMUM)) else -1
        if name == "units" and (number < 1 or not is_power(number)):
            fault = "how many units make one of the currency is 1, 10, 100 and so on: units 100"
        elif name == "decimals" and not 0 <= number <= MOST_DECIMALS:
            fault = f"a currency has 0 to {MOST_DECIMALS} decimals: decimals 2"
        elif not 0 <= number <= MOST_MINIMUM:
            fault = "write a number of units: minimum 1000"
        if not fault:
            return number
    elif name == "iban":
        words = compact(words)
        fault = iban_fault(words) and f"the office's IBAN {iban_fault(words)}"
    elif name == "bic":
        words = compact(words)
        fault = bic_fault(words) and f"the office's BIC {bic_fault(words)}"
    elif name == "currency" and not CURRENCY.fullmatch(words):
        fault = "a currency is three capital letters: currency EUR"
    elif name == "name" and not (words.isprintable() and can_be_read(words)):
        fault = "the name has no letter that a bank takes"
    elif name == "address" and not words.isprintable():
        fault = "write the address in one line, without characters that are not seen"
    if fault:
        raise OfficeError(f"{where}: {fault}")
    return words


def need_account(words: Words, file: pathlib.Path) -> None:
    """An OfficeError where it is not said who pays, and from where."""
    if not words.name or not words.iban:
        raise OfficeError(f"{file} does not say who pays and from where: write `name ..` and `iban ..` there")
