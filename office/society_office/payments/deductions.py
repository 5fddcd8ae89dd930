"""Deductions as rules by text, deductions.txt, an entry a line, taken in their order:

    administration: 15 % of gross
    social fund: 5 % of rest; right PR; from pool 3
    tax withheld: 20 % of rest; tax foreign
    bank charge: 100 units; pools 3-6,99999; members M1 M2
"""

import dataclasses
import pathlib
import re
from collections.abc import Mapping

from society_office.basics.errors import OfficeError
from society_office.closings.orders import LAST_POOL
from society_office.formats.word_lists import entries_of
from society_office.payments.owed import WHOLE, Rule

HEAD = (
    "# Deductions, taken in this order: administration: 15 % of gross; right PR MR; from pool 1\n"
    "# Of gross or of rest, or 100 units once a pool; right PR MR; from pool 3, or pools 3-6,9; members M1 M2; tax foreign.\n"
)
PART = re.compile(r"([0-9]{1,3})(?:\.([0-9]{1,2}))? ?% of (gross|rest)", re.ASCII)
FIXED = re.compile(r"([1-9][0-9]{0,11}) units", re.ASCII)
NAME = re.compile(r"[^\W_][^:;\t#]{0,39}")
FORM = "write name: 15 % of gross (or of rest, or 100 units); right PR MR; from pool 3; members M1 M2; tax foreign"
KEY = r"[0-9A-Z]{1,16}"
FROM, POOLS = re.compile(r"from pool ([1-9][0-9]{0,4})", re.ASCII), re.compile(r"pools ([0-9,-]+)", re.ASCII)
RANGE = re.compile(r"([1-9][0-9]{0,4})(?:-([1-9][0-9]{0,4}))?", re.ASCII)
RIGHTS = re.compile(r"right (PR|MR)( (PR|MR))?", re.ASCII)
MEMBERS, TAXES = re.compile(rf"members ({KEY}(?: {KEY})*)", re.ASCII), re.compile(r"tax ([a-z0-9-]+(?: [a-z0-9-]+)*)", re.ASCII)


@dataclasses.dataclass
class Whom:
    """Whom a rule is for: pools, rights, members and tax classes; None where it is for all."""

    pools: list[tuple[int, int]] | None = None
    rights: set[str] | None = None
    members: set[str] | None = None
    taxes: set[str] | None = None

    def applies(self, pool: int, right: str, member: str, tax: str) -> bool:
        """Whether a rule takes of what a pool of this right credited to a member of this tax class."""
        in_pools = self.pools is None or any(first <= pool <= last for first, last in self.pools)
        asked = ((self.rights, right), (self.members, member), (self.taxes, tax))
        return in_pools and all(wanted is None or it in wanted for wanted, it in asked)


def read(file: pathlib.Path, tax_of: Mapping[str, str]) -> list[Rule]:
    """The rules of a file in their order, for members with these tax classes; an OfficeError with the line of what is none."""
    found: list[Rule] = []
    for where, line in entries_of(file):
        name, colon, rest = line.partition(":")
        what, *limits = [it.strip() for it in rest.split(";")]
        if not colon or not NAME.fullmatch(name) or not name.isprintable():
            raise OfficeError(f"{where}: {line!r} is no deduction: {FORM}")
        if any(it.name == name for it in found):
            raise OfficeError(f"{where}: there is a deduction {name} already")
        found.append(rule_of(where, name, what, whom(where, limits), tax_of))
    return found


def rule_of(where: str, name: str, what: str, of: Whom, tax_of: Mapping[str, str]) -> Rule:
    """A rule by what it takes, and of whom."""
    part, fixed = PART.fullmatch(what), FIXED.fullmatch(what)
    hundredths = int(part[1]) * 100 + int((part[2] or "").ljust(2, "0")) if part else 0
    if not (fixed or part and 0 < hundredths <= WHOLE):
        raise OfficeError(f"{where}: {what!r} is no part and no amount: {FORM}")

    def applies(pool: int, right: str, member: str) -> bool:
        return of.applies(pool, right, member, tax_of.get(member, ""))

    return Rule(name, hundredths, int(fixed[1]) if fixed else 0, bool(part and part[3] == "gross"), applies)


def whom(where: str, limits: list[str]) -> Whom:
    """Whom a rule is for; an OfficeError where that is not said in these words, or twice."""
    found = Whom()
    for it in limits:
        name, value = next((made for read_one in (pools_of, rights_of, members_of, taxes_of) if (made := read_one(it))), ("", None))
        if value is None or getattr(found, name) is not None:
            raise OfficeError(f"{where}: {it!r} does not say of whom, or it was said already: {FORM}")
        setattr(found, name, value)
    return found


def pools_of(words: str) -> tuple[str, object] | None:
    """`from pool 3` and `pools 3-6,9`."""
    if found := FROM.fullmatch(words):
        return "pools", [(int(found[1]), LAST_POOL)]
    ranges = [RANGE.fullmatch(it) for it in found[1].split(",")] if (found := POOLS.fullmatch(words)) else []
    listed = [(int(it[1]), int(it[2] or it[1])) for it in ranges if it]
    return ("pools", listed) if listed and len(listed) == len(ranges) and all(first <= last for first, last in listed) else None


def rights_of(words: str) -> tuple[str, object] | None:
    """`right PR MR`."""
    return ("rights", set(words.split()[1:])) if RIGHTS.fullmatch(words) else None


def members_of(words: str) -> tuple[str, object] | None:
    """`members M1 M2`."""
    return ("members", set(found[1].split())) if (found := MEMBERS.fullmatch(words)) else None


def taxes_of(words: str) -> tuple[str, object] | None:
    """`tax foreign`."""
    return ("taxes", set(found[1].split())) if (found := TAXES.fullmatch(words)) else None
