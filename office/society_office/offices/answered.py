"""What an office answers that a copy has not, and what a copy has that an office answers not: asked without changing anything.

No office lists its returns and its pools. So it is asked for the numbers beside those that the copy has: for a return by an empty one,
which no office takes, and which it refuses as `reused` where there is one; for pools also by the balances of accounts.
"""

import dataclasses
import urllib.parse
from collections.abc import Iterable, Iterator
from typing import Protocol

from society_office.basics.errors import OfficeError
from society_office.book.copy import Copy
from society_office.closings.orders import LAST_POOL
from society_office.formats.numbering import as_sent
from society_office.formats.return_names import LAST_NUMBER
from society_office.offices.asking import Request
from society_office.offices.program import Answer

# So many numbers behind the last one of a reporter, or of the pools, are asked for, and so many of those that are left out below it.
BEHIND, BELOW = 3, 5
# So many accounts are asked for, those with the greatest balances first.
MOST_ACCOUNTS = 200
FRONT, RETURN, POOL, ACCOUNT = "front", "return", "pool", "account"


class Asked(Protocol):
    """An office that answers requests, as asking.Connections."""

    address: str

    def ask(self, it: Request) -> Answer:
        """The answer to a request."""


def no_office(office: Asked, answer: Answer, path: str) -> OfficeError:
    """What is said where something else answers."""
    return OfficeError(f"{office.address} is no office: it answers {answer.status} to {path}")


def front_at(office: Asked, sender: str) -> tuple[int, set[int]]:
    """The front and the held numbers of a sender at an office."""
    answer = office.ask(Request(FRONT, f"senders/{sender}"))
    if answer.status != 200 or answer.standing is None:
        raise no_office(office, answer, f"senders/{sender}")
    return answer.standing


def has_return(office: Asked, reporter: str, number: int) -> bool:
    """Whether an office has a return under a number: it refuses an empty one as another one, and not for its form."""
    answer = office.ask(Request(RETURN, f"returns/{reporter}/{number}", b""))
    if answer.error not in ("reused", "csv"):
        raise no_office(office, answer, f"returns/{reporter}/{number}")
    return answer.error == "reused"


def has_pool(office: Asked, pool: int) -> bool:
    """Whether an office has closed a pool."""
    answer = office.ask(Request(POOL, f"pools/{pool}"))
    if answer.status != 200 and answer.error != "unknown":
        raise no_office(office, answer, f"pools/{pool}")
    return answer.status == 200


def balance_at(office: Asked, account: str) -> int:
    """The units that an account has at an office."""
    answer = office.ask(Request(ACCOUNT, f"accounts/{urllib.parse.quote(account, safe='')}"))
    units = answer.told.get("units")
    if answer.status != 200 or not isinstance(units, int):
        raise no_office(office, answer, f"accounts/{account}")
    return units


def numbers_beside(used: Iterable[int], last: int) -> list[int]:
    """Numbers that are not used: the next ones behind the last, and the greatest that are left out below it."""
    there = set(used)
    highest = max(there, default=0)
    behind = [it for it in range(highest + 1, highest + BEHIND + 1) if it <= last]
    below = [it for it in range(highest - 1, max(0, highest - 10 * BELOW), -1) if it not in there]
    return behind + below[:BELOW]


def returns_of(copy: Copy) -> dict[str, list[int]]:
    """The numbers of each reporter's returns."""
    found: dict[str, list[int]] = {}
    for reporter, number in copy.rows("SELECT reporter, number FROM returns ORDER BY reporter, number"):
        found.setdefault(reporter, []).append(number)
    return found


def greatest_accounts(copy: Copy) -> dict[str, int]:
    """The balances of the accounts that have most."""
    copy.need_derived()
    return dict(copy.rows("SELECT account, units FROM balances ORDER BY units DESC, account LIMIT ?", MOST_ACCOUNTS))


@dataclasses.dataclass(frozen=True)
class Lack:
    """What one has and the other has not: files of a sender up to a number, a return, a pool, or units of an account."""

    kind: str
    key: str
    number: int
    words: str

    def is_in(self, copy: Copy) -> bool:
        """Whether a copy has it."""
        if self.kind == FRONT:
            line = copy.line(self.key)
            return line is not None and (line.front >= self.number or self.number in (*line.waiting, *line.skipped))
        if self.kind == RETURN:
            return copy.row("SELECT 1 FROM returns WHERE reporter = ? AND number = ?", self.key, self.number) is not None
        if self.kind == POOL:
            return copy.row("SELECT 1 FROM pools WHERE pool = ?", self.number) is not None
        return balance_in(copy, self.key) >= self.number


def lacks(copy: Copy, office: Asked) -> Iterator[Lack]:
    """What the office has and the copy has not."""
    for line in copy.lines():
        front, held = front_at(office, line.sender)
        have = {*line.waiting, *line.skipped}
        for number in [front] * (front > line.front) + sorted(it for it in held - have if it > line.front):
            words = f"file {as_sent(number)} of {line.sender} (its front is {as_sent(front)} there, and {as_sent(line.front)} in the copy)"
            yield Lack(FRONT, line.sender, number, words)
    for reporter, numbers in returns_of(copy).items():
        for number in numbers_beside(numbers, LAST_NUMBER):
            if has_return(office, reporter, number):
                yield Lack(RETURN, reporter, number, f"return {reporter}/{number}")
    for pool in numbers_beside((it for it in copy.pools() if it <= LAST_POOL // 2), LAST_POOL):
        if has_pool(office, pool):
            yield Lack(POOL, "", pool, f"pool {pool}")
    for account, units in greatest_accounts(copy).items():
        if (told := balance_at(office, account)) > units:
            yield Lack(ACCOUNT, account, told, f"a pool ({account} has {told:,} units there, and {units:,} in the copy)")
            return


def balance_in(copy: Copy, account: str) -> int:
    """The units that an account has in a copy."""
    row = copy.row("SELECT units FROM balances WHERE account = ?", account)
    return int(row[0]) if row else 0


def lost(copy: Copy, office: Asked) -> Iterator[Lack]:
    """What the copy has and the office has not: by fronts, by the last return of each reporter, and by balances."""
    for line in copy.lines():
        front, _ = front_at(office, line.sender)
        if front < line.front:
            words = f"files of {line.sender} (its front is {as_sent(front)} there, and {as_sent(line.front)} in the copy)"
            yield Lack(FRONT, line.sender, line.front, words)
    yield from lost_money(copy, office)


def lost_money(copy: Copy, office: Asked) -> Iterator[Lack]:
    """The same of returns and pools."""
    for reporter, numbers in returns_of(copy).items():
        if not has_return(office, reporter, numbers[-1]):
            yield Lack(RETURN, reporter, numbers[-1], f"return {reporter}/{numbers[-1]}")
    for account, units in greatest_accounts(copy).items():
        if (told := balance_at(office, account)) < units:
            yield Lack(ACCOUNT, account, units, f"a pool ({account} has {told:,} units there, and {units:,} in the copy)")
            return
