"""What pools of a copy have credited, taken into the ledger: once each, to whose account it was on the pool's day."""

import dataclasses
import datetime

from society_office.basics.errors import OfficeError
from society_office.book.copy import Copy
from society_office.book.soundness import need_sound
from society_office.formats.pool_names import PoolNames
from society_office.payments.home import Desk, Home
from society_office.payments.ledger import NOBODY
from society_office.payments.owed import Credit, Entry, Kind, bookings
from society_office.works.records import UNCLAIMED


@dataclasses.dataclass(frozen=True)
class Credits:
    """What the pools of a copy have credited, by account, and the day of the copy."""

    office: str
    path: str
    taken: datetime.date
    pools: frozenset[int]
    listed: tuple[Credit, ...]


def read(copy: Copy) -> Credits:
    """Them; an OfficeError where the copy is not sound."""
    need_sound(copy, sums=True)
    rights = copy.rights()
    question = "SELECT pool, account, sum(units) FROM credits GROUP BY pool, account ORDER BY pool, account"
    listed = tuple(Credit(pool, rights[pool], account, units) for pool, account, units in copy.rows(question) if units)
    office = f"{copy.society} {copy.territory} {copy.name}"
    return Credits(office, str(copy.path), datetime.date.fromtimestamp(copy.taken), frozenset(rights), listed)


def need_same(found: Credits, home: Home) -> None:
    """An OfficeError where a copy is another office's, or lacks what the ledger has booked, or has credited something else."""
    ledger = home.ledger
    if ledger.office not in ("", found.office):
        raise OfficeError(f"{found.path} is of the office {found.office}, and the ledger of {ledger.office}")
    if lacking := sorted({pool for pool, _ in ledger.credited} - found.pools):
        raise OfficeError(f"{found.path} is older than the ledger, which has booked pool {lacking[0]}: take a newer copy")
    units = {(it.pool, it.account): it.units for it in found.listed}
    for (pool, account), (_, booked) in ledger.credited.items():
        if units.get((pool, account), 0) != booked:
            raise OfficeError(
                f"{found.path}: pool {pool} has credited {units.get((pool, account), 0):,} units to {account}, and the ledger has booked "
                f"{booked:,}: one of the two is not this office's"
            )


def lines_for(found: Credits, home: Home, names: PoolNames) -> list[Entry]:
    """The lines by which the ledger has all that the copy has; nothing of accounts that no member has."""
    need_same(found, home)

    def day_of(pool: int) -> datetime.date:
        return names[pool].last if pool in names else found.taken

    begun = [] if home.ledger.lines else [Entry(Kind.BEGUN, found.taken, NOBODY, 0, 0, found.office)]
    return [*begun, *bookings(found.listed, day_of, home.members.of, home.rules, home.ledger.booked)]


def book(found: Credits, desk: Desk) -> int:
    """Writes them into the ledger; answers how many units they credit to members."""
    entries = lines_for(found, desk.home, desk.home.decided.pools)
    desk.book(entries)
    return sum(it.units for it in entries if it.kind == Kind.CREDITED and it.member != UNCLAIMED)


def ownerless(found: Credits, home: Home) -> dict[str, int]:
    """The units of accounts that no member has, and that were not booked: the greatest first."""
    sums: dict[str, int] = {}
    for it in found.listed:
        if it.account != UNCLAIMED and (it.pool, it.account) not in home.ledger.credited:
            day = home.ledger.days.get(it.pool, home.decided.pools[it.pool].last if it.pool in home.decided.pools else found.taken)
            if home.members.of(it.account, day) is None:
                sums[it.account] = sums.get(it.account, 0) + it.units
    return dict(sorted(sums.items(), key=lambda it: (-it[1], it[0])))


def moved(found: Credits, home: Home) -> list[tuple[int, str, str, str]]:
    """What was booked to another member than the one who has the account on the pool's day by members.csv as it is: pool, account, both."""
    ledger, listed = home.ledger, []
    for (pool, account), (member, _) in ledger.credited.items():
        owner = home.members.of(account, ledger.days[pool])
        if account != UNCLAIMED and owner is not None and owner != member and member not in ledger.erased:
            listed.append((pool, account, member, owner))
    return sorted(listed)
