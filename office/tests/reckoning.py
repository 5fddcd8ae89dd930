"""What an office's pools have to credit, reckoned from the office's rules and what was sent; nothing of the package is used.

Points are plays times seconds. The amount is split over the recordings by points, each part over the holders of the only work whose version
at the cut names the recording, by their collection shares in the pool's right, and what these leave of 10000 is nobody's.
"""

import functools
from collections import Counter

from cwr import Party, Work
from office_value import Key, Office

NOBODY = "UNCLAIMED"
WORLD = 2136
# A credit: recording, account, units.
Credit = tuple[str, str, int]


def split(amount: int, weights: list[int]) -> list[int]:
    """An amount by weights, the units that are left to the greatest remainders, the earlier first where they are equal."""
    whole = sum(weights)
    parts = [amount * it // whole for it in weights]
    remainders = sorted(range(len(weights)), key=lambda k: (-(amount * weights[k] % whole), k))
    for k in remainders[: amount - sum(parts)]:
        parts[k] += 1
    return parts


def account(sender: str, party: Party) -> str:
    digits = party.ipi.strip()
    if digits.strip("0"):
        return "I" + digits.rjust(11, "0")
    return f"P{sender}{party.number}" if party.number else NOBODY


def collects(party: Party, right: str, territory: int) -> int:
    """The collection share of the last row that is of the world or of the office's territory."""
    share = 0
    for row in party.rows:
        if int(row.territory) in (WORLD, territory):
            share = int(row.shares[("PR", "MR").index(right)]) if row.indicator == "I" else 0
    return share


def holders(office: Office, sender: str, work: Work, right: str) -> list[tuple[str, int]]:
    found = [(account(sender, it), collects(it, right, office.territory)) for it in work.parties]
    return [*found, (NOBODY, max(10_000, sum(it[1] for it in found)) - sum(it[1] for it in found))]


def versions(office: Office, cut: dict[str, int]) -> dict[tuple[str, str], Work]:
    """The last accepted version of each work that a cut counts; of a file registrations come before revisions."""
    found = {}
    for sender, number, _, works in office.files:
        if (sender, number) in office.applied and number <= cut.get(sender, 0):
            found.update({(sender, it.number): it for it in sorted(works, key=lambda it: it.kind) if not it.fault})
    return found


@functools.cache
def owners(office: Office, pool: int | None) -> dict[str, list[tuple[str, Work]]]:
    """The works that name each recording at the cut of a pool, or now."""
    found: dict[str, list[tuple[str, Work]]] = {}
    for (sender, _), work in versions(office, office.fronts() if pool is None else office.pools[pool].cut).items():
        for isrc in dict.fromkeys(work.recordings):
            found.setdefault(isrc, []).append((sender, work))
    return found


def claimants(office: Office, pool: int | None, isrc: str) -> list[tuple[str, Work]]:
    return owners(office, pool).get(isrc, [])


def points(office: Office, returns: list[Key]) -> dict[str, int]:
    found: Counter[str] = Counter()
    for named in returns:
        for isrc, plays, seconds in office.returns[named]:
            found[isrc.upper().replace("-", "")] += plays * seconds
    return dict(sorted(found.items()))


@functools.cache
def credits(office: Office, pool: int) -> list[Credit]:
    """The credits of a pool."""
    _, right, amount, _, returns = office.pools[pool]
    played = points(office, returns)
    if not played:
        return [("-", NOBODY, amount)]
    lines = []
    for isrc, part in zip(played, split(amount, list(played.values()))):
        found = claimants(office, pool, isrc)
        owned = holders(office, *found[0], right) if len(found) == 1 else [(NOBODY, 1)]
        lines += [(isrc, name, units) for (name, _), units in zip(owned, split(part, [it[1] for it in owned]))]
    return lines


def lines_of(office: Office, name: str) -> list[tuple[int, str, str, str, str, str, int]]:
    """An account's credits: pool, right, recording, title, work, sender, units."""
    found = []
    for pool in sorted(office.pools):
        for isrc, to, units in credits(office, pool):
            if to == name:
                owned = claimants(office, pool, isrc)
                title, work, sender = (owned[0][1].title, owned[0][1].number, owned[0][0]) if len(owned) == 1 else ("", "", "")
                found.append((pool, office.pools[pool].right, isrc, title, work, sender, units))
    return found


@functools.cache
def balances(office: Office) -> dict[str, int]:
    found: Counter[str] = Counter()
    for pool in office.pools:
        for _, name, units in credits(office, pool):
            found[name] += units
    return dict(found)


@functools.cache
def unclaimed(office: Office, pool: int) -> dict[str, tuple[str, int]]:
    """The unclaimed units of a pool's recordings, each with `plays`, `none`, `conflict` or `share`."""
    names = {0: "none", 1: "share"}
    found: Counter[str] = Counter()
    for isrc, to, units in credits(office, pool):
        if to == NOBODY and units:
            found[isrc] += units
    causes = {it: "plays" if it == "-" else names.get(len(claimants(office, pool, it)), "conflict") for it in found}
    return {isrc: (causes[isrc], units) for isrc, units in found.items()}


def due(office: Office) -> Counter[tuple[str, str, str]]:
    """What is due where nothing was decided, by right, recording and account: to the owner at the cut, else to that of now."""
    found: Counter[tuple[str, str, str]] = Counter()
    for pool, (_, right, amount, _, returns) in office.pools.items():
        played = points(office, returns)
        for isrc, part in zip(played, split(amount, list(played.values())) if played else []):
            named = claimants(office, pool, isrc)
            if len(named) != 1:
                named = claimants(office, None, isrc)
            owned = holders(office, *named[0], right) if len(named) == 1 else [(NOBODY, 1)]
            for (name, _), units in zip(owned, split(part, [it[1] for it in owned])):
                found[right, isrc, name] += units
        if not played:
            found[right, "-", NOBODY] += amount
    return found


def sums(lines: list[Credit]) -> Counter[str]:
    """Credits by account."""
    found: Counter[str] = Counter()
    for _, name, units in lines:
        found[name] += units
    return found
