"""Collection shares at the office by our own reading, for checks of files. A share is in hundredths of a percent."""

import dataclasses
from collections.abc import Iterable

from society_office.formats.fields import PARTIES, ROWS, SHARE, TIS_CODE, WHOLE, WORLD, TerritoryRecord


@dataclasses.dataclass
class Holder:
    """A party of a work and what it collects at the office in each right, by the row at this line of the work where one counts."""

    side: str
    number: bytes
    collects: tuple[int, int, int] = (0, 0, 0)
    row: int | None = None


def share(raw: bytes) -> int:
    """A share, 0 where the field is blank or no share."""
    return int(raw) if SHARE.fullmatch(raw) and int(raw) <= WHOLE else 0


def counts(places: TerritoryRecord, line: bytes, territory: int) -> bool:
    """Whether a territory row counts at an office of this territory."""
    digits = places.code.of(line).strip(b" ")
    return places.indicator.of(line) in (b"I", b"E") and bool(TIS_CODE.fullmatch(digits)) and int(digits) in (WORLD, territory)


def row_shares(places: TerritoryRecord, line: bytes) -> tuple[int, int, int]:
    """The three collection shares of a territory row; an exclusion has none."""
    if places.indicator.of(line) == b"E":
        return 0, 0, 0
    pr, mr, sr = (share(it.of(line)) for it in places.collects)
    return pr, mr, sr


def holders_of(lines: Iterable[bytes], territory: int) -> list[Holder]:
    """The parties of the lines of a work, with what each collects: what its last row says that counts."""
    found: list[Holder] = []
    for at, line in enumerate(lines):
        if (places := PARTIES.get(line[:3])) is not None:
            found.append(Holder(places.side, places.number.of(line).strip(b" ")))
        elif (row := ROWS.get(line[:3])) is not None and counts(row, line, territory):
            number = row.number.of(line).strip(b" ")
            owner = next((it for it in reversed(found) if it.side == row.side and it.number == number), None)
            if owner:
                owner.collects, owner.row = row_shares(row, line), at
    return found
