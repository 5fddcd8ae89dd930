"""Numbers of files: as the tables keep them, as they are sent, and the way of a sender's line through its years."""

import dataclasses
import re
from collections.abc import Iterable, Sequence

# In the tables number `k` of year `y` is YEARS + PER_YEAR * y + k, behind all plain numbers.
YEARS = 1_000_000
PER_YEAR = 10_000
PLAIN = -1
LAST_RANK = YEARS + PER_YEAR * 100 - 1
FILE_NAME = re.compile(r"CW(\d\d)(\d{4})[A-Z0-9]{2,3}_(\d{3})\.V2[12]", re.IGNORECASE | re.ASCII)
# The code of a sender in the name of a file, where only its number counts.
ANY_CODE = "CHK"
SENT = re.compile(r"(\d\d)-(\d{4})", re.ASCII)


def segment_of(rank: int) -> int:
    """The year of a number, PLAIN for a plain one."""
    return (rank - YEARS) // PER_YEAR if rank >= YEARS else PLAIN


def number_in(rank: int) -> int:
    """The number within its segment."""
    return (rank - YEARS) % PER_YEAR if rank >= YEARS else rank


def rank_in(segment: int, number: int) -> int:
    """How the tables keep a number of a segment."""
    return number if segment == PLAIN else YEARS + PER_YEAR * segment + number


def as_sent(rank: int) -> str:
    """A number as it is written in a path: `12`, or `26-0001`."""
    return str(rank) if rank < YEARS else f"{segment_of(rank):02d}-{number_in(rank):04d}"


def as_json(rank: int) -> int | str:
    """A number as it stands in an order or an answer: 12, or the text `26-0001`."""
    return rank if rank < YEARS else as_sent(rank)


def rank_of(number: int | str) -> int | None:
    """How the tables keep a number that was written as it is sent; None where it is none."""
    if isinstance(number, int):
        return number
    if year := SENT.fullmatch(number):
        return rank_in(int(year[1]), int(year[2]))
    return int(number) if number.isascii() and number.isdigit() else None


def segment_text(segment: int) -> str:
    """A segment as a path names it: `plain`, or the year in two digits."""
    return "plain" if segment == PLAIN else f"{segment:02d}"


def path_of(rank: int, society: int) -> str:
    """The path of a file behind its sender, under a number."""
    if segment_of(rank) == PLAIN:
        return f"transmissions/{rank}"
    return f"files/CW{segment_of(rank):02d}{number_in(rank):04d}{ANY_CODE}_{society:03d}.V22"


def counted(number: int, noun: str) -> str:
    """A number of things: `1 work`, `2 works`."""
    return f"{number:,} {noun}" if number == 1 else f"{number:,} {noun}s"


def ranges(ranks: Iterable[int], most: int = 10) -> str:
    """Ascending numbers as ranges, `1 to 4, 7`; after so many of them, how many numbers more there are."""
    found: list[list[int]] = []
    for rank in ranks:
        if found and found[-1][1] == rank - 1:
            found[-1][1] = rank
        else:
            found.append([rank, rank])
    shown = [as_sent(first) if first == last else f"{as_sent(first)} to {as_sent(last)}" for first, last in found[:most]]
    left = sum(last - first + 1 for first, last in found[most:])
    return ", ".join(shown) + (f" and {left:,} more" if left else "")


@dataclasses.dataclass(frozen=True)
class Line:
    """A sender's files: those applied, those that wait, and those that are never applied, by their numbers in the tables."""

    sender: str
    front: int
    works: int
    ends: dict[int, tuple[int, int]]
    numbers: Sequence[int]

    @property
    def way(self) -> list[int]:
        """The segments to which the stated ends lead, from the plain one on, also ahead of the front."""
        found = [PLAIN]
        while found[-1] in self.ends and found[-1] < self.ends[found[-1]][1]:
            found.append(self.ends[found[-1]][1])
        return found

    @property
    def applied(self) -> list[int]:
        """The numbers that are applied, ascending."""
        way = set(self.way)
        return [it for it in self.numbers if it <= self.front and segment_of(it) in way]

    @property
    def skipped(self) -> list[int]:
        """The numbers of years that the ends lead past: they are never applied."""
        way = self.way
        return [it for it in self.numbers if segment_of(it) not in way and segment_of(it) < way[-1]]

    @property
    def waiting(self) -> list[int]:
        """The numbers that wait for others, or for an end to be stated."""
        skipped = set(self.skipped)
        return [it for it in self.numbers if it > self.front and it not in skipped]

    @property
    def missing(self) -> list[int]:
        """The numbers that have not come and for which others wait, also over the ends that are stated ahead."""
        waiting = self.waiting
        found: list[int] = []
        for segment in self.way:
            last = max((it for it in waiting if segment_of(it) == segment), default=rank_in(segment, 0))
            if segment in self.ends and any(segment_of(it) > segment for it in waiting):
                last = rank_in(segment, self.ends[segment][0])
            found += sorted(set(range(max(self.front, rank_in(segment, 0)) + 1, last + 1)) - set(waiting))
        return found

    @property
    def lacks_end(self) -> int | None:
        """The segment whose end has to be stated, since files of a later year wait behind it."""
        last = self.way[-1]
        return last if any(segment_of(it) > last for it in self.waiting) else None
