"""Which registered recordings may be meant by an ISRC that no work names. This module is the definition: it reads and writes nothing.

An ISRC has a registrant (two letters of a country and three more), two digits of a year, and five of a designation. Likely are, in this
order: two characters that stand beside each other exchanged; another year, or another registrant, with all else the same; and one
digit another one. Each is likely by the first of these that it is.
"""

import collections
from collections.abc import Iterable, Iterator
from typing import NamedTuple

REGISTRANT, YEAR = 5, 7
EXCHANGED, OTHER_YEAR, OTHER_REGISTRANT, OTHER_DIGIT = (
    "two characters exchanged",
    "another year",
    "another registrant",
    "one digit another one",
)


class Likely(NamedTuple):
    """A recording that may be meant, and how it differs from what was written."""

    isrc: str
    how: str


class Registered:
    """Recordings that works name, among which others are looked for."""

    def __init__(self, isrcs: Iterable[str]) -> None:
        """By their ISRCs."""
        self.isrcs = set(isrcs)
        self.by_end = collections.defaultdict[str, list[str]](list)
        for it in sorted(self.isrcs):
            self.by_end[it[REGISTRANT:]].append(it)

    def likely(self, isrc: str) -> list[Likely]:
        """Those that may be meant by one that is not there, each once, the likeliest first."""
        found = dict[str, str]()
        for it, how in self.variants(isrc):
            if it in self.isrcs and it != isrc:
                found.setdefault(it, how)
        return [Likely(*it) for it in found.items()]

    def variants(self, isrc: str) -> Iterator[tuple[str, str]]:
        """All that may be meant, registered or not, but of another registrant only what is."""
        for k in range(len(isrc) - 1):
            yield isrc[:k] + isrc[k + 1] + isrc[k] + isrc[k + 2 :], EXCHANGED
        for year in range(100):
            yield f"{isrc[:REGISTRANT]}{year:02d}{isrc[YEAR:]}", OTHER_YEAR
        yield from ((it, OTHER_REGISTRANT) for it in self.by_end.get(isrc[REGISTRANT:], ()))
        # (with another character before the year it is of another registrant)
        for k in range(REGISTRANT, len(isrc)):
            yield from ((isrc[:k] + it + isrc[k + 1 :], OTHER_DIGIT) for it in "0123456789")
