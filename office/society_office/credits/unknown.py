"""Plays of nobody's recording: what each station has played that no file names, what pools paid to nobody for it, and what may be meant.

Units that a pool has paid for a recording to nobody are of the stations by their points of it there; last units go by the greatest
remainders. A recording that a rejected work or a file that waits names is none of these: `unclaimed` tells its cure.
"""

import collections
import csv
import dataclasses
import io
import pathlib
from collections.abc import Iterator, Mapping, Sequence

from society_office.basics.errors import OfficeError
from society_office.book.copy import Copy
from society_office.book.own_returns import is_own
from society_office.closings.dues import shared
from society_office.credits.unclaimed import Cause, Unclaimed
from society_office.formats.plays import BOM, rows
from society_office.formats.return_names import Entry, Return, are_listed
from society_office.works.likely import Registered
from society_office.works.owners import Owners
from society_office.works.records import Works, decoded, sender_names, shown_number
from society_office.works.work_index import Index
from society_office.works.work_search import asked, words_of

# Candidates that are told of a recording.
MOST_LIKELY = 5
BY_TITLE = "the title"
# Works with the words of a title among which those are looked for that are called just so.
MOST_TITLES = 1_000


@dataclasses.dataclass(frozen=True)
class Candidate:
    """A recording, or by its title a work, that may be meant: how, and whose it is."""

    isrc: str
    how: str
    title: str
    work: str
    sender: str
    sender_name: str


@dataclasses.dataclass
class Unknown:
    """A recording that a station has played and no file names: in which returns, how often, its points, and the units paid to nobody."""

    station: str
    isrc: str
    returns: list[Return] = dataclasses.field(default_factory=list)
    plays: int = 0
    points: int = 0
    units: int = 0
    title: str = ""
    candidates: list[Candidate] = dataclasses.field(default_factory=list)
    more: int = 0


class Finder:
    """Finds them in a copy; void returns are no plays."""

    def __init__(self, copy: Copy, void: Sequence[Entry]) -> None:
        """Reads what works name."""
        self.copy, self.void, self.unclaimed = copy, void, Unclaimed(copy)
        self.registered = Registered(it for it, in copy.rows("SELECT DISTINCT isrc FROM recordings"))

    def is_unknown(self, isrc: str) -> bool:
        """Whether no file names a recording."""
        return isrc not in self.registered.isrcs and isrc not in self.unclaimed.rejected and isrc not in self.unclaimed.waiting

    def all(self, station: str | None, titles: Mapping[str, str], index: Index | None) -> list[Unknown]:
        """All of them, or those of one station, with candidates: by station and units, the greatest first."""
        found, by_pool = dict[tuple[str, str], Unknown](), collections.defaultdict[tuple[int | None, str], dict[str, int]](dict)
        for (reporter, number), pool, isrc, plays, seconds in self.played():
            it = found.setdefault((reporter, isrc), Unknown(reporter, isrc))
            it.returns += [(reporter, number)] if (reporter, number) not in it.returns[-1:] else []
            it.plays += plays
            it.points += plays * seconds
            by_pool[pool, isrc][reporter] = by_pool[pool, isrc].get(reporter, 0) + plays * seconds
        for one in self.unclaimed.each():
            if one.cause is Cause.NOBODY and (weights := by_pool.get((one.pool, one.isrc))):
                for reporter, units in shared(one.units, list(weights.items())).items():
                    found[reporter, one.isrc].units += units
        listed = [it for it in found.values() if station in (None, it.station)]
        self.add_candidates(listed, titles, index)
        sums = collections.Counter[str]()
        for it in listed:
            sums[it.station] += it.units
        return sorted(listed, key=lambda it: (-sums[it.station], it.station, -it.units, -it.points, it.isrc))

    def played(self) -> Iterator[tuple[Return, int | None, str, int, int]]:
        """The rows of stations that no file names, each with its return and the pool that has paid it."""
        joined = "returns LEFT JOIN pool_returns USING (reporter, number)"
        for reporter, number, body, pool in self.copy.rows(f"SELECT reporter, number, body, pool FROM {joined} ORDER BY reporter, number"):
            if not is_own(reporter) and not are_listed(self.void, (reporter, number)):
                yield from (((reporter, number), pool, *it) for it in rows(bytes(body)) if self.is_unknown(it[0]))

    def add_candidates(self, listed: Sequence[Unknown], titles: Mapping[str, str], index: Index | None) -> None:
        """Adds what may be meant: works by the title that a station gives, then recordings by the ISRC."""
        likely = {it.isrc: self.registered.likely(it.isrc) for it in listed}
        self.copy.listed("DROP TABLE IF EXISTS temp.likely")
        self.copy.listed("CREATE TEMP TABLE likely (isrc TEXT PRIMARY KEY)")
        shown = {one.isrc for ones in likely.values() for one in ones[:MOST_LIKELY]}
        self.copy.database.executemany("INSERT INTO temp.likely VALUES (?)", ((it,) for it in shown))
        owners, works, names = Owners(self.copy, "SELECT isrc FROM temp.likely"), Works(self.copy), sender_names(self.copy)
        texts = {titles.get(it.isrc, "") for it in listed} - {""} if index else set[str]()
        by_title = {text: list(titled(text, index, works, names)) for text in texts if index}
        for it in listed:
            it.title = titles.get(it.isrc, "")
            told = by_title.get(it.title, [])
            for isrc, how in likely[it.isrc][:MOST_LIKELY]:
                claim = owners.ever(isrc)[-1]
                title = works.title(claim.sender, claim.number, claim.place)
                told = [*told, Candidate(isrc, how, title, claim.work, claim.sender, names.get(claim.sender, ""))]
            it.candidates, it.more = told, max(0, len(likely[it.isrc]) - MOST_LIKELY)


def titled(text: str, index: Index, works: Works, names: Mapping[str, str]) -> Iterator[Candidate]:
    """The works with a title: those that are called just so first, then others that have all its words."""
    found, wanted = [], words_of(text)
    for sender, work, places in index.places(index.find(asked([text]))[:MOST_TITLES]):
        title = works.title(sender, *places[-1])
        found.append((words_of(title) != wanted, Candidate("", BY_TITLE, title, shown_number(work), sender, names.get(sender, ""))))
    yield from (it for _, it in sorted(found, key=lambda it: it[0])[:MOST_LIKELY])


def titles_in(file: pathlib.Path) -> dict[str, str]:
    """By recording the title that a file of a station gives in a further column; an OfficeError where it has none."""
    body = file.read_bytes().removeprefix(BOM)
    parting = max(",;\t", key=body.partition(b"\n")[0].decode("latin-1").count)
    lines = csv.reader(io.StringIO(decoded(body), newline=""), delimiter=parting)
    head = [it.strip().lower() for it in next(lines, [])]
    if "isrc" not in head or "title" not in head:
        raise OfficeError(f"{file} has no columns isrc and title in its first line")
    found = dict[str, str]()
    for cells in lines:
        isrc, title = (dict(zip(head, cells)).get(it, "").strip() for it in ("isrc", "title"))
        if isrc and title:
            found.setdefault(isrc.upper().replace("-", ""), title)
    return found
