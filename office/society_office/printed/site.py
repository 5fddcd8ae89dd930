"""Pages of a whole office, made of a copy: senders, rejected works, pools, stations, returns and balances."""

import collections
import csv
import dataclasses
import heapq
import io
import json
import pathlib
import re
from collections.abc import Callable, Iterable, Iterator, Sequence
from typing import Any

from society_office.basics.plain_text import plain
from society_office.book.copy import Copy
from society_office.book.own_returns import is_own
from society_office.checks import faults
from society_office.checks.why import Rejected, state_lines, story
from society_office.closings.pool_ties import ties_of
from society_office.credits.parties import names_of, parties
from society_office.credits.statements import folder_of
from society_office.credits.unclaimed import BOOKING, CURES, Cause, Found, Item, Unclaimed
from society_office.decided.decisions import Decisions
from society_office.formats.numbering import Line, as_sent, ranges, segment_text
from society_office.formats.plays import points
from society_office.formats.pool_names import PoolNames
from society_office.formats.return_names import Entry, are_listed
from society_office.printed import pages, pictures
from society_office.printed.work_pages import WorkPages, page_of
from society_office.works.records import UNCLAIMED, sender_names

# What a page shows at most: unclaimed recordings of a pool, accounts of a pool, rejected works of a group, rows of a page of balances.
MOST_UNCLAIMED, MOST_ACCOUNTS, MOST_REJECTED, PER_PAGE = 40, 40, 50, 500
PART_OF = {Cause.SHARE: "share", Cause.CONFLICT: "conflict"}
# The names of pages.
DESK = "desk.json"
PAGE = re.compile(
    r"office\.css|works\.js|desk\.json|(balances|rejected)\.csv|[a-z]+(-[0-9]+)?\.html|(senders|pools)/[0-9A-Z]+\.html|\..*\.new"
    r"|works/[0-9A-Z]{11}(-[0-9]+)?\.html|works/[0-9A-Z]{11}/[0-9A-Za-z-]+\.html|find/[a-z0-9]+\.js"
)
MENU = [
    ("index.html", "Overview"),
    ("works.html", "Works"),
    ("senders.html", "Senders"),
    ("rejected.html", "Rejected works"),
    ("pools.html", "Pools"),
    ("stations.html", "Stations"),
    ("balances.html", "Balances"),
]


@dataclasses.dataclass
class PoolPage:
    """A pool: its amount, right, order, parts, and what went to nobody."""

    pool: int
    right: str
    amount: int
    cut: list[tuple[str, int]]
    returns: list[tuple[str, int]]
    parts: dict[str, int]
    causes: dict[Cause, int] = dataclasses.field(default_factory=dict)
    recordings: int = 0
    largest: list[tuple[int, int, Found]] = dataclasses.field(default_factory=list)

    @property
    def unclaimed(self) -> int:
        """What went to nobody, and was not paid since."""
        return self.amount - self.parts["paid"] - self.parts["settled"]

    @property
    def ordered_causes(self) -> list[tuple[Cause, int]]:
        """The causes that its unclaimed units have, in the order of the causes."""
        return [(it, self.causes[it]) for it in Cause if it in self.causes]

    def note(self, found: Found, settled: int) -> None:
        """Adds what went to nobody for a recording, and what of that was paid since; the largest of what is left are kept."""
        it = found._replace(units=found.units - settled)
        self.parts["settled"] += settled
        if not it.units:
            return
        part = PART_OF.get(it.cause, "nobody")
        self.parts[part] += it.units
        self.causes[it.cause] = self.causes.get(it.cause, 0) + it.units
        self.recordings += 1
        entry = (it.units, -self.recordings, it)
        if len(self.largest) < MOST_UNCLAIMED:
            heapq.heappush(self.largest, entry)
        else:
            heapq.heappushpop(self.largest, entry)

    @property
    def shown(self) -> list[Found]:
        """The largest of what went to nobody, the greatest first."""
        return [it for _, _, it in sorted(self.largest, reverse=True)]


@dataclasses.dataclass
class Station:
    """A reporter: its returns, rows of plays and points."""

    reporter: str
    returns: list[tuple[int, int, int, str]] = dataclasses.field(default_factory=list)

    @property
    def points(self) -> int:
        """All its points."""
        return sum(it[2] for it in self.returns)

    def count(self, state: str) -> int:
        """How many of its returns are in a state: paid, unpaid or void."""
        return sum(it[3].startswith(state) for it in self.returns)


class Site:
    """What the pages show, read out of one copy."""

    def __init__(self, copy: Copy, known: Decisions | None, progress: Callable[[str], None]) -> None:
        """Reads what several pages need; `known` is what was decided, where that is known, and `progress` is told what is done."""
        copy.need_derived()
        self.copy, self.progress = copy, progress
        self.void: Sequence[Entry] = known.void if known else []
        self.pool_names: PoolNames = known.pools if known else {}
        self.ties = ties_of(copy, known)
        progress("names")
        self.names = names_of(parties(copy))
        self.senders = sender_names(copy)
        self.lines = copy.lines()
        progress("pools")
        self.pools = self.read_pools()

    def read_pools(self) -> list[PoolPage]:
        """All pools with their parts."""
        amounts, rights, cuts = self.copy.pools(), self.copy.rights(), self.copy.cuts()
        returns: dict[int, list[tuple[str, int]]] = {it: [] for it in amounts}
        for reporter, number, pool in self.copy.rows("SELECT reporter, number, pool FROM pool_returns ORDER BY reporter, number"):
            returns[pool].append((reporter, number))
        nobodys = dict(self.copy.rows("SELECT pool, sum(units) FROM credits WHERE account = ? GROUP BY pool", UNCLAIMED))
        found = {}
        for pool, amount in amounts.items():
            parts = {"paid": amount - nobodys.get(pool, 0), "settled": 0, "share": 0, "conflict": 0, "nobody": 0}
            found[pool] = PoolPage(pool, rights[pool], amount, sorted(cuts[pool].items()), returns[pool], parts)
        self.unclaimed, settled = Unclaimed(self.copy), self.ties.settled()
        for it in self.unclaimed.each():
            found[it.pool].note(it, settled.get((it.pool, it.isrc), 0))
        return list(found.values())

    def items(self) -> dict[int, list[Item]]:
        """The largest unclaimed recordings of each pool, with titles."""
        listed = self.unclaimed.told([it for pool in self.pools for it in pool.shown])
        found: dict[int, list[Item]] = {it.pool: [] for it in self.pools}
        for it in listed:
            found[it.pool].append(it)
        return found

    def own_returns(self) -> list[tuple[str, int, int | None]]:
        """The returns that the office itself has written, each with the pool that has paid it."""
        joined = "returns LEFT JOIN pool_returns USING (reporter, number)"
        question = f"SELECT reporter, number, pool FROM {joined} ORDER BY pool, reporter, number"
        return [it for it in self.copy.rows(question) if is_own(it[0])]

    def stations(self) -> list[Station]:
        """Each station with its returns; those of the office itself are of none."""
        paid = {(reporter, number): pool for reporter, number, pool in self.copy.rows("SELECT reporter, number, pool FROM pool_returns")}
        found: dict[str, Station] = {}
        for reporter, number, body in self.copy.rows("SELECT reporter, number, body FROM returns ORDER BY reporter, number"):
            if is_own(reporter):
                continue
            listed = points(bytes(body))
            is_void = are_listed(self.void, (reporter, number))
            state = f"paid by pool {paid[reporter, number]}" if (reporter, number) in paid else "void" if is_void else "unpaid"
            if is_void and state != "void":
                state += ", and void since"
            found.setdefault(reporter, Station(reporter)).returns.append((number, len(listed), sum(listed.values()), state))
        return list(found.values())

    def balances(self) -> list[tuple[str, str, int]]:
        """Each account with its name and balance, the greatest first."""
        question = "SELECT account, units FROM balances ORDER BY units DESC, account"
        return [(account, self.names.get(account, ""), units) for account, units in self.copy.rows(question)]

    def name(self, sender: str) -> str:
        """A sender with its name."""
        return f"{sender} {self.senders.get(sender, '')}".rstrip()

    # The pages.
    def page(self, template: str, own: str, **values: Any) -> str:
        """A page with what all have."""
        depth = "../" * own.count("/")
        values |= {"office": self.copy.name, "taken": self.copy.taken, "menu": MENU, "own": own, "top": depth, "ties": self.ties}
        return pages.page(template, name=self.name, pool_names=self.pool_names, **values)

    def files(self) -> Iterator[tuple[str, str]]:
        """All files of the site: their names and texts."""
        yield "office.css", pages.style()
        yield DESK, self.desk()
        rejected: list[tuple[str, Rejected]] = []
        for line in self.lines:
            told = story(self.copy, line.sender)
            rejected += [(line.sender, it) for it in told.rejected]
            yield f"senders/{line.sender}.html", self.page(
                "sender.html",
                f"senders/{line.sender}.html",
                it=told,
                state=list(state_lines(line)),
                strip=pictures.strip(line),
                legend=pictures.legend(pictures.STATES, pictures.STATE_WORDS),
                most=MOST_REJECTED,
                words=faults.words,
                page_of=page_of,
            )
        self.progress("senders")
        yield from self.overview_files(rejected)
        yield from self.rejected_files(rejected)
        yield from self.pool_files()
        self.progress("pools, written")
        yield from self.station_files()
        yield from self.balance_files()
        self.progress("stations and balances")
        yield from WorkPages(self.copy, self.page).files()
        self.progress("works")

    def desk(self) -> str:
        """What the desk knows the office by: all senders with their names, and all reporters."""
        senders = [[it.sender, self.senders.get(it.sender, "")] for it in self.lines]
        reporters = [it for it, in self.copy.rows("SELECT DISTINCT reporter FROM returns ORDER BY reporter")]
        return json.dumps({"senders": senders, "reporters": reporters}, ensure_ascii=False, indent=1) + "\n"

    def overview_files(self, rejected: Sequence[tuple[str, Rejected]]) -> Iterator[tuple[str, str]]:
        """The overview and the senders."""
        counts = collections.Counter((sender, it.is_cured) for sender, it in rejected)
        strips = [(it, pictures.strip(it), counts[it.sender, False], counts[it.sender, True]) for it in self.lines]
        legend = pictures.legend(pictures.STATES, pictures.STATE_WORDS)
        yield "senders.html", self.page("senders.html", "senders.html", senders=strips, legend=legend, ranges=ranges_of)
        values = {
            "pools": self.pools,
            "lines": self.lines,
            "rejected": len(rejected),
            "settled": sum(it.parts["settled"] for it in self.pools),
            "open_ones": sum(not it.is_cured for _, it in rejected),
            "bars": [(it, pictures.bar(it.parts)) for it in self.pools[-6:]],
            "legend": pictures.legend(pictures.PARTS, pictures.PART_WORDS),
        }
        yield "index.html", self.page("overview.html", "index.html", **values)

    def rejected_files(self, rejected: Sequence[tuple[str, Rejected]]) -> Iterator[tuple[str, str]]:
        """Rejected works that were not registered since, grouped by fault and sender, and those that were."""
        groups: dict[tuple[int, str], list[Rejected]] = {}
        cured = [(sender, it) for sender, it in rejected if it.is_cured]
        for sender, it in rejected:
            if not it.is_cured:
                groups.setdefault((it.fault, sender), []).append(it)
        ordered = sorted(groups.items(), key=lambda it: (-len(it[1]), it[0]))
        values = {"groups": ordered, "cured": cured, "most": MOST_REJECTED, "means": faults.means, "cure": faults.cure, "page_of": page_of}
        yield "rejected.html", self.page("rejected.html", "rejected.html", **values)
        rows = ((sender, as_sent(it.number), it.place, plain(it.work), plain(it.title), it.fault, it.since) for sender, it in rejected)
        yield "rejected.csv", as_csv(["sender", "file", "place", "work", "title", "fault", "since"], rows)

    def pool_files(self) -> Iterator[tuple[str, str]]:
        """The pools, and a page of each."""
        legend = pictures.legend(pictures.PARTS, pictures.PART_WORDS)
        bars = [(it, pictures.bar(it.parts)) for it in self.pools]
        yield "pools.html", self.page("pools.html", "pools.html", bars=bars, legend=legend)
        items = self.items()
        question = (
            "SELECT account, sum(units) AS units FROM credits WHERE pool = ? AND account <> ? GROUP BY account ORDER BY units DESC, account"
        )
        for it, bar in bars:
            accounts = list(self.copy.rows(f"{question} LIMIT {MOST_ACCOUNTS}", it.pool, UNCLAIMED))
            own = f"pools/{it.pool}.html"
            named = [(account, self.names.get(account, ""), units) for account, units in accounts]
            values = {
                "it": it,
                "bar": bar,
                "legend": legend,
                "items": items[it.pool],
                "accounts": named,
                "cures": CURES,
                "booking": BOOKING,
            }
            yield own, self.page("pool.html", own, **values)

    def station_files(self) -> Iterator[tuple[str, str]]:
        """The stations with their returns."""
        found = sorted(self.stations(), key=lambda it: -it.points)
        most = max((it.points for it in found), default=0)
        bars = [(it, pictures.single_bar(it.points, most, f"{it.points:,} points")) for it in found]
        values = {"stations": bars, "void": len(self.void), "own_returns": self.own_returns(), "pools": {it.pool: it for it in self.pools}}
        yield "stations.html", self.page("stations.html", "stations.html", **values)

    def balance_files(self) -> Iterator[tuple[str, str]]:
        """The balances, in pages of so many, and all of them as CSV."""
        found = self.balances()
        yield "balances.csv", as_csv(["account", "name", "units"], ((plain(account), plain(name), units) for account, name, units in found))
        names = pages.numbered("balances", len(found), PER_PAGE)
        total, amounts = sum(it[2] for it in found), sum(it.amount for it in self.pools)
        for k, own in enumerate(names):
            rows = found[k * PER_PAGE : (k + 1) * PER_PAGE]
            values = {"rows": rows, "names": names, "count": len(found), "total": total, "amounts": amounts, "folder_of": folder_of}
            yield own, self.page("balances.html", own, **values)


def ranges_of(line: Line) -> dict[str, str]:
    """What waits, what is missing and what is never applied of a sender, as ranges."""
    end = f"the end of {segment_text(line.lacks_end)}" if line.lacks_end is not None else ""
    missing = ", ".join(filter(None, (ranges(line.missing), end)))
    return {"waits": ranges(line.waiting), "missing": missing, "skipped": ranges(line.skipped)}


def as_csv(header: list[str], rows: Iterable[Sequence[object]]) -> str:
    """Rows as CSV with a header."""
    out = io.StringIO()
    writer = csv.writer(out, lineterminator="\n")
    writer.writerow(header)
    writer.writerows(rows)
    return out.getvalue()


def write_site(copy: Copy, into: pathlib.Path, known: Decisions | None, progress: Callable[[str], None]) -> int:
    """Writes all pages into a folder, in the place of all that were there; answers how many files it wrote."""
    with pages.locked(into.resolve()), pages.new_folder(into, lambda name: PAGE.fullmatch(name) is not None) as folder:
        return pages.write_new(folder, Site(copy, known, progress).files())
