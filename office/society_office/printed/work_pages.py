"""A page for each work, lists of the works of each sender, and the search over all of them (work_pieces.py)."""

import dataclasses
import hashlib
import itertools
from collections.abc import Callable, Iterator, Sequence

from society_office.book.copy import Copy
from society_office.checks import faults
from society_office.checks.why import since_text
from society_office.credits.explain_output import percent_text
from society_office.formats.numbering import as_sent
from society_office.printed import pages
from society_office.printed.work_pieces import Pieces
from society_office.works.every_work import every_work
from society_office.works.records import shown_number
from society_office.works.registered_works import ACCEPTED, REJECTED, Version, Work
from society_office.works.work_search import OTHERS, Facts
from society_office.works.work_search_output import KINDS, holder_line

# Works on a page of a sender's.
PER_PAGE = 500
SCRIPT = "works.js"


@dataclasses.dataclass(frozen=True)
class Listed:
    """A work as lists have it; `state` is empty where it is registered."""

    title: str
    page: str
    number: str
    iswc: str
    state: str
    units: int


@dataclasses.dataclass(frozen=True)
class Sent:
    """A registration or a revision as its work's page has it: what became of it, the cure of its fault, and what it says, line by line."""

    file: str
    day: str
    became: str
    cure: str
    said: Sequence[str]


def page_of(work: str) -> str:
    """The name of a work's page by its number: letters and digits as they are, all else as `-` and its number in two digits of 16."""
    return "".join(it if it.isascii() and it.isalnum() else f"-{ord(it):02X}" for it in work) or "-"


def listed(it: Work) -> Listed:
    """A work as lists have it."""
    now = it.now
    state = "" if now.state == ACCEPTED else now.state
    return Listed(now.title, page_of(it.number), shown_number(it.number), now.iswc, state, sum(one.units for one in it.credited))


def sent(it: Work) -> Iterator[Sent]:
    """All that was sent of a work."""
    registered, now = [(one.revision, one.number) for one in it.versions if one.state == ACCEPTED], it.now
    for one in it.versions:
        said = ["what stands above"] if one is now else list(said_by(one))
        yield Sent(as_sent(one.number), one.day, became(one, registered), faults.cure("transaction", one.fault) if one.fault else "", said)


def became(it: Version, registered: list[tuple[int, int]]) -> str:
    """What became of a registration or a revision, and of a rejected one what was registered since."""
    kind = KINDS[it.kind] + (f" {it.revision}" if it.revision else "")
    if it.state != REJECTED:
        return f"{kind}: {it.state}"
    return f"{kind}: rejected, fault {it.fault}: {faults.means('transaction', it.fault)}; {since_text(registered, it.number)}"


def said_by(it: Version) -> Iterator[str]:
    """What a registration or a revision says."""
    yield (it.title or "(no title)") + (f", {it.iswc}" if it.iswc else "")
    yield ", ".join(it.isrcs) or "no recording"
    yield from map(holder_line, it.holders)


def stamp_of(copy: Copy) -> str:
    """What tells the pieces of one night from those of others."""
    return hashlib.sha256(f"{copy.path.stat()}".encode()).hexdigest()[:12]


class WorkPages:
    """The pages of the works of a copy; `page` makes one of a template, its name and its values."""

    def __init__(self, copy: Copy, page: Callable[..., str]) -> None:
        """Nothing is read before the files are asked for."""
        self.copy, self.page, self.counts = copy, page, list[tuple[str, int]]()
        self.pieces = Pieces(stamp_of(copy), OTHERS)

    def files(self) -> Iterator[tuple[str, str]]:
        """All of them: their names and texts."""
        for sender, works in itertools.groupby(every_work(self.copy), key=lambda it: it[0].sender):
            rows = []
            for it, facts in works:
                rows.append(listed(it))
                yield self.work_page(it, facts, rows[-1])
            yield from self.lists(sender, sorted(rows, key=lambda it: (it.title.casefold(), it.number)))
            self.counts.append((sender, len(rows)))
        yield from self.pieces.files()
        yield SCRIPT, pages.text_beside(SCRIPT)
        yield "works.html", self.page("works.html", "works.html", stamp=self.pieces.stamp, senders=self.counts)

    def work_page(self, it: Work, facts: Facts, row: Listed) -> tuple[str, str]:
        """The page of a work, which is added to the search."""
        shown = [row.title, row.page, row.number, it.sender, it.sender_name, row.iswc, row.state]
        self.pieces.add(row.title, it.sender, it.number, facts, shown)
        own = f"works/{it.sender}/{row.page}.html"
        return own, self.page("work.html", own, it=it, number=row.number, sent=list(sent(it)), share=percent_text)

    def lists(self, sender: str, rows: Sequence[Listed]) -> Iterator[tuple[str, str]]:
        """The lists of a sender's works."""
        names = pages.numbered(f"works/{sender}", len(rows), PER_PAGE)
        for k, own in enumerate(names):
            some = rows[k * PER_PAGE : (k + 1) * PER_PAGE]
            yield own, self.page("sender_works.html", own, sender=sender, count=len(rows), rows=some, names=names)
