"""What stands in the bodies of files: works with their titles, parties with their names, recordings. Positions count bytes from 1."""

import dataclasses
import re
from collections.abc import Iterable, Iterator, Sequence

from society_office.basics.plain_text import printable
from society_office.book.copy import Copy
from society_office.formats.fields import IPI_DIGITS, ISRC, ISWC, PARTIES, RECORD_TYPE, SENDER_NAME, TIMES, TITLE, WORKS, WORK_NUMBER

GROUP = re.compile(rb"\nGRH(%s)[^\n]*" % b"|".join(WORKS))
GROUP_END = b"\nGRT"
STARTS = {kind: re.compile(rb"\n%s" % kind) for kind in WORKS}
PARTY = re.compile(rb"\n(%s)([^\r\n]*)" % b"|".join(PARTIES))
# (what stands between the record type and the ISRC is of any bytes)
RECORDING = re.compile(rb"\nREC[^\n]{%d}([A-Z0-9]{12})" % (ISRC.first - RECORD_TYPE.last - 1))
UNCLAIMED = "UNCLAIMED"


def decoded(raw: bytes) -> str:
    """A field in letters: UTF-8 where it is that, else a letter a byte."""
    try:
        return raw.decode("utf-8")
    except UnicodeDecodeError:
        return raw.decode("latin-1")


def text(raw: bytes) -> str:
    """A field as people read it: no blanks at its ends, `?` for what has no form."""
    return printable(decoded(raw).strip())


@dataclasses.dataclass(frozen=True)
class Party:
    """A publisher or a writer of a work: the account that its credits go to, and its name as the sender wrote it."""

    account: str
    name: str
    side: str
    number: str


@dataclasses.dataclass(frozen=True)
class Transaction:
    """A registration or a revision in a file: its bytes, without the line end of its last line, and how many bytes stand before it."""

    kind: str
    raw: bytes
    start: int = 0

    @property
    def first(self) -> bytes:
        """Its first line."""
        return self.raw.partition(b"\n")[0]

    @property
    def title(self) -> str:
        """The title, as people read it."""
        return title_of(self.first)

    @property
    def work(self) -> str:
        """The submitter's work number, as it is registered: blanks before it are of it."""
        return number_of(self.first)

    @property
    def iswc(self) -> str:
        """The ISWC, as people read it; the empty text where there is none."""
        return text(ISWC.of(self.first.rstrip(b"\r")))

    @property
    def lines(self) -> list[bytes]:
        """Its lines, without their ends."""
        return [it.removesuffix(b"\r") for it in self.raw.split(b"\n")]

    @property
    def isrcs(self) -> list[str]:
        """The recordings that its REC records name, each once, in their order."""
        return list(dict.fromkeys(it.decode() for it in RECORDING.findall(self.raw)))

    def parties(self, sender: str) -> Iterator[Party]:
        """The parties, in the order of their records."""
        for kind, rest in PARTY.findall(self.raw):
            yield party_of(kind, kind + rest, sender)


def account_of(sender: str, ipi: bytes, number: bytes) -> str:
    """The account of a party: by its IPI name number, else by the sender's own number of it, else nobody's."""
    digits = ipi.strip(b" ")
    if digits.isdigit() and digits.strip(b"0"):
        return f"I{digits.decode().zfill(IPI_DIGITS)}"
    own = number.strip(b" ").decode("latin-1")
    return f"P{sender}{own}" if own else UNCLAIMED


def party_of(kind: bytes, line: bytes, sender: str) -> Party:
    """The party that a line of SPU, OPU, SWR or OWR is."""
    places = PARTIES[kind]
    number, name = places.number.of(line), text(places.name.of(line))
    if places.first_name:
        name = " ".join(filter(None, (text(places.first_name.of(line)), name)))
    return Party(account_of(sender, places.ipi.of(line), number), name, places.side, text(number))


def made_on(head: bytes) -> str:
    """The day on which a file was made, by its first line: 2026-01-05."""
    day = TIMES[0][0].of(head).decode("latin-1")
    return f"{day[:4]}-{day[4:6]}-{day[6:]}"


def groups(body: bytes) -> Iterator[tuple[str, list[int], int]]:
    """The groups of works of a file: the kind, where each registration or revision starts, and where the group ends."""
    for group in GROUP.finditer(body):
        end = body.find(GROUP_END, group.end())
        yield group[1].decode(), [it.start() + 1 for it in STARTS[group[1]].finditer(body, group.end(), end)], end


def transactions(body: bytes) -> list[Transaction]:
    """The registrations and revisions of a file that was accepted, in the order of their places."""
    found = []
    for kind, starts, end in groups(body):
        found += [Transaction(kind, body[start : stop - 1], start) for start, stop in zip(starts, [*starts[1:], end + 1])]
    return found


def titles(body: bytes) -> list[str]:
    """The titles of all registrations and revisions of a file, by their places."""
    starts = [start for _, listed, _ in groups(body) for start in listed]
    return [title_of(body[start : body.index(b"\n", start)]) for start in starts]


def title_of(first: bytes) -> str:
    """The title in the first line of a registration or revision, as people read it."""
    return text(TITLE.of(first.rstrip(b"\r")))


def number_of(first: bytes) -> str:
    """The work number in the first line of a registration or revision, as it is registered."""
    return WORK_NUMBER.of(first.rstrip(b"\r")).rstrip(b" ").decode("latin-1")


def shown_number(number: str) -> str:
    """A work number as people read it: that of a rejected work may have any bytes."""
    return printable(decoded(number.encode("latin-1")))


class Works:
    """Registrations and revisions in the files of a copy. Each file is read once for those that are loaded together."""

    def __init__(self, copy: Copy) -> None:
        """Nothing is read before it is asked for."""
        self.copy = copy
        self.titles: dict[tuple[str, int], Sequence[str]] = {}
        self.loaded: dict[tuple[str, int, int], Transaction] = {}

    def load(self, places: Iterable[tuple[str, int, int]]) -> None:
        """Reads those at these places: of a sender, in a file, from 0."""
        wanted: dict[tuple[str, int], set[int]] = {}
        for sender, number, place in places:
            wanted.setdefault((sender, number), set()).add(place)
        for (sender, number), listed in sorted(wanted.items()):
            found = transactions(self.copy.body(sender, number))
            self.loaded.update({(sender, number, place): found[place] for place in listed})

    def transaction(self, sender: str, number: int, place: int) -> Transaction:
        """The registration or revision at a place of a file."""
        key = (sender, number, place)
        if key not in self.loaded:
            self.load([key])
        return self.loaded[key]

    def title(self, sender: str, number: int, place: int) -> str:
        """The title that it gives its work."""
        if (found := self.loaded.get((sender, number, place))) is not None:
            return found.title
        key = (sender, number)
        if key not in self.titles:
            self.titles[key] = titles(self.copy.body(sender, number))
        return self.titles[key][place]


def sender_names(copy: Copy) -> dict[str, str]:
    """The name that each sender gives itself in the header of its last file."""
    question = """SELECT sender, CAST(substr(body, 1, ?) AS BLOB) FROM transmissions
      JOIN (SELECT sender, max(number) AS number FROM transmissions GROUP BY sender) USING (sender, number)"""
    return {sender: text(SENDER_NAME.of(bytes(head).partition(b"\n")[0])) for sender, head in copy.rows(question, SENDER_NAME.last)}
