"""Every fault of a registration or revision by our own reading: line, record, field, what stands there. The program decides."""

import dataclasses
import re
from collections.abc import Iterator, Sequence

from society_office.formats.fields import ISRC, ISWC, ISWC_FORM, PARTIES, PWR_PUBLISHER, PWR_WRITER, RECORDING, RIGHTS, ROWS, SHARE
from society_office.formats.fields import SUM_LIMIT, TITLE, WHOLE, WORK_NUMBER, Field, Shares, WorkFault
from society_office.formats.numbering import counted
from society_office.works.records import Transaction, number_of, shown_number, text
from society_office.works.shares import holders_of, share

# A letter that takes two bytes or more in UTF-8.
UTF_8 = re.compile(rb"[\xc2-\xdf][\x80-\xbf]|[\xe0-\xef][\x80-\xbf]{2}|[\xf0-\xf4][\x80-\xbf]{3}")
MOVED = (
    "a letter before it takes two bytes or more in UTF-8 and moves what stands behind it: fill each field to its bytes, or write ISO 8859-1"
)
MOST_WARNINGS = 10
CR_TWICE = "the line ends with CR twice"
ASCII_ONLY = "only letters, digits and signs of ASCII may stand here"


@dataclasses.dataclass(frozen=True)
class Fault:
    """One thing that is wrong: its number in the office's table, the line (from 1), the record and field, and what stands there."""

    kind: str
    number: int
    line: int
    record: str
    field: str
    found: str = ""
    hint: str = ""


@dataclasses.dataclass
class CheckedWork:
    """A registration or a revision with all its faults, and what may be wrong with it all the same."""

    kind: str
    number: str
    title: str
    line: int
    faults: list[Fault]
    warnings: list[str]


def is_printable(raw: bytes) -> bool:
    """Whether all bytes are printable ASCII."""
    return all(0x20 <= it <= 0x7E for it in raw)


def is_moved(line: bytes, place: Field) -> bool:
    """Whether a letter of UTF-8 stands before a field, so that the field may have moved."""
    return UTF_8.search(line, 0, place.first - 1) is not None


def check_digit(digits: str) -> int:
    """The check digit of an ISWC."""
    total = 1 + sum(place * int(digit) for place, digit in enumerate(digits, 1))
    return (10 - total % 10) % 10


def iswc_hint(raw: bytes) -> str | None:
    """Why an ISWC is wrong; None where the field is right or blank."""
    if not raw.strip(b" "):
        return None
    found = raw.decode("latin-1")
    if not ISWC_FORM.fullmatch(found):
        return "write T and ten digits without points and hyphens, or leave it blank"
    digit = check_digit(found[1:10])
    return None if found[10] == str(digit) else f"the check digit of {found[:10]} is {digit}: {found[:10]}{digit}"


class WorkReader:
    """Finds the faults of one registration or revision in its lines."""

    def __init__(self, first: int, lines: list[bytes], territory: int) -> None:
        """The lines of the transaction, of which the first one has this number in the file."""
        self.first, self.lines, self.territory = first, lines, territory
        self.faults: list[Fault] = []

    def note(self, number: WorkFault, at: int, place: Field, raw: bytes, hint: str = "") -> None:
        """Adds a fault of a field of a line; where the field may have moved, that is its hint."""
        if is_moved(self.lines[at], place):
            hint = MOVED
        self.add(number, at, place.words, raw, hint)

    def add(self, number: WorkFault, at: int, words: str, raw: bytes, hint: str) -> None:
        """Adds a fault at a line of the transaction."""
        record = self.lines[at][:3].decode("latin-1")
        self.faults.append(Fault("transaction", number, self.first + at, record, words, text(raw), hint))

    def read(self) -> CheckedWork:
        """The work with its faults, by number."""
        line = self.lines[0]
        self.read_first(line)
        self.read_records()
        self.read_sums()
        self.faults.sort(key=lambda it: (it.number, it.line))
        warnings = list(self.warnings())
        return CheckedWork(line[:3].decode(), number_of(line), text(TITLE.of(line)), self.first, self.faults, warnings)

    def read_first(self, line: bytes) -> None:
        """Faults of the first record."""
        if not TITLE.of(line).strip(b" "):
            self.note(WorkFault.TITLE, 0, TITLE, b"")
        number = WORK_NUMBER.of(line).rstrip(b" ")
        if not number or not is_printable(number):
            self.note(WorkFault.NUMBER, 0, WORK_NUMBER, number, ASCII_ONLY if number else "")
        if (hint := iswc_hint(ISWC.of(line))) is not None:
            self.note(WorkFault.ISWC, 0, ISWC, ISWC.of(line), hint)

    def read_records(self) -> None:
        """Faults of each record by itself, and of those that name a party of another one."""
        before: set[tuple[str, bytes]] = set()
        publishers = {PARTIES[it[:3]].number.of(it).strip(b" ") for it in self.lines if it[:3] in (b"SPU", b"OPU")}
        for at, line in enumerate(self.lines):
            kind = line[:3]
            if kind in PARTIES:
                self.read_party(at, line)
                before.add((PARTIES[kind].side, PARTIES[kind].number.of(line).strip(b" ")))
            elif kind in ROWS:
                row = ROWS[kind]
                self.read_shares(at, line, row.collects)
                number = self.read_party_number(at, line, row.number)
                if (row.side, number) not in before:
                    hint = f"no {'SPU' if kind == b'SPT' else 'SWR'} before it has this number"
                    self.note(WorkFault.NO_PARTY, at, row.number, number, hint)
            elif kind == b"PWR":
                number = self.read_party_number(at, line, PWR_PUBLISHER)
                self.read_party_number(at, line, PWR_WRITER)
                if number and number not in publishers:
                    self.note(WorkFault.NO_PUBLISHER, at, PWR_PUBLISHER, number, "no SPU of the work has this number")
            elif kind == b"REC":
                self.read_recording(at, line)

    def read_party(self, at: int, line: bytes) -> None:
        """Faults of SPU, OPU, SWR and OWR."""
        places = PARTIES[line[:3]]
        self.read_shares(at, line, places.owns)
        self.read_party_number(at, line, places.number)
        digits = places.ipi.of(line).strip(b" ")
        if digits and not digits.isdigit():
            self.note(WorkFault.IPI, at, places.ipi, digits)

    def read_party_number(self, at: int, line: bytes, place: Field) -> bytes:
        """The fault of an IP #; answers the number."""
        number = place.of(line).strip(b" ")
        if not is_printable(number):
            self.note(WorkFault.IP_NUMBER, at, place, number, CR_TWICE if number.endswith(b"\r") else ASCII_ONLY)
        return number

    def read_shares(self, at: int, line: bytes, places: Shares) -> None:
        """The faults of three shares."""
        for place in places:
            raw = place.of(line)
            if raw.strip(b" ") and not (SHARE.fullmatch(raw) and int(raw) <= WHOLE):
                self.note(WorkFault.SHARE, at, place, raw)

    def read_recording(self, at: int, line: bytes) -> None:
        """The fault of a REC."""
        raw = ISRC.of(line)
        if raw.strip(b" ") and not RECORDING.fullmatch(raw):
            hint = "small letters are refused here" if RECORDING.fullmatch(raw.upper()) else "without hyphens" if b"-" in raw else ""
            self.note(WorkFault.ISRC, at, ISRC, raw, hint)

    def read_sums(self) -> None:
        """Faults of the shares of all parties; they are told at the first record, with the lines that they add up."""
        owners = [(at, it) for at, it in enumerate(self.lines) if it[:3] in PARTIES]
        collected = holders_of(self.lines, self.territory)
        for k, right in enumerate(RIGHTS):
            owned = [(at, share(PARTIES[line[:3]].owns[k].of(line))) for at, line in owners]
            self.note_sum(WorkFault.OWNED, f"{right} ownership", owned)
            self.note_sum(WorkFault.COLLECTED, f"{right} collection", [(it.row or 0, it.collects[k]) for it in collected])

    def note_sum(self, number: WorkFault, what: str, parts: list[tuple[int, int]]) -> None:
        """Adds a fault where a sum is above the limit."""
        total = sum(it for _, it in parts)
        if total > SUM_LIMIT:
            lines = " + ".join(f"{it} of line {self.first + at}" for at, it in parts if it)
            self.add(number, 0, f"{what} shares of all parties", str(total).encode(), lines)

    def warnings(self) -> Iterator[str]:
        """What may be wrong where nothing is: fields that letters of UTF-8 have moved, and a blank before the work number."""
        number = number_of(self.lines[0])
        for at, line in enumerate(self.lines):
            last = WORK_NUMBER if at == 0 else PARTIES[line[:3]].owns.sr if line[:3] in PARTIES else None
            if last is None or not (found := UTF_8.findall(line, 0, last.last)):
                continue
            more = sum(len(it) - 1 for it in found)
            read = f"the work number is read as {number!r}" if at == 0 else f"the IPI name number is read as {ipi_text(line)}"
            yield (
                f"line {self.first + at}, {line[:3].decode()}: letters of UTF-8 take {counted(more, 'byte')} more; where the fields "
                f"are not filled to their bytes, what stands behind them has moved: {read}"
            )
        if number.startswith(" "):
            yield f"line {self.first}, {self.lines[0][:3].decode()}: the work number begins with a blank, which is of it: {number!r}"


def ipi_text(line: bytes) -> str:
    """The IPI name number of a party's line, as it is read."""
    return repr(text(PARTIES[line[:3]].ipi.of(line)))


def warned(work: CheckedWork) -> Iterator[str]:
    """What may be wrong with a work, under its number and title."""
    yield from (f"warning: {shown_number(work.number).strip()} {work.title}, {it}" for it in work.warnings)


def first_warnings(listed: Sequence[str]) -> Iterator[str]:
    """The warnings that are printed of a file: the first ones, and how many there are more."""
    yield from listed[:MOST_WARNINGS]
    if len(listed) > MOST_WARNINGS:
        yield f"and {len(listed) - MOST_WARNINGS:,} more warnings like these"


def checked_work(body: bytes, work: Transaction, territory: int) -> CheckedWork:
    """One work of a file that was accepted, with all its faults."""
    return WorkReader(body.count(b"\n", 0, work.start) + 1, work.lines, territory).read()
