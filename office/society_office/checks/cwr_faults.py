"""Every fault of the structure of a file of works, by our own reading, and its works with theirs. The program decides; this explains."""

import dataclasses
import datetime
import re
from collections.abc import Iterator

from society_office.checks.work_faults import MOVED, CheckedWork, Fault, WorkReader, is_moved
from society_office.formats.fields import CODE, GROUP_END, GROUP_ID, GROUP_KIND, MAX_LINE, RECORD_TYPE, SENDER, SEQUENCES, TIMES, TRAILER
from society_office.formats.fields import WORKS, Field, FileFault
from society_office.works.records import text


CUT = "a file that was cut while it was sent or saved"
# A trailer that begins no line.
JOINED = re.compile(rb".TRL[0-9]{5}", re.DOTALL)
NO_LINES = "the line ends are missing, or are CR alone: end each record with CR and LF, or with LF"
DOS_END, DOS_MARK = b"\x1a", "an end mark of old programs, Ctrl-Z: take it away"


@dataclasses.dataclass
class CheckedFile:
    """A file of works with its own faults and its works in their order."""

    faults: list[Fault]
    works: list[CheckedWork]


def lines_of(body: bytes) -> list[bytes]:
    """The lines of a body, each without its line end."""
    lines = body.split(b"\n")
    if lines and not lines[-1]:
        lines.pop()
    return [it[:-1] if it.endswith(b"\r") else it for it in lines]


class FileReader:
    """Finds the faults of a file's structure, and reads its works; after a wrong number it goes on from what stands there."""

    def __init__(self, body: bytes, sender: bytes, territory: int) -> None:
        """A body that is sent under this sender, to an office of this territory."""
        self.body, self.lines, self.sender, self.territory = body, lines_of(body), sender, territory
        self.faults: list[Fault] = []
        self.works: list[CheckedWork] = []
        self.groups = self.transactions = 0

    def note(self, number: FileFault, at: int, field: str, raw: bytes = b"", hint: str = "") -> None:
        """Adds a file fault at a line, counted from 1."""
        record = self.lines[at - 1][:3] if at <= len(self.lines) else b""
        self.faults.append(Fault("file", number, at, text(record), field, text(raw), hint))

    def read(self) -> CheckedFile:
        """The file with all its faults, by line."""
        self.read_sizes()
        if not self.lines or self.lines[0][:3] != b"HDR":
            self.note(FileFault.NO_HEADER, 1, RECORD_TYPE.words, self.lines[0][:3] if self.lines else b"")
        else:
            self.read_header(self.lines[0])
            if (at := self.read_groups()) == 0:
                end = len(self.lines) + 1
                self.note(FileFault.NO_TRAILER, end, "the end of the file", b"", NO_LINES if JOINED.search(self.lines[-1]) else CUT)
            else:
                self.read_rest(at)
        # A line that is misplaced in a group is read on as if the group had ended; what is wrong with it then does not count.
        misplaced = {it.line for it in self.faults if it.number == FileFault.IN_GROUP}
        counting = (FileFault.IN_GROUP, FileFault.SIZE, FileFault.CODE)
        self.faults = [it for it in self.faults if it.line not in misplaced or it.number in counting]
        self.faults.sort(key=lambda it: (it.line, it.number != FileFault.SIZE, it.number))
        return CheckedFile(self.faults, self.works)

    def read_header(self, line: bytes) -> None:
        """Faults of HDR."""
        if SENDER.of(line) != self.sender:
            self.note(FileFault.SENDER, 1, SENDER.words, SENDER.of(line), f"it is sent under {self.sender.decode('latin-1')}")
        for place, form in TIMES:
            if not is_time(place.of(line), form):
                self.note(FileFault.TIME, 1, place.words, place.of(line), MOVED if is_moved(line, place) else "")

    def read_sizes(self) -> None:
        """Lines that are too long."""
        for at, line in enumerate(self.body.split(b"\n"), 1):
            if len(line.removesuffix(b"\r")) > MAX_LINE:
                self.note(FileFault.SIZE, at, "the whole line", str(len(line)).encode(), "bytes; are the line ends missing?")

    def read_groups(self) -> int:
        """Reads group after group; answers the number of the line behind TRL, 0 where there is no TRL."""
        at = 2
        while at <= len(self.lines):
            kind = self.lines[at - 1][:3]
            if kind == b"TRL":
                self.compare(FileFault.TRAILER, at, TRAILER, (self.groups, self.transactions, at))
                return at + 1
            if kind == b"GRH":
                at = self.read_group(at)
            else:
                self.note(FileFault.BETWEEN_GROUPS, at, RECORD_TYPE.words, kind)
                at += 1
        return 0

    def read_group(self, at: int) -> int:
        """Reads a group from its GRH on; answers the number of the line behind it."""
        line, first = self.lines[at - 1], at
        self.groups += 1
        self.compare(FileFault.GROUP_ID, at, (GROUP_ID,), (self.groups,))
        kind = GROUP_KIND.of(line)
        if not CODE.fullmatch(kind):
            self.note(FileFault.CODE, at, GROUP_KIND.words, kind)
        starts: list[int] = []
        at += 1
        while at <= len(self.lines) and self.lines[at - 1][:3] != b"GRT":
            record = RECORD_TYPE.of(self.lines[at - 1])
            if record in (b"HDR", b"GRH", b"TRL"):
                self.note(FileFault.IN_GROUP, at, RECORD_TYPE.words, record, "a GRT has to close the group first")
                break
            if not CODE.fullmatch(record):
                self.note(FileFault.CODE, at, RECORD_TYPE.words, record)
            if record == kind:
                starts.append(at)
            elif not starts:
                self.note(FileFault.IN_GROUP, at, RECORD_TYPE.words, record, f"the group's first record has to be {text(kind)}")
            at += 1
        self.read_works(kind, starts, at)
        self.transactions += len(starts)
        if at <= len(self.lines) and self.lines[at - 1][:3] == b"GRT":
            self.compare(FileFault.GROUP_END, at, GROUP_END, (self.groups, len(starts), at - first + 1))
            return at + 1
        return at

    def read_works(self, kind: bytes, starts: list[int], end: int) -> None:
        """Reads the works of a group of registrations or revisions, and the numbers of their lines."""
        if kind not in WORKS:
            return
        for sequence, (start, stop) in enumerate(zip(starts, [*starts[1:], end])):
            lines = self.lines[start - 1 : stop - 1]
            for record in range(len(lines)):
                self.compare(FileFault.SEQUENCE, start + record, SEQUENCES, (sequence, record))
            self.works.append(WorkReader(start, lines, self.territory).read())

    def read_rest(self, at: int) -> None:
        """The first line after TRL that is not blank."""
        for number in range(at, len(self.lines) + 1):
            if self.lines[number - 1].strip(b" "):
                hint = DOS_MARK if self.lines[number - 1].startswith(DOS_END) else ""
                self.note(FileFault.BEHIND_TRAILER, number, "the line", self.lines[number - 1][:20], hint)
                return

    def compare(self, number: FileFault, at: int, places: tuple[Field, ...], wanted: tuple[int, ...]) -> None:
        """Adds a fault for each field of a line that is not the digits of its number."""
        for place, right in zip(places, wanted):
            raw = place.of(self.lines[at - 1])
            if not (raw.isdigit() and int(raw) == right):
                self.note(number, at, place.words, raw, f"{right:0{len(raw)}d} is right")


def is_time(raw: bytes, form: str) -> bool:
    """Whether a field is a date or a time of this form, all digits."""
    try:
        return raw.isdigit() and bool(datetime.datetime.strptime(raw.decode(), form))
    except ValueError:
        return False


def checked(body: bytes, sender: str, territory: int) -> CheckedFile:
    """A file with all its faults, as it is sent under a sender."""
    return FileReader(body, sender.encode("latin-1"), territory).read()


def all_faults(it: CheckedFile) -> Iterator[Fault]:
    """The faults of a file and of its works."""
    yield from it.faults
    for work in it.works:
        yield from work.faults
