"""The one table of files of works: where each field stands, its limits, and the numbers of faults. Positions count bytes from 1."""

import enum
import re
from typing import NamedTuple


class Field(NamedTuple):
    """A field of a record: its name, and its first and last position."""

    name: str
    first: int
    last: int

    def of(self, line: bytes) -> bytes:
        """It in a line, filled with blanks where the line ends early."""
        return line[self.first - 1 : self.last].ljust(self.last - self.first + 1)

    @property
    def words(self) -> str:
        """It as people look it up: `title 20-79`."""
        return f"{self.name} {self.first}" + (f"-{self.last}" if self.last > self.first else "")


class Shares(NamedTuple):
    """The shares of a record in the performing, the mechanical and the synchronization right."""

    pr: Field
    mr: Field
    sr: Field


class PartyRecord(NamedTuple):
    """What is read of a record that names a party: SPU, OPU, SWR or OWR."""

    side: str
    number: Field
    name: Field
    first_name: Field | None
    ipi: Field
    owns: Shares


class TerritoryRecord(NamedTuple):
    """What is read of a territory row: SPT or SWT."""

    side: str
    number: Field
    collects: Shares
    indicator: Field
    code: Field


RIGHTS = ("PR", "MR", "SR")
SHARE_WIDTH = 5


def shares_at(what: str, *firsts: int) -> Shares:
    """Three shares by their first positions."""
    return Shares(*(Field(f"{right} {what}", first, first + SHARE_WIDTH - 1) for right, first in zip(RIGHTS, firsts)))


RECORD_TYPE = Field("record type", 1, 3)
SENDER, SENDER_NAME = Field("sender", 4, 14), Field("sender name", 15, 59)
# The dates and times of HDR, each with its form.
TIMES = (
    (Field("creation date", 65, 72), "%Y%m%d"),
    (Field("creation time", 73, 78), "%H%M%S"),
    (Field("transmission date", 79, 86), "%Y%m%d"),
)
GROUP_KIND, GROUP_ID = Field("transaction type", 4, 6), Field("group ID", 7, 11)
GROUP_END = (Field("group ID", 4, 8), Field("transaction count", 9, 16), Field("record count", 17, 24))
TRAILER = (Field("group count", 4, 8), Field("transaction count", 9, 16), Field("record count", 17, 24))
SEQUENCES = (Field("transaction sequence", 4, 11), Field("record sequence", 12, 19))
TITLE, WORK_NUMBER, ISWC = Field("title", 20, 79), Field("work number", 82, 95), Field("ISWC", 96, 106)
PUBLISHER = PartyRecord(
    "publisher",
    Field("IP #", 22, 30),
    Field("name", 31, 75),
    None,
    Field("IPI name number", 88, 98),
    shares_at("ownership share", 116, 124, 132),
)
WRITER = PartyRecord(
    "writer",
    Field("IP #", 20, 28),
    Field("last name", 29, 73),
    Field("first name", 74, 103),
    Field("IPI name number", 116, 126),
    shares_at("ownership share", 130, 138, 146),
)
PARTIES = {b"SPU": PUBLISHER, b"OPU": PUBLISHER, b"SWR": WRITER, b"OWR": WRITER}
ROWS = {
    b"SPT": TerritoryRecord(
        "publisher",
        Field("IP #", 20, 28),
        shares_at("collection share", 35, 40, 45),
        Field("indicator", 50, 50),
        Field("TIS code", 51, 54),
    ),
    b"SWT": TerritoryRecord(
        "writer",
        Field("IP #", 20, 28),
        shares_at("collection share", 29, 34, 39),
        Field("indicator", 44, 44),
        Field("TIS code", 45, 48),
    ),
}
PWR_PUBLISHER, PWR_WRITER = Field("publisher IP #", 20, 28), Field("writer IP #", 102, 110)
ISRC = Field("ISRC", 250, 261)
# What an acknowledgement repeats of a work.
ACK_TITLE, ACK_NUMBER = Field("creation title", 50, 109), Field("submitter creation number", 110, 129)

# Limits of a file, of a line, of a share, and of the shares of all parties.
MAX_BODY, MAX_LINE = 1_048_576, 2_000
WHOLE, SUM_LIMIT = 10_000, 10_006
WORLD, IPI_DIGITS = 2136, 11

# The groups whose works are read, and what right fields look like.
WORKS = (b"NWR", b"REV")
CODE = re.compile(rb"[0-9A-Z]{3}")
SHARE = re.compile(rb"\d{5}", re.ASCII)
TIS_CODE = re.compile(rb"\d{1,4}", re.ASCII)
RECORDING = re.compile(rb"[A-Z]{2}[0-9A-Z]{3}[0-9]{7}")
ISWC_FORM = re.compile(r"T[0-9]{10}")


class FileFault(enum.IntEnum):
    """Faults of a file's structure."""

    NO_HEADER = 1
    SENDER = 2
    TIME = 3
    BETWEEN_GROUPS = 4
    GROUP_ID = 5
    IN_GROUP = 6
    SEQUENCE = 7
    GROUP_END = 8
    TRAILER = 9
    NO_TRAILER = 10
    BEHIND_TRAILER = 11
    SIZE = 12
    CODE = 13


class WorkFault(enum.IntEnum):
    """Faults of a registration or a revision; the last two are seen by what was registered before."""

    TITLE = 1
    NUMBER = 2
    ISWC = 3
    SHARE = 4
    OWNED = 5
    NO_PARTY = 6
    NO_PUBLISHER = 7
    COLLECTED = 8
    IPI = 9
    ISRC = 10
    IP_NUMBER = 11
    REGISTERED = 20
    NOT_REGISTERED = 21
