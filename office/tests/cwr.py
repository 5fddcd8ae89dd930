"""Writes files of works for the tests, from what a publisher says of each work."""

import dataclasses


@dataclasses.dataclass(frozen=True)
class Row:
    """A territory row: collection shares of the three rights, I or E, and where."""

    shares: tuple[str, str, str]
    indicator: str = "I"
    territory: str = "2136"


@dataclasses.dataclass(frozen=True)
class Party:
    """A publisher or a writer of a work, with what it owns and its territory rows."""

    kind: str
    number: str
    name: str
    ipi: str = ""
    owns: tuple[str, str, str] = ("00000", "00000", "00000")
    rows: tuple[Row, ...] = ()
    first_name: str = ""

    @property
    def is_writer(self) -> bool:
        return self.kind in ("SWR", "OWR")


@dataclasses.dataclass(frozen=True)
class Work:
    """A registration or a revision, the fault that it is rejected with (0: none), and what else is wrong with it."""

    kind: str
    number: str
    title: str
    recordings: tuple[str, ...]
    parties: tuple[Party, ...]
    fault: int = 0
    iswc: str = ""


def line(length: int, **fields: str) -> bytes:
    """A line with fields at their positions, counted from 1: `at20="TEXT"`."""
    text = bytearray(b" " * length)
    for place, value in fields.items():
        first, raw = int(place[2:]), value.encode()
        text[first - 1 : first - 1 + len(raw)] = raw
    assert len(text) == length, fields
    return bytes(text)


def party_line(it: Party) -> bytes:
    if it.is_writer:
        where = {"at130": it.owns[0], "at138": it.owns[1], "at146": it.owns[2], "at74": it.first_name}
        return line(150, at1=it.kind, at20=it.number, at29=it.name, at116=it.ipi, **where)
    where = {"at116": it.owns[0], "at124": it.owns[1], "at132": it.owns[2]}
    return line(136, at1=it.kind, at20="01", at22=it.number, at31=it.name, at88=it.ipi, **where)


def row_line(it: Party, row: Row) -> bytes:
    pr, mr, sr = row.shares
    if it.is_writer:
        return line(52, at1="SWT", at20=it.number, at29=pr, at34=mr, at39=sr, at44=row.indicator, at45=row.territory)
    return line(58, at1="SPT", at20=it.number, at35=pr, at40=mr, at45=sr, at50=row.indicator, at51=row.territory)


def work_lines(it: Work) -> list[bytes]:
    """The records of a work, without their sequence numbers."""
    lines = [line(106, at1=it.kind, at20=it.title, at82=it.number, at96=it.iswc)]
    for party in it.parties:
        lines += [party_line(party), *(row_line(party, row) for row in party.rows)]
    return lines + [line(261, at1="REC", at250=isrc) for isrc in it.recordings]


def group_lines(kind: str, number: int, works: list[Work]) -> list[bytes]:
    """A group of registrations or of revisions."""
    lines = [b"GRH%s%05d02.200000000000" % (kind.encode(), number)]
    for sequence, work in enumerate(works):
        lines += [it[:3] + b"%08d%08d" % (sequence, record) + it[19:] for record, it in enumerate(work_lines(work))]
    return [*lines, b"GRT%05d%08d%08d" % (number, len(works), len(lines) + 1)]


def file(sender: str, name: str, works: list[Work]) -> bytes:
    """A whole file: registrations first, then revisions, each in the order given."""
    lines = [line(86, at1="HDR" + sender, at15=name, at60="01.10", at65="20260105", at73="101500", at79="20260106")]
    kinds = [kind for kind in ("NWR", "REV") if any(it.kind == kind for it in works)]
    for number, kind in enumerate(kinds, 1):
        lines += group_lines(kind, number, [it for it in works if it.kind == kind])
    lines.append(b"TRL%05d%08d%08d" % (len(kinds), len(works), len(lines) + 1))
    return b"\r\n".join(lines) + b"\r\n"
