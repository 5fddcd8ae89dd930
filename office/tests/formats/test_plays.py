"""The one reader of returns."""

import collections

import pytest
from conftest import ROOT
from society_office.checks.return_faults import return_faults
from society_office.formats import fields
from society_office.formats.plays import points, records, rows

DATA = "isrc,plays,seconds{0}at-abc-26-00001,2,3{0}ATABC2600001,1,10{0}"


@pytest.mark.parametrize(
    "text", [DATA.format("\n"), DATA.format("\r\n"), DATA.format("\r"), "\n\r\n" + DATA.format("\n\n"), "\ufeff" + DATA.format("\n")]
)
def test_rows_are_those_behind_the_first_record(text: str) -> None:
    assert list(rows(text.encode())) == [("ATABC2600001", 2, 3), ("ATABC2600001", 1, 10)]
    assert points(text.encode()) == collections.Counter({"ATABC2600001": 16})
    assert return_faults(text.encode()) == []


def test_a_field_is_as_long_as_a_body() -> None:
    assert len(list(records(b'isrc,plays,seconds\n"' + b"x" * 1_000_000))[1][0]) == 1_000_000


# The fields that the program's own table has under the same names.
PLACES = {
    "header": [fields.SENDER_NAME, *(it for it, _ in fields.TIMES)],
    "group_header": [fields.GROUP_KIND, fields.GROUP_ID],
    "group_trailer": fields.GROUP_END,
    "trailer": fields.TRAILER,
    "work": [fields.TITLE, fields.ISWC],
    "publisher": [fields.PUBLISHER.number, fields.PUBLISHER.name, fields.PUBLISHER.ipi],
    "writer": [fields.WRITER.number, fields.WRITER.name, fields.WRITER.first_name, fields.WRITER.ipi],
    "publisher_territory": [fields.ROWS[b"SPT"].number, fields.ROWS[b"SPT"].indicator, fields.ROWS[b"SPT"].code],
    "writer_territory": [fields.ROWS[b"SWT"].number, fields.ROWS[b"SWT"].indicator, fields.ROWS[b"SWT"].code],
    "publisher_for_writer": [fields.PWR_PUBLISHER, fields.PWR_WRITER],
    "recording": [fields.ISRC],
    "acknowledgement": [fields.ACK_TITLE, fields.ACK_NUMBER],
}
# Those that have other names there, and the shares.
OTHERS = [
    ("header", "sender ID", fields.SENDER.first + 2, fields.SENDER.last),
    ("work", "submitter work number", fields.WORK_NUMBER.first, fields.WORK_NUMBER.last),
    *(("publisher", f"{right} share", it.first, it.last) for right, it in zip(fields.RIGHTS, fields.PUBLISHER.owns)),
    *(("writer", f"{right} share", it.first, it.last) for right, it in zip(fields.RIGHTS, fields.WRITER.owns)),
    *(("publisher_territory", f"{right} share", it.first, it.last) for right, it in zip(fields.RIGHTS, fields.ROWS[b"SPT"].collects)),
    *(("writer_territory", f"{right} share", it.first, it.last) for right, it in zip(fields.RIGHTS, fields.ROWS[b"SWT"].collects)),
]


def test_fields_stand_where_the_program_reads_them() -> None:
    text = (ROOT / "crates/cwr_records/specs/Places.antt").read_text()
    tables = {it: text.partition(f"\n{it}_places =")[2].partition("\n\n")[0] for it in PLACES}
    same = [(record, *place) for record, listed in PLACES.items() for place in listed if place]
    for record, name, first, last in same + OTHERS:
        assert f'(codes "{name}") {first} {last}\n' in tables[record], (record, name)
