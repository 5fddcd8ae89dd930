"""Each line of a ledger is tried by itself: one whose digest fits, and that says what can't be, is told too."""

import dataclasses
import datetime
import hashlib

import pytest
from society_office.basics.errors import OfficeError
from society_office.payments import ledger, listing

BEGUN = ["1", "2026-04-01T12:00:00Z", "begun", "2026-03-31", "-", "0", "0", "0", "900 40 EXAMPLE SOCIETY"]
CREDITED = ["2", "2026-04-01T12:00:00Z", "credited", "2026-03-31", "M1", "1000", "1000", "3", "PR I00000000199"]
DEDUCTED = ["3", "2026-04-01T12:00:00Z", "deducted", "2026-03-31", "M1", "100", "900", "3", "administration"]
BATCH = ["4", "2026-04-01T12:00:00Z", "batch", "2026-04-01", "-", "900", "0", "1", f"1 {'0' * 64}"]
ORDERED = ["5", "2026-04-01T12:00:00Z", "ordered", "2026-04-01", "M1", "900", "0", "1", ""]
LINES = [BEGUN, CREDITED, DEDUCTED, BATCH, ORDERED]


def forged(lines: list[list[str]]) -> bytes:
    """A ledger whose digests fit, whatever its lines say."""
    content = ledger.HEAD.encode()
    for cells in lines:
        content += ("\t".join(cells) + "\t").encode()
        content += hashlib.sha256(content).hexdigest().encode() + b"\n"
    return content


def changed(line: int, cell: int, value: str) -> list[list[str]]:
    return [[value if (k, n) == (line, cell) else it for n, it in enumerate(cells)] for k, cells in enumerate(LINES)]


def test_what_is_forged_right_is_right() -> None:
    found = ledger.read(forged(LINES), "x")
    assert found.owed == {"M1": 0} and found.batches[1].orders == {"M1": 900} and found.office == "900 40 EXAMPLE SOCIETY"


@pytest.mark.parametrize(
    "line, cell, value, said",
    [
        (1, 0, "3", "its number is 3, and that of the line after the one before is 2"),
        (2, 0, "2", "its number is 2"),
        (1, 1, "2026-03-31T12:00:00Z", "it was written before the line before it"),
        (1, 1, "2026-04-31T12:00:00Z", "it is not what a command writes there"),
        (1, 2, "paid", "it is not what a command writes there"),
        (1, 3, "2026-02-30", "it is not what a command writes there"),
        (1, 3, "20260331", "its digest is another"),
        (1, 4, "-", "'-' is no member's key"),
        (0, 4, "M1", "'M1' is no member's key"),
        (1, 5, "1001", "M1 is owed 1,001 units then, and it says 1,000"),
        (1, 5, "01000", "it is not what a command writes there"),
        (2, 6, "901", "M1 is owed 900 units then, and it says 901"),
        (4, 6, "900", "M1 is owed 0 units then, and it says 900"),
        (1, 7, "0", "a credit has units, a pool"),
        (1, 7, "x", "it is not what a command writes there"),
        (1, 8, "I00000000199", "a credit has units, a pool"),
        (2, 8, "", "it deducts 100 units"),
        (3, 5, "901", "the orders of batch 1 come to 900 units, and it has 901"),
        (3, 8, f"2 {'0' * 64}", "batch 1 has 1 order of 2"),
        (3, 8, "1", "the next batch is 1, with units"),
        (3, 7, "2", "the next batch is 1"),
        (0, 8, "", "the first line has the office alone"),
        (0, 2, "credited", "a ledger begins with `begun`, once"),
        (4, 7, "2", "it is no order of a batch that is being written"),
    ],
)
def test_a_line_that_says_what_can_not_be(line: int, cell: int, value: str, said: str) -> None:
    with pytest.raises(OfficeError) as raised:
        ledger.read(forged(changed(line, cell, value)), "x")
    assert said in str(raised.value)
    assert str(raised.value).startswith("x") and "put back the one of the last command" in str(raised.value)


def test_a_line_with_more_or_less_cells() -> None:
    for cells in (CREDITED[:-1], [*CREDITED, "more"]):
        with pytest.raises(OfficeError, match="x, line 3: it is not what a command writes there"):
            ledger.read(forged([BEGUN, cells]), "x")
    with pytest.raises(OfficeError, match="x, line 3: "):
        ledger.read(forged([BEGUN]) + b"\xff\n", "x")


def test_two_orders_of_one_member_in_a_batch() -> None:
    more = ["3", *CREDITED[1:6], "2000", "4", "PR I00000000199"]
    batch = ["4", *BATCH[1:5], "1800", "0", "1", f"2 {'0' * 64}"]
    orders = [["5", *ORDERED[1:5], "900", "1100", "1", ""], ["6", *ORDERED[1:5], "900", "200", "1", ""]]
    with pytest.raises(OfficeError, match="line 7: it is no order of a batch that is being written: 1, M1"):
        ledger.read(forged([BEGUN, CREDITED, more, batch, *orders]), "x")


def test_where_the_units_of_each_line_come_from_and_go() -> None:
    lines = [
        *LINES,
        ["6", *ORDERED[1:2], "confirmed", "2026-04-02", "M1", "900", "0", "1", ""],
        ["7", *ORDERED[1:2], "returned", "2026-04-03", "M1", "900", "900", "1", "AC04: x"],
        ["8", *ORDERED[1:2], "adjusted", "2026-04-03", "M1", "-50", "850", "0", "an advance"],
    ]
    found = ledger.read(forged(lines), "x")
    text = listing.as_journal(found, None)
    told = [line.split() for line in text.splitlines() if line.startswith("    ")]
    assert [(it[0], int(it[1])) for it in told] == [
        ("Members:M1", 1_000),
        ("Pools:3:PR", -1_000),
        ("Members:M1", -100),
        ("Deductions:administration", 100),
        ("Members:M1", -900),
        ("Ordered:1", 900),
        ("Paid:1", 900),
        ("Ordered:1", -900),
        ("Members:M1", 900),
        ("Paid:1", -900),
        ("Members:M1", -50),
        ("Adjustments", 50),
    ]
    assert "2026-04-01 (7) returned batch 1 AC04  x" in text and "2026-04-01 (2) credited pool 3 of 2026-03-31 PR I00000000199" in text
    assert list(listing.owed_rows(found)) == [("M1", 1_000, 100, -50, 900, 900, 850)]
    rows = [it.split(",") for it in listing.as_csv(found, "M1").splitlines()]
    assert rows[0] == listing.COLUMNS and rows[1][7:9] == ["3", ""] and rows[3][7:9] == ["", "1"] and len(rows) == 7
    assert [dataclasses.astuple(found.batches[1])[6:]] == [({"M1": datetime.date(2026, 4, 2)}, {"M1": datetime.date(2026, 4, 3)})]
