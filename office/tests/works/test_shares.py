"""Collection shares out of records: which party, which row, and whose account."""

import cwr
import pytest
from cwr import Party, Row
from society_office.credits.explain_output import percent_text
from society_office.works import shares
from society_office.works.records import account_of, transactions
from society_office.works.shares import Holder

NOTHING = ("00000", "00000", "00000")
SENDER = "PB000000012"


def holders_of(*parties: Party, territory: int = 40) -> list[Holder]:
    """The holders of a work with these parties."""
    body = cwr.file(SENDER, "IT", [cwr.Work("NWR", "W1", "IT", (), parties)])
    return shares.holders_of([it.rstrip(b"\r") for it in transactions(body)[0].raw.split(b"\n")], territory)


def party(*rows: Row, number: str = "P1", ipi: str = "", kind: str = "SPU") -> Party:
    return Party(kind, number, f"NAME {number}", ipi, NOTHING, rows)


@pytest.mark.parametrize(
    "rows, collects",
    [
        ([Row(("05000", "10000", "00001"))], (5_000, 10_000, 1)),
        ([Row(("05000", "10000", "00001")), Row(NOTHING, "E", "40")], (0, 0, 0)),
        ([Row(("05000", "10000", "00001")), Row(("00100", "00100", "00100"), "E", "40")], (0, 0, 0)),
        ([Row(NOTHING, "E", "40"), Row(("05000", "10000", "00001"))], (5_000, 10_000, 1)),
        ([Row(("05000", "10000", "00001")), Row(NOTHING, "I", "276")], (5_000, 10_000, 1)),
        ([Row(("05000", "10000", "00001"), "I", "  40")], (5_000, 10_000, 1)),
        ([Row(("05000", "10000", "00001"), "X")], (0, 0, 0)),
        ([Row(("05000", "     ", "00001"))], (5_000, 0, 1)),
        ([], (0, 0, 0)),
    ],
)
@pytest.mark.parametrize("kind", ["SPU", "OPU", "SWR", "OWR"])
def test_the_last_row_that_counts(rows: list[Row], collects: tuple[int, int, int], kind: str) -> None:
    assert [it.collects for it in holders_of(party(*rows, kind=kind))] == [collects]


def test_a_row_is_of_the_nearest_party_before_it() -> None:
    row, other = Row(("00001", "00002", "00003")), Row(("00004", "00005", "00006"))
    found = holders_of(party(row), party(other), party(Row(NOTHING), kind="SWR"))
    assert [it.collects for it in found] == [(1, 2, 3), (4, 5, 6), (0, 0, 0)]
    # (a writer of the same number is another party)
    assert [it.collects for it in holders_of(party(), party(row, kind="SWR"))] == [(0, 0, 0), (1, 2, 3)]


@pytest.mark.parametrize(
    "ipi, number, account",
    [
        (b"00000000199", b"P1", "I00000000199"),
        (b"199        ", b"P1", "I00000000199"),
        (b"00000000000", b"A1", "PPB000000012A1"),
        (b"           ", b"A 1", "PPB000000012A 1"),
        (b"           ", b"  A1 ", "PPB000000012A1"),
        (b"           ", b"      ", "UNCLAIMED"),
        (b"00000000000", b"", "UNCLAIMED"),
    ],
)
def test_accounts(ipi: bytes, number: bytes, account: str) -> None:
    assert account_of(SENDER, ipi, number) == account


def test_shares_in_words() -> None:
    assert [percent_text(it) for it in (0, 1, 50, 5_000, 10_006)] == ["0 %", "0.01 %", "0.5 %", "50 %", "100.06 %"]
