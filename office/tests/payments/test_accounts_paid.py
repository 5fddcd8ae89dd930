"""Statements of members: what was credited by work, deducted, adjusted and paid between two days, beside the reckoning."""

import datetime
import io
import pathlib
import sys
from collections import Counter
from typing import Any

import pytest
import quarter
import reckoning
from answers import rows_of
from command import run
from desk import ANNA, HOUSE, Desk, file, holder, work
from office_value import Pool, Return, Step
from society_office.payments import home
from test_members import HEADER, IBAN
from test_payments import ROWS, begun, paid

DAYS = "1 2026-01-01/2026-03-31 First quarter\n2 2026-04-01/2026-06-30 Second\n3 2026-07-01/2026-09-30 Third\n"
OWNED = {"M1": ["I00000000199"], "M2": ["I00000000295"], "M3": ["PPB000000012B/7", "PPB000000090T0"], "M4": ["I00000000301"]}


@pytest.fixture
def settled(copy: pathlib.Path, tmp_path: pathlib.Path, decided: pathlib.Path) -> pathlib.Path:
    """The quarter's office with deductions, two batches, a payment that came back, and an adjustment."""
    place = begun(decided)
    (decided / "pools.txt").write_text(DAYS)
    with (place / "payments.txt").open("a") as out:
        out.write("address Ring 1, 1010 Wien & more\n")
    (place / "deductions.txt").write_text("administration: 15 % of gross\ntax withheld: 20 % of rest; tax foreign\n")
    run("members", "note", "--why", "x")
    paid(copy, tmp_path / "out")
    orders = home.read(None).ledger.batches[1].orders
    (tmp_path / "back.csv").write_text(f"reference,amount,day,why\n900-PAY-1-M2,{orders['M2'] / 100:.2f},2026-12-03,AC04\n")
    run("pay", "returned", tmp_path / "back.csv", "--why", "x")
    run("pay", "confirm", "--batch", 1, "--day", "2026-12-02", "--why", "x")
    run("adjust", "M1", 777, "--why", '=an advance; of "his"')
    paid(copy, tmp_path / "out")
    return copy


def rows(copy: pathlib.Path, member: str, *words: object) -> list[dict[str, str]]:
    return rows_of(run("members", "statement", copy, member, "--format", "csv", *words))


def units(listed: list[dict[str, str]], what: str) -> int:
    return sum(int(it["units"]) for it in listed if it["what"] == what)


@pytest.mark.parametrize("member", sorted(OWNED))
def test_a_statement_has_every_work_and_comes_to_what_is_owed(settled: pathlib.Path, member: str) -> None:
    listed = rows(settled, member, "--to", "2027-01-01")
    wanted = Counter[tuple[str, ...]]()
    for account in OWNED[member]:
        for pool, right, _, title, number, sender, amount in reckoning.lines_of(quarter.OFFICE, account):
            if amount:
                wanted[str(pool), right, account, title, number, sender] += amount
    found = Counter[tuple[str, ...]]()
    for it in listed:
        if it["what"] == "credited":
            key = (it["pool"], it["right"], it["account"], it["title"].removeprefix("'"), it["work"], it["publisher"])
            assert key not in found and it["pool_name"].startswith(f"pool {it['pool']}")
            found[key] = int(it["units"])
    assert found == wanted
    assert (listed[0]["what"], listed[-1]["what"]) == ("opening balance", "closing balance")
    assert sum(int(it["units"]) for it in listed[:-1]) == int(listed[-1]["units"]) == home.read(None).ledger.owed.get(member, 0)
    assert all(int(it["units"]) for it in listed[1:-1])


def test_statements_of_days_follow_each_other(settled: pathlib.Path) -> None:
    days = ["2026-01-01", "2026-03-31", "2026-04-01", "2026-06-29", "2026-06-30", "2026-10-01", "2026-12-31"]
    for member in OWNED:
        balance, credited = 0, Counter[str]()
        for first, last in zip(days, days[1:]):
            until = datetime.date.fromisoformat(last) - datetime.timedelta(1)
            listed = rows(settled, member, "--from", first, "--to", until)
            assert int(listed[0]["units"]) == balance and listed[0]["day"] == first and listed[-1]["day"] == str(until)
            balance = int(listed[-1]["units"])
            credited.update({it["pool"]: int(it["units"]) for it in listed if it["what"] == "credited"})
        assert balance == home.read(None).ledger.owed.get(member, 0)
        whole = rows(settled, member, "--to", "2026-12-30")
        assert sum(credited.values()) <= units(whole, "credited") and set(credited) == {it["pool"] for it in whole if it["pool"]}


def test_a_pool_is_on_the_statement_of_its_last_day(settled: pathlib.Path) -> None:
    on_it = {it["pool"] for it in rows(settled, "M1", "--from", "2026-06-30", "--to", "2026-06-30") if it["what"] == "credited"}
    assert on_it == {"2"}
    assert {it["pool"] for it in rows(settled, "M1", "--to", "2026-06-29") if it["pool"]} == {"1"}
    assert {it["pool"] for it in rows(settled, "M1", "--from", "2026-07-01", "--to", "2027-01-01") if it["pool"]} == {"3"}


def test_what_the_bank_has_told_stands_by_each_payment(settled: pathlib.Path) -> None:
    told = [(it["what"], it["batch"], it["words"]) for it in rows(settled, "M2", "--to", "2027-01-01") if it["batch"]]
    back, open_one = ("paid", "1", "sent back on 2026-12-03"), ("paid", "2", "the bank has not told yet")
    assert told == [back, ("sent back", "1", "AC04"), open_one]
    [first, *_] = [it for it in rows(settled, "M1", "--to", "2027-01-01") if it["batch"]]
    assert first["words"] == "paid on 2026-12-02"
    [adjusted] = [it for it in rows(settled, "M1", "--to", "2027-01-01") if it["what"] == "adjusted"]
    assert (adjusted["words"], adjusted["units"]) == ('\'=an advance; of "his"', "777")


def test_all_members_have_their_statements_in_a_folder(settled: pathlib.Path, tmp_path: pathlib.Path) -> None:
    into = tmp_path / "all"
    assert run("members", "statement", settled, "--all", "--into", into, "--to", "2027-01-01") == f"4 statements in {into}\n"
    totals = {it["member"]: it for it in rows_of((into / "totals.csv").read_text())}
    assert sorted(totals) == sorted(OWNED)
    for key, it in totals.items():
        assert (into / key / "statement.csv").read_text() == run(
            "members", "statement", settled, key, "--format", "csv", "--to", "2027-01-01"
        )
        parts = [int(it[name]) for name in ("opening", "credited", "deducted", "adjusted", "payments")]
        assert sum(parts) == int(it["closing"]) == home.read(None).ledger.owed.get(key, 0)
        own = rows_of((into / key / "statement.csv").read_text())
        assert (parts[1], parts[2], parts[3]) == (units(own, "credited"), units(own, "deducted"), units(own, "adjusted"))
    page = (into / "M2/index.html").read_text()
    assert "Ring 1, 1010 Wien &amp; more" in page
    assert "Anna Writer" in page and "Berlin" in page and "Alpha" not in page and "DE8937" not in page and "Tax withheld" in page
    # (one of an earlier run that has nothing now would have other sums)
    assert run("members", "statement", settled, "--all", "--into", into, "--to", "2020-01-01") == f"0 statements in {into}\n"


def test_a_page_and_a_pdf_of_a_member(settled: pathlib.Path, tmp_path: pathlib.Path) -> None:
    pytest.importorskip("weasyprint")
    run("members", "statement", settled, "M1", "--format", "pdf", "--output", tmp_path / "m1.pdf")
    assert (tmp_path / "m1.pdf").read_bytes().startswith(b"%PDF-")
    run("members", "statement", settled, "--all", "--into", tmp_path / "all", "--pdf")
    assert all((tmp_path / "all" / it / "statement.pdf").read_bytes().startswith(b"%PDF-") for it in OWNED)
    run("members", "statement", settled, "--all", "--into", tmp_path / "all")
    assert list((tmp_path / "all").rglob("*.pdf")) == []
    hostile = ROWS[0].replace("Alpha Music", "<script>alert(1)</script>")
    (home.read(None).folder / "members.csv").write_text("\n".join([HEADER, hostile, *ROWS[1:]]) + "\n")
    assert "<script" not in run("members", "statement", settled, "M1", "--format", "html")


def test_a_workbook_of_a_member(settled: pathlib.Path, tmp_path: pathlib.Path) -> None:
    openpyxl = pytest.importorskip("openpyxl")
    run("members", "statement", settled, "M1", "--format", "xlsx", "--output", tmp_path / "m1.xlsx", "--to", "2027-01-01")
    book = openpyxl.load_workbook(io.BytesIO((tmp_path / "m1.xlsx").read_bytes()))
    found = [["" if cell is None else str(cell) for cell in row] for row in book["Lines"].values]
    wanted = [list(rows(settled, "M1", "--to", "2027-01-01")[0]), *(list(it.values()) for it in rows(settled, "M1", "--to", "2027-01-01"))]
    assert found == wanted
    assert all(cell.data_type != "f" for row in book["Lines"].iter_rows() for cell in row)
    [_, totals] = book["Totals"].values
    assert totals[0] == "M1" and totals[7] == home.read(None).ledger.owed["M1"]
    run("members", "statement", settled, "--all", "--into", tmp_path / "all", "--workbook")
    assert [it[0] for it in openpyxl.load_workbook(tmp_path / "all/totals.xlsx")["Totals"].values] == ["member", *sorted(OWNED)]


def test_a_workbook_without_openpyxl_says_what_to_install(
    settled: pathlib.Path, tmp_path: pathlib.Path, monkeypatch: pytest.MonkeyPatch
) -> None:
    modules: dict[str, Any] = sys.modules
    monkeypatch.setitem(modules, "openpyxl", None)
    said = run("members", "statement", settled, "M1", "--format", "xlsx", "--output", tmp_path / "x", status=1)
    assert "a workbook needs openpyxl: `apt-get install python3-openpyxl`" in said
    monkeypatch.setitem(modules, "weasyprint", None)
    said = run("members", "statement", settled, "M1", "--format", "pdf", "--output", tmp_path / "x", status=1)
    assert "a PDF needs WeasyPrint" in said and not (tmp_path / "x").exists()


def test_corrections_are_named_as_such(program: str, tmp_path: pathlib.Path, decided: pathlib.Path) -> None:
    played: list[Step] = [Return("RADIO1", 1, [("ATABC2600001", 10, 10)]), Pool(1, "PR", 1_000, {}, [("RADIO1", 1)])]
    desk = Desk(program, tmp_path, *played)
    desk.steps(file(HOUSE, 1, work("W1", "ATABC2600001", holder(ANNA, 10_000))))
    desk.settled()
    desk.amend(1, "--amount", 1_500)
    desk.settled()
    run("members", "begin")
    row = f"M1,Anna,Road 1,1010,Wien,AT,de,{IBAN},,,,,{ANNA}"
    (decided / "payments/members.csv").write_text(f"{HEADER}\n{row}\n")
    run("members", "note", "--why", "x")
    run("pay", "book", desk.live, "--why", "x")
    found = {it["pool"]: (it["pool_name"], it["units"]) for it in rows(desk.live, "M1", "--to", "2027-01-01") if it["pool"]}
    assert found == {
        "99999": ("pool 99999 makes up what was lacking", "1000"),
        "99997": ("pool 99997 makes up what was lacking, as pool 1 was corrected", "500"),
    }


@pytest.mark.parametrize(
    "words, said",
    [
        ([], "give a MEMBER, or --all with --into FOLDER"),
        (["M1", "--all", "--into", "x"], "give a MEMBER, or --all"),
        (["--all"], "give a MEMBER, or --all with --into"),
        (["M1", "--pdf"], "--pdf and --workbook are for --all"),
        (["M1", "--output", "x"], "--output needs --format csv, html, pdf or xlsx"),
        (["M1", "--format", "pdf"], "a PDF and a workbook need --output FILE"),
        (["M1", "--from", "2026-03-02", "--to", "2026-03-01"], "--from is behind --to"),
    ],
)
def test_words_that_do_not_fit(copy: pathlib.Path, decided: pathlib.Path, words: list[str], said: str) -> None:
    begun(decided)
    assert said in run("members", "statement", copy, *words, status=2)


def test_who_is_no_member_has_no_statement(settled: pathlib.Path) -> None:
    for key in ("M9", "UNCLAIMED"):
        assert f"there is no member {key}" in run("members", "statement", settled, key, status=1)
