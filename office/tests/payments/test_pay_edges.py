"""Payments at their edges: batches beside each other, days of owners, who owes, what came back, and what is told of them."""

import datetime
import json
import pathlib

import pytest
from answers import rows_of
from command import run
from society_office.basics.errors import OfficeError
from society_office.payments import home, listing, owed, writing_off
from society_office.payments.owed import Booked, Credit, Entry, Kind
from test_members import HEADER, IBAN, OTHER
from test_payments import BEGUN, CREDITED, DAY, ORDERS, ROWS, begun, made, paid

NOBODYS = CREDITED._replace(member="UNCLAIMED", words="PR UNCLAIMED", units=100)


@pytest.fixture
def place(decided: pathlib.Path) -> pathlib.Path:
    """The folder of payments of the quarter's office."""
    return begun(decided)


def written(place: pathlib.Path, *rows: str) -> None:
    """Members by hand, and noted."""
    (place / "members.csv").write_text("\n".join([HEADER, *rows]) + "\n")
    run("members", "note", "--why", "x")


def test_pools_are_booked_by_their_days() -> None:
    days = {1: datetime.date(2026, 6, 30), 2: datetime.date(2026, 3, 31), 7: datetime.date(2026, 3, 31)}
    credits = [Credit(1, "PR", "A", 5), Credit(2, "MR", "A", 7), Credit(7, "PR", "B", 1), Credit(2, "MR", "B", 2), Credit(2, "MR", "C", 9)]
    members = {"A": "M2", "B": "M1"}
    found = list(owed.bookings(credits, days.__getitem__, lambda account, _: members.get(account), [], Booked({}, set(), {})))
    wanted = [(2, "M1", 2, "MR B"), (2, "M2", 7, "MR A"), (7, "M1", 1, "PR B"), (1, "M2", 5, "PR A")]
    assert found == [Entry(Kind.CREDITED, days[pool], member, units, pool, words) for pool, member, units, words in wanted]


def test_the_account_of_the_last_order_is_that_to_which_another_is_compared(
    copy: pathlib.Path, place: pathlib.Path, tmp_path: pathlib.Path
) -> None:
    seen: list[str] = []
    for account in (IBAN, OTHER, OTHER, IBAN, IBAN):
        written(place, ROWS[0].replace(IBAN, account), f"N{len(seen)},X,,,,AT,,otherwise,,,,,")
        if seen:
            run("adjust", "M1", 500, "--why", "x")
        paid(copy, tmp_path / "out")
        seen.append(json.loads((place / f"batches/{len(seen) + 1}.json").read_text())["payees"][0]["seen"])
    assert seen == ["new", "changed", "as before", "changed", "as before"]


def test_a_list_tells_of_two_batches_at_once(copy: pathlib.Path, place: pathlib.Path, tmp_path: pathlib.Path) -> None:
    paid(copy, tmp_path / "out")
    run("adjust", "M1", 1_234, "--why", "x")
    paid(copy, tmp_path / "out")
    orders = {it.number: it.orders for it in home.read(None).ledger.batches.values()}
    lines = [f"900-PAY-{batch}-M1,{orders[batch]['M1'] / 100:.2f},2026-04-03,back" for batch in (1, 2, 1)]
    (tmp_path / "list").write_text("\n".join(["reference,amount,day,why", *lines]) + "\n")
    units = orders[1]["M1"] + 1_234
    assert run("pay", "confirm", tmp_path / "list", "--why", "x") == f"confirm: 2 payments, {units:,} units; 1 known before\n"
    assert run("pay", "returned", tmp_path / "list", "--why", "x") == f"returned: 2 payments, {units:,} units; 1 known before\n"
    assert home.read(None).ledger.owed["M1"] == units


def test_what_is_owed_and_what_the_bank_has_not_told(copy: pathlib.Path, place: pathlib.Path, tmp_path: pathlib.Path) -> None:
    paid(copy, tmp_path / "out")
    run("adjust", "M1", -777, "--why", "x")
    orders = home.read(None).ledger.batches[1].orders
    (tmp_path / "list").write_text(f"reference,amount,day\n900-PAY-1-M2,{orders['M2'] / 100:.2f},2026-04-03\n")
    run("pay", "confirm", tmp_path / "list", "--why", "x")
    waiting = f"batch 1: of {orders['M1'] + orders['M3']:,} units the bank has told nothing yet\n"
    table = run("ledger")
    assert table.endswith(f"602,787 units are owed to members\n{waiting}")
    sums = home.read(None).ledger.owed
    assert [it.split() for it in table.splitlines()[2:7]] == [
        ["M1", f"{orders['M1']:,}", "0", "-777", f"{orders['M1']:,}", "0", "-777"],
        ["M2", f"{orders['M2']:,}", "0", "0", f"{orders['M2']:,}", "0", "0"],
        ["M3", f"{orders['M3']:,}", "0", "0", f"{orders['M3']:,}", "0", "0"],
        ["M4", "602,787", "0", "0", "0", "0", "602,787"],
        ["UNCLAIMED", f"{sums['UNCLAIMED']:,}", "0", "0", "0", "0", f"{sums['UNCLAIMED']:,}"],
    ]
    run("pay", "confirm", "--batch", 1, "--why", "x")
    assert run("ledger").endswith("602,787 units are owed to members\n")


def test_an_account_is_whose_it_was_on_a_pools_last_day(copy: pathlib.Path, place: pathlib.Path, decided: pathlib.Path) -> None:
    (decided / "pools.txt").write_text("".join(f"{pool} 2026-01-01/2026-03-31 Spring\n" for pool in (1, 2, 3, 5)))
    rest = ROWS[3] + "; PPB000000090T1; PPB000000090T2"
    for day, is_lacking in (("2026-03-31", False), ("2026-04-01", True)):
        anna = ROWS[1].replace("I00000000295", f"I00000000295 from {day}")
        written(place, ROWS[0], anna, ROWS[2], rest)
        said = run("members", "check", copy, status=is_lacking, out=True)
        assert ("I00000000295: credited 3,905,403 units, and no member has it" in said) == is_lacking
        assert said.endswith("nothing is wrong\n") != is_lacking


def test_who_owes_the_office_is_not_erased(copy: pathlib.Path, place: pathlib.Path) -> None:
    run("pay", "book", copy, "--why", "x")
    units = home.read(None).ledger.owed["M2"]
    before = (place / "members.csv").read_bytes()
    run("adjust", "M2", -units - 5, "--why", "x")
    said = run("members", "erase", "M2", "--why", "x", status=1)
    assert "M2 owes 5 units: adjust that first, as `pay --member M2` or `adjust M2`" in said
    assert (place / "members.csv").read_bytes() == before and home.read(None).ledger.erased == {}
    run("adjust", "M2", 5, "--why", "x")
    run("members", "erase", "M2", "--why", "x")
    assert list(home.read(None).ledger.erased) == ["M2"]


def test_nothing_of_who_was_erased_stays_in_any_batch(copy: pathlib.Path, place: pathlib.Path, tmp_path: pathlib.Path) -> None:
    paid(copy, tmp_path / "out")
    orders = home.read(None).ledger.batches[1].orders
    (tmp_path / "list").write_text(f"reference,amount,day\n900-PAY-1-M1,{orders['M1'] / 100:.2f},2026-04-03\n")
    run("pay", "returned", tmp_path / "list", "--why", "x")
    paid(copy, tmp_path / "out")
    for batch in (1, 2):
        run("pay", "confirm", "--batch", batch, "--why", "x")
    others = {batch: json.loads((place / f"batches/{batch}.json").read_text()) for batch in (1, 2)}
    run("members", "erase", "M1", "--why", "left")
    nothing = dict.fromkeys(("name", "street", "postcode", "town", "country", "iban", "bic"), "")
    for batch in (1, 2):
        others[batch]["payees"][0] = {"member": "M1", "units": orders["M1"], **nothing, "seen": "erased"}
        assert json.loads((place / f"batches/{batch}.json").read_text()) == others[batch]
    assert (place / "members.csv").read_text() == "\n".join([HEADER, *ROWS[1:]]) + "\n"


def test_an_account_of_who_was_erased_may_have_another_owner(copy: pathlib.Path, place: pathlib.Path, tmp_path: pathlib.Path) -> None:
    rest = ROWS[3] + "; PPB000000090T1; PPB000000090T2"
    written(place, *ROWS[:3], rest)
    paid(copy, tmp_path / "out")
    run("pay", "confirm", "--batch", 1, "--why", "x")
    run("members", "erase", "M2", "--why", "left")
    written(place, ROWS[0], ROWS[2], rest + "; I00000000295")
    assert run("members", "check", copy).endswith("nothing is wrong\n")
    written(place, ROWS[2], rest + "; I00000000295; I00000000199")
    said = run("members", "check", copy, status=1, out=True)
    assert [it for it in said.splitlines() if "was booked to" in it] == [
        f"I00000000199: pool {pool} was booked to M1, and by members.csv it was M4's on that day: what was booked stays, so give it "
        "another day there, or set it right by `adjust M1` and `adjust M4`"
        for pool in (1, 2, 3)
    ]


def test_no_more_is_written_off_than_the_ledger_has() -> None:
    _, found = made(BEGUN, NOBODYS)
    writing_off.need_within(-100, 600, found)
    with pytest.raises(OfficeError, match="^100 units of UNCLAIMED are to be written off"):
        writing_off.need_within(-101, 600, found)
    _, found = made(BEGUN, NOBODYS, Entry(Kind.ADJUSTED, DAY, "UNCLAIMED", -30, 0, "x"))
    writing_off.need_within(-20, 50, found)
    for units, most in ((-21, 50), (-71, 600), (0, 600), (1, 600), (-1, 30), (-1, 0)):
        with pytest.raises(OfficeError, match="units of UNCLAIMED are to be written off"):
            writing_off.need_within(units, most, found)


def test_the_ledger_of_one_member(copy: pathlib.Path, place: pathlib.Path) -> None:
    other = CREDITED._replace(member="M2", units=5, words="PR I00000000295")
    _, found = made(BEGUN, CREDITED, other)
    assert listing.as_journal(found, "M2") == (
        "; 900 40 EXAMPLE SOCIETY, units\n\n2026-04-01 (3) credited pool 3 of 2026-03-31 PR I00000000295\n"
        "    Members:M2    5  = 5\n    Pools:3:PR    -5\n"
    )
    run("pay", "book", copy, "--why", "x")
    sums = home.read(None).ledger.owed
    told = run("ledger", "--member", "M4").splitlines()
    assert [it.split() for it in told[2:]] == [
        ["M4", "602,787", "0", "0", "0", "0", "602,787"],
        [f"{sum(sums.values()) - sums['UNCLAIMED']:,}", "units", "are", "owed", "to", "members"],
    ]
    assert "the ledger has no line of M9" in run("ledger", "--member", "M9", status=1)


def test_a_batch_is_of_its_day_whenever_the_bank_pays(copy: pathlib.Path, place: pathlib.Path, tmp_path: pathlib.Path) -> None:
    today = datetime.datetime.now(datetime.UTC).date()
    paid(copy, tmp_path / "out", "--day", "2099-04-07", "--member", "M1")
    paid(copy, tmp_path / "out", "--day", today)
    days = {it.day for it in home.read(None).ledger.batches.values()}
    days |= {it.entry.day for it in home.read(None).ledger.lines if it.entry.kind == Kind.ORDERED}
    assert days <= {today, today + datetime.timedelta(1)}
    assert f"<Dt>{today}</Dt>" in (tmp_path / "out/payment-2.xml").read_text()


def test_the_journal_tells_what_was_booked_to_members(copy: pathlib.Path, place: pathlib.Path, decided: pathlib.Path) -> None:
    run("pay", "book", copy, "--why", "x")
    sums = home.read(None).ledger.owed
    line = (decided / "journal.txt").read_text().splitlines()[-1].split("\t")
    assert line[2:4] == [f"pay book: {sum(sums.values()) - sums['UNCLAIMED']:,} units", "x"] and sums["UNCLAIMED"] > 0
    assert "there is no member UNCLAIMED" in run("members", "erase", "UNCLAIMED", "--why", "x", status=1)


def test_what_was_paid_and_came_back_later(copy: pathlib.Path, place: pathlib.Path, tmp_path: pathlib.Path) -> None:
    paid(copy, tmp_path / "out", "--member", "M3")
    run("pay", "confirm", "--batch", 1, "--day", "2026-12-02", "--why", "x")
    units = home.read(None).ledger.batches[1].orders["M3"]
    (tmp_path / "list").write_text(f"reference,amount,day\n900-PAY-1-M3,{units / 100:.2f},2026-12-09\n")
    run("pay", "returned", tmp_path / "list", "--why", "x")
    rows = rows_of(run("members", "statement", copy, "M3", "--format", "csv", "--to", "2099-01-01"))
    told = [(it["what"], it["words"], int(it["units"])) for it in rows if it["batch"]]
    assert told == [("paid", "paid on 2026-12-02", -units), ("sent back", "sent back by the bank", units)]
    table = run("members", "statement", copy, "M3", "--to", "2099-01-01").splitlines()
    assert ["credited", "1", "PR", "'=SECOND", "<SONG>", "31,243", "312.43"] in [it.split() for it in table]
    assert table[1].split() == ["what", "pool", "right", "title", "words", "units", "EUR"] and "Boris" not in "".join(table)


def test_every_cell_of_the_ledger_as_csv() -> None:
    returned = Entry(Kind.RETURNED, datetime.date(2026, 4, 9), "M1", 700, 1, "=AC04")
    _, found = made(BEGUN, CREDITED, *ORDERS, returned)
    written = "2026-04-01T12:00:00+00:00"
    assert [it.split(",") for it in listing.as_csv(found, None).splitlines()[1:]] == [
        ["1", written, "begun", "2026-03-31", "-", "0", "0", "", "", "900 40 EXAMPLE SOCIETY"],
        ["2", written, "credited", "2026-03-31", "M1", "1000", "1000", "3", "", "PR I00000000199"],
        ["3", written, "batch", "2026-03-31", "-", "700", "0", "", "1", f"1 {'0' * 64}"],
        ["4", written, "ordered", "2026-03-31", "M1", "700", "300", "", "1", ""],
        ["5", written, "returned", "2026-04-09", "M1", "700", "1000", "", "1", "'=AC04"],
    ]
    # (what came back before the bank has said that it was paid was never paid)
    assert [it.split() for it in listing.as_journal(found, None).splitlines()[-2:]] == [
        ["Members:M1", "700", "=", "1000"],
        ["Ordered:1", "-700"],
    ]
