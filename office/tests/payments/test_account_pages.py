"""The page of a member's statement and the list to sign, table by table and cell by cell, and the totals of all statements."""

import datetime
import pathlib
from collections import Counter

import pytest
import quarter
import reckoning
from answers import rows_of
from page_tables import figures_of, tables_of
from society_office.payments import account_output, home
from test_accounts_paid import OWNED, rows, settled  # noqa: F401 (a fixture)
from command import run
from test_members import HEADER, IBAN, OTHER
from test_payments import ROWS, begun, paid

# Days before and after all that the office of the quarter has.
FIRST, LAST = "2020-01-01", "2099-01-01"


def shown(units: int) -> list[str]:
    """Units and their amount in cells."""
    sign, whole = "-" if units < 0 else "", abs(units)
    return [f"{units:,}", f"{sign}{whole // 100:,}.{whole % 100:02d}"]


def page_of(copy: pathlib.Path, member: str, *words: object) -> str:
    return run("members", "statement", copy, member, "--format", "html", *words)


@pytest.mark.parametrize("member", sorted(OWNED))
@pytest.mark.parametrize("first", [FIRST, "2026-04-01", "2026-07-01"])
def test_every_cell_of_a_page(settled: pathlib.Path, member: str, first: str) -> None:  # noqa: F811
    page = page_of(settled, member, "--from", first, "--to", LAST)
    found, listed = tables_of(page), rows(settled, member, "--from", first, "--to", LAST)
    sums = Counter[str]()
    for it in listed:
        sums[it["what"]] += int(it["units"])
        assert [f"{int(it['units']):,}", it["amount"], it["currency"]] == [*shown_plain(int(it["units"])), "EUR"]
    parts = {
        "Opening balance": sums["opening balance"],
        "Credits": sums["credited"],
        "Deductions": sums["deducted"],
        "Adjustments": sums["adjusted"],
        "Payments": sums["paid"] + sums["sent back"],
    }
    assert sum(parts.values()) == sums["closing balance"] == home.read(None).ledger.owed.get(member, 0)
    parts["Closing balance"] = sums["closing balance"]
    assert found["In all"] == [["What", "Units", "EUR"], *([it, *shown(units)] for it, units in parts.items())]
    check_credits(found, member, datetime.date.fromisoformat(first))
    check_rest(found, listed)


def shown_plain(units: int) -> list[str]:
    """Units and their amount as CSV has it."""
    first, amount = shown(units)
    return [first, amount.replace(",", "")]


def check_credits(found: dict[str, list[list[str]]], member: str, first: datetime.date) -> None:
    """The credits by pool and by work, beside the reckoning."""
    names = {
        1: "Pool 1 (First quarter, 2026-01-01 to 2026-03-31)",
        2: "Pool 2 (Second, 2026-04-01 to 2026-06-30)",
        3: "Pool 3 (Third, 2026-07-01 to 2026-09-30)",
    }
    begins = {pool: datetime.date(2026, 3 * pool, 30) for pool in names}
    works, pools = Counter[tuple[int, ...] | tuple[object, ...]](), Counter[int]()
    for account in OWNED[member]:
        for pool, right, _, title, number, sender, units in reckoning.lines_of(quarter.OFFICE, account):
            if units and begins[pool] >= first:
                works[pool, right, title or "(no work)", number, sender, account] += units
                pools[pool] += units
    assert found.get("Credits by pool", [[]])[1:] == [[names[pool], *shown(units)] for pool, units in sorted(pools.items())]
    listed = found.get("Credits by work", [[]])[1:]
    assert sorted(listed) == sorted([*map(str, key), f"{units:,}"] for key, units in works.items())
    order = [(int(it[0]), -int(it[-1].replace(",", ""))) for it in listed]
    assert order == sorted(order)


def check_rest(found: dict[str, list[list[str]]], listed: list[dict[str, str]]) -> None:
    """Deductions, adjustments and payments, beside the CSV."""

    def of(*what: str) -> list[dict[str, str]]:
        return [it for it in listed if it["what"] in what]

    deducted = [[it["pool"], it["words"].capitalize(), *shown(int(it["units"]))] for it in of("deducted")]
    all_of_it = [["All", *shown(sum(int(it["units"]) for it in of("deducted")))]]
    assert found.get("Deductions", [[]])[1:] == (deducted + all_of_it if deducted else [])
    adjusted = [[it["day"], it["words"].removeprefix("'"), *shown(int(it["units"]))] for it in of("adjusted")]
    assert found.get("Adjustments", [[]])[1:] == adjusted
    words = {"paid": "Batch", "sent back": "Sent back, batch"}
    payments = [[it["day"], f"{words[it['what']]} {it['batch']}", it["words"], *shown(int(it["units"]))] for it in of("paid", "sent back")]
    assert found.get("Payments", [[]])[1:] == payments


def test_the_greatest_works_stand_on_a_page_that_has_not_all(settled: pathlib.Path, monkeypatch: pytest.MonkeyPatch) -> None:  # noqa: F811
    every = tables_of(page_of(settled, "M2", "--to", LAST))["Credits by work"]
    monkeypatch.setattr(account_output, "MOST_WORKS", 2)
    page = page_of(settled, "M2", "--to", LAST)
    assert tables_of(page)["Credits by work"] == every[:3] and f"{len(every) - 3} more lines: the CSV has all of them." in page
    assert [it[0] for it in every[1:3]] == ["1", "1"] and int(every[1][-1].replace(",", "")) > int(every[2][-1].replace(",", ""))


def test_whose_page_it_is(settled: pathlib.Path) -> None:  # noqa: F811
    place = home.read(None).folder
    (place / "payments.txt").write_text(f"name ELSE & CO\niban {OTHER}\naddress Ring 1\n")
    run("members", "note", "--why", "x")
    page = page_of(settled, "M2", "--from", FIRST, "--to", LAST)
    lines = len(home.read(None).ledger.lines)
    assert f"<p>ELSE &amp; CO<br>Ring 1</p>\n    <h1>Statement M2/20990101/{lines}</h1>\n    <p>{FIRST} to {LAST}; made on " in page
    assert "<address>Anna Writer<br>Road 2<br>10115 Berlin DE</address>" in page and page.count("Alpha") == 0
    (place / "payments.txt").write_text(f"iban {OTHER}\n")
    run("members", "note", "--why", "x")
    page = page_of(settled, "M2", "--to", LAST)
    assert "<p>EXAMPLE SOCIETY</p>\n    <h1>Statement M2/" in page and f"<p>2026-03-31 to {LAST}; made on " in page


def test_what_is_one_word_is_not_broken(settled: pathlib.Path) -> None:  # noqa: F811
    page = page_of(settled, "M2", "--to", LAST)
    for column, value in (("Publisher", "PB000000012"), ("Account", "I00000000295"), ("Work", "A1")):
        assert f'<td class="key" data-label="{column}">{value}</td>' in page
    assert page.count(f'<tr><td class="key">{home.read(None).ledger.batches[2].day}</td>') >= 1


def test_all_totals(settled: pathlib.Path, tmp_path: pathlib.Path) -> None:  # noqa: F811
    place = home.read(None).folder
    (place / "members.csv").write_text("\n".join([HEADER, ROWS[0].replace("Alpha", "=Alpha"), *ROWS[1:]]) + "\n")
    run("members", "note", "--why", "x")
    run("members", "statement", settled, "--all", "--into", tmp_path / "all", "--from", "2026-04-01", "--to", LAST)
    found = {it["member"]: it for it in rows_of((tmp_path / "all/totals.csv").read_text())}
    for key, name in {"M1": "'=Alpha Music", "M2": "Anna Writer", "M3": "Boris Composer", "M4": "Beta Verlag"}.items():
        listed = rows(settled, key, "--from", "2026-04-01", "--to", LAST)
        sums = Counter[str]()
        for it in listed:
            sums[it["what"]] += int(it["units"])
        units = [sums["opening balance"], sums["credited"], sums["deducted"], sums["adjusted"], sums["paid"] + sums["sent back"]]
        closing = sums["closing balance"]
        wanted = [key, name, *map(str, units), str(closing), "EUR", shown_plain(closing)[1]]
        assert list(found[key].values()) == wanted


def test_who_has_a_balance_and_nothing_else_has_a_statement(settled: pathlib.Path, tmp_path: pathlib.Path) -> None:  # noqa: F811
    words = ["members", "statement", settled, "--all", "--into", tmp_path / "all", "--from", "2098-01-01", "--to", LAST]
    assert run(*words) == f"1 statement in {tmp_path / 'all'}\n"
    [opening, closing] = rows_of((tmp_path / "all/M4/statement.csv").read_text())
    units = home.read(None).ledger.owed["M4"]
    assert (opening["what"], int(opening["units"])) == ("opening balance", units) and int(closing["units"]) == units > 0


def test_every_cell_of_the_list_to_sign(copy: pathlib.Path, decided: pathlib.Path, tmp_path: pathlib.Path) -> None:
    place = begun(decided)
    (place / "members.csv").write_text("\n".join([HEADER, *ROWS[:3], ROWS[3].replace("700000", "")]) + "\n")
    run("members", "note", "--why", "x")
    paid(copy, tmp_path / "out", "--day", "2099-04-07")
    sums = reckoning.balances(quarter.OFFICE)
    units = [sums["I00000000199"], sums["I00000000295"], sums["PPB000000012B/7"] + sums["PPB000000090T0"], sums["I00000000301"]]
    people = [
        ["M1", "Alpha Music", "Road 1", "1010", "Wien", "AT", IBAN, "BKAUATWW", "new"],
        ["M2", "Anna Writer", "Road 2", "10115", "Berlin", "DE", OTHER, "", "new"],
        ["M3", "Boris Composer", "", "1000", "Sofia", "BG", "BG80BNBG96611020345678", "", "new"],
        ["M4", "Beta Verlag", "", "", "", "AT", "otherwise", "", "new"],
    ]
    rest = [[str(it), shown_plain(it)[1], "EUR"] for it in units]
    listed = [list(it.values()) for it in rows_of((tmp_path / "out/list-1.csv").read_text())]
    assert listed == [[f"900-PAY-1-{person[0]}", *person, *last] for person, last in zip(people, rest)]
    page = (tmp_path / "out/list-1.html").read_text()
    amounts = [shown(it)[1] for it in (sum(units), sum(units[:3]), units[3])]
    assert figures_of(page) == {"payments": "4", "EUR": amounts[0], "by the bank, 3": amounts[1], "otherwise": amounts[2]}
    assert tables_of(page)["Payments"][1:] == [
        [it[0], f"{it[1]}, {it[4]} {it[5]}", it[6], it[8], shown(sum_)[1]] for it, sum_ in zip(people, units)
    ]
    assert f"<p>Batch 1, 4 payments, EUR {amounts[0]}.</p>\n      <p>Drawn up: ___" in page
    assert "; ordered on " in page and ", to be paid on 2099-04-07</p>" in page
    assert f'<p>From <span class="key">{IBAN}</span>, as <span class="key">900-PAY-1</span>.</p>' in page
    assert '<td class="key" data-label="It is">new</td>' in page
