"""Payments: what a member is owed, the ledger that tells it, and the commands that write it."""

import datetime
import json
import pathlib
import shutil

import pytest
import quarter
import reckoning
from command import run
from desk import ANNA, HOUSE, Desk, file, holder, work
from office_value import Pool, Return, Step
from society_office.basics.errors import OfficeError
from society_office.decided import decisions
from society_office.decided.journal import sum_of
from society_office.payments import home, ledger, owed
from society_office.payments.owed import Entry, Kind, Rule
from test_members import HEADER, IBAN

DAY = datetime.date(2026, 3, 31)
NOW = datetime.datetime(2026, 4, 1, 12, tzinfo=datetime.UTC)
BEGUN = Entry(Kind.BEGUN, DAY, "-", 0, 0, "900 40 EXAMPLE SOCIETY")
CREDITED = Entry(Kind.CREDITED, DAY, "M1", 1_000, 3, "PR I00000000199")
ORDERS = [Entry(Kind.BATCH, DAY, "-", 700, 1, f"1 {'0' * 64}"), Entry(Kind.ORDERED, DAY, "M1", 700, 1, "")]
# Four members of the quarter's office; one account is nobody's.
ROWS = [
    f"M1,Alpha Music,Road 1,1010,Wien,AT,de,{IBAN},BKAUATWW,,domestic,,I00000000199",
    "M2,Anna Writer,Road 2,10115,Berlin,DE,de,DE89370400440532013000,,,foreign,,I00000000295",
    "M3,Boris Composer,,1000,Sofia,BG,,BG80BNBG96611020345678,,,,,PPB000000012B/7; PPB000000090T0",
    "M4,Beta Verlag,,,,AT,,otherwise,,700000,,,I00000000301",
]


def begun(decided: pathlib.Path) -> pathlib.Path:
    """The folder of payments of the quarter's office, without deductions."""
    run("members", "begin")
    (decided / "payments/members.csv").write_text("\n".join([HEADER, *ROWS]) + "\n")
    (decided / "payments/payments.txt").write_text(f"name EXAMPLE SOCIETY\niban {IBAN}\nminimum 100\n")
    run("members", "note", "--why", "begun")
    return decided / "payments"


@pytest.fixture
def place(decided: pathlib.Path) -> pathlib.Path:
    """That folder."""
    return begun(decided)


def rule(name: str, hundredths: int = 0, fixed: int = 0, of_gross: bool = True) -> Rule:
    return Rule(name, hundredths, fixed, of_gross, lambda pool, right, member: True)


@pytest.mark.parametrize("gross", [0, 1, 2, 3, 7, 99, 100, 12_345, 10**15 + 1])
@pytest.mark.parametrize(
    "rules",
    [
        [],
        [rule("a", 1_500), rule("b", 550, of_gross=False), rule("c", fixed=100)],
        [rule("c", fixed=100), rule("a", 10_000), rule("b", 1)],
        [rule("a", 9_999), rule("b", 9_999)],
        [rule("a", 5_000), rule("b", 5_000, of_gross=False)],
    ],
)
def test_gross_is_net_and_deductions_to_the_unit(gross: int, rules: list[Rule]) -> None:
    found = owed.deductions(gross, rules, {})
    assert all(units > 0 for _, units in found) and sum(units for _, units in found) <= gross
    rest, wanted = gross, []
    for it in rules:
        base = gross if it.is_of_gross else rest
        units = min(rest, it.fixed or (2 * base * it.hundredths + 10_000) // 20_000)
        wanted += [(it.name, units)] if units else []
        rest -= units
    assert found == wanted


def test_a_fixed_deduction_is_taken_once_a_pool_and_member() -> None:
    assert owed.deductions(60, [rule("c", fixed=100)], {}) == [("c", 60)]
    assert owed.deductions(90, [rule("c", fixed=100)], {"c": 60}) == [("c", 40)]
    assert owed.deductions(90, [rule("c", fixed=100)], {"c": 100}) == []


def test_nobody_is_paid_more_than_is_owed() -> None:
    paid = [owed.payable(units, 100, 10) for units in (-500, 0, 99, 100, 109, 110)]
    assert paid == [0, 0, 0, 100, 100, 110]
    assert owed.payable(5, 0, 10) == 0


def made(*entries: Entry) -> tuple[bytes, ledger.Ledger]:
    """A ledger with these lines."""
    head = ledger.HEAD.encode()
    content = ledger.appended(head, ledger.read(head, "x"), entries, NOW)
    return content, ledger.read(content, "x")


def test_a_ledger_is_read_as_it_was_written() -> None:
    content, found = made(BEGUN, CREDITED, *ORDERS)
    assert [it.entry for it in found.lines] == [BEGUN, CREDITED, *ORDERS]
    assert found.owed == {"M1": 300} == {"M1": owed.owed([BEGUN, CREDITED, *ORDERS], "M1")}
    assert content.count(b"\n") == 5 and found.sums[sum_of(content)] == 4


@pytest.mark.parametrize("number", range(1, 5))
def test_a_line_that_was_changed_taken_away_or_put_there_is_told(number: int) -> None:
    content, _ = made(BEGUN, CREDITED, *ORDERS)
    lines = content.splitlines(keepends=True)
    cells = lines[number].split(b"\t")
    for k, cell in enumerate(cells):
        changed = b"\t".join([*cells[:k], cell.replace(b"0", b"1", 1) if b"0" in cell else cell + b"1", *cells[k + 1 :]])
        changed = changed if changed.endswith(b"\n") else changed.rstrip(b"1") + b"1\n"
        if changed == lines[number]:
            continue
        with pytest.raises(OfficeError, match=rf"x, line {number + 1}: "):
            ledger.read(b"".join([*lines[:number], changed, *lines[number + 1 :]]), "x")
    if number < 4:
        with pytest.raises(OfficeError, match=r"x, line "):
            ledger.read(b"".join([*lines[:number], *lines[number + 1 :]]), "x")
    with pytest.raises(OfficeError, match=r"x, line "):
        ledger.read(b"".join([*lines[: number + 1], lines[number], *lines[number + 1 :]]), "x")


def test_a_ledger_that_was_cut_off_is_told() -> None:
    content, _ = made(BEGUN, CREDITED, *ORDERS)
    lines = content.splitlines(keepends=True)
    with pytest.raises(OfficeError, match="x: batch 1 has 0 orders of 1"):
        ledger.read(b"".join(lines[:4]), "x")
    with pytest.raises(OfficeError, match="its last one has no end"):
        ledger.read(content[:-1], "x")
    with pytest.raises(OfficeError, match="its first line is not that of a ledger"):
        ledger.read(b"", "x")


CONFIRMED, RETURNED = (Entry(kind, DAY, "M1", 700, 1, "") for kind in (Kind.CONFIRMED, Kind.RETURNED))
WRONG = [
    (BEGUN, "a ledger begins with `begun`, once"),
    (CREDITED, "pool 3 was credited to I00000000199 already"),
    (CREDITED._replace(member="M2"), "pool 3 was credited to I00000000199 already"),
    (CREDITED._replace(words="PR I00000000295", day=NOW.date()), "the day of pool 3 is 2026-03-31"),
    (CREDITED._replace(words="PR UNCLAIMED"), "what nobody was paid is of no member"),
    (CREDITED._replace(member="UNCLAIMED", words="PR I00000000295"), "what nobody was paid is of no member"),
    (CREDITED._replace(words="XX I00000000295"), "a credit has units"),
    (CREDITED._replace(words="PR I00000000295", units=0), "a credit has units"),
    (CREDITED._replace(member="m1"), "is no member's key"),
    (Entry(Kind.DEDUCTED, DAY, "M1", 1_001, 3, "x"), "it deducts 1,001 units, and pool 3 has credited 1,000 to M1"),
    (Entry(Kind.DEDUCTED, DAY, "M1", 1, 4, "x"), "it deducts 1 units, and pool 4 has credited 0 to M1"),
    (Entry(Kind.ADJUSTED, DAY, "M1", 0, 0, "x"), "an adjustment has units and a why"),
    (Entry(Kind.ADJUSTED, DAY, "M1", 5, 0, ""), "an adjustment has units and a why"),
    (ORDERS[0]._replace(place=3), "the next batch is 2"),
    (ORDERS[0]._replace(place=1), "the next batch is 2"),
    (ORDERS[1], "it is no order of a batch that is being written"),
    (Entry(Kind.CONFIRMED, DAY, "M1", 699, 1, ""), "batch 1 has ordered 700 units for M1, and it says 699"),
    (Entry(Kind.RETURNED, DAY, "M2", 700, 1, ""), "batch 1 has ordered 0 units for M2"),
    (Entry(Kind.RETURNED, DAY, "M1", 700, 2, ""), "batch 2 has ordered 0 units for M1"),
    (Entry(Kind.ERASED, DAY, "M1", 0, 0, "left"), "M1 is owed 300 units"),
]


@pytest.mark.parametrize("entry, said", WRONG)
def test_a_line_that_does_not_agree_with_those_before_it_is_not_written(entry: Entry, said: str) -> None:
    content, found = made(BEGUN, CREDITED, *ORDERS)
    with pytest.raises(OfficeError, match="nothing was written in the ledger: ") as raised:
        ledger.appended(content, found, [entry], NOW)
    assert said in str(raised.value)


@pytest.mark.parametrize(
    "entries, said",
    [
        ([CONFIRMED, CONFIRMED], "the bank has answered for M1 in batch 1 already"),
        ([RETURNED, RETURNED], "what was ordered for M1 in batch 1 has come back already"),
        ([RETURNED, CONFIRMED], "the bank has answered for M1 in batch 1 already"),
        ([ORDERS[0]._replace(place=2, units=301), ORDERS[1]._replace(place=2, units=301)], "it orders 301 units, and M1 is owed 300"),
        ([ORDERS[0]._replace(place=2, units=299), ORDERS[1]._replace(place=2, units=300)], "the orders of batch 2 come to 300 units"),
        ([ORDERS[0]._replace(place=2), Entry(Kind.ADJUSTED, DAY, "M1", 5, 0, "x")], "batch 2 has 0 orders of 1"),
        ([ORDERS[0]._replace(place=2)], "batch 2 has 0 orders of 1"),
        ([Entry(Kind.DEDUCTED, DAY, "M1", 600, 3, "a"), Entry(Kind.DEDUCTED, DAY, "M1", 401, 3, "b")], "it deducts 401 units"),
        (
            [
                CREDITED._replace(member="UNCLAIMED", words="PR UNCLAIMED"),
                ORDERS[0]._replace(place=2),
                ORDERS[1]._replace(place=2, member="UNCLAIMED"),
            ],
            "it orders 700 units, and UNCLAIMED is owed 1,000",
        ),
    ],
)
def test_lines_that_can_not_follow_each_other_are_not_written(entries: list[Entry], said: str) -> None:
    content, found = made(BEGUN, CREDITED, *ORDERS)
    with pytest.raises(OfficeError, match=said):
        ledger.appended(content, found, entries, NOW)


def test_a_clock_that_goes_back_leaves_the_order_of_lines() -> None:
    content, found = made(BEGUN, CREDITED)
    later = ledger.appended(content, found, ORDERS, NOW - datetime.timedelta(days=9))
    assert {it.written for it in ledger.read(later, "x").lines} == {NOW}


def paid(copy: pathlib.Path, into: pathlib.Path, *words: object) -> str:
    return run("pay", copy, "--into", into, "--why", "a quarter", *words)


def test_a_quarter_is_paid_once(copy: pathlib.Path, place: pathlib.Path, tmp_path: pathlib.Path, decided: pathlib.Path) -> None:
    sums = reckoning.balances(quarter.OFFICE)
    wanted = {"M1": sums["I00000000199"], "M2": sums["I00000000295"], "M3": sums["PPB000000012B/7"] + sums["PPB000000090T0"]}
    said = paid(copy, tmp_path / "out", "--dry-run")
    assert said.endswith(f"3 payments would be ordered, {sum(wanted.values()):,} units; nothing was written\n")
    assert not (tmp_path / "out").exists() and home.read(None).ledger.lines == []
    words = f"batch 1: 3 payments, {sum(wanted.values()):,} units\npayment-1.xml, list-1.csv, list-1.html in "
    assert words in paid(copy, tmp_path / "out")
    found = home.read(None).ledger
    assert found.batches[1].orders == wanted
    assert (found.owed["M4"], found.owed["UNCLAIMED"]) == (sums["I00000000301"], sums["UNCLAIMED"])
    assert {it: found.owed[it] for it in wanted} == dict.fromkeys(wanted, 0)
    assert paid(copy, tmp_path / "out") == "nobody is to be paid; the last batch is 1: `pay again 1` writes its files again\n"
    line = (decided / "journal.txt").read_text().splitlines()[-1]
    assert f"\tpay batch 1: 3 payments, {sum(wanted.values()):,} units\ta quarter\tpayments/ledger.txt " in line
    assert line.endswith(sum_of((place / "ledger.txt").read_bytes()))


def test_one_member_alone_is_paid(copy: pathlib.Path, place: pathlib.Path, tmp_path: pathlib.Path) -> None:
    assert "batch 1: 1 payment, " in paid(copy, tmp_path / "out", "--member", "M3")
    assert list(home.read(None).ledger.batches[1].orders) == ["M3"]
    assert "there is no member M7" in run("pay", copy, "--into", tmp_path / "out", "--why", "x", "--member", "M7", status=1)


def test_an_account_that_changes_hands_leaves_the_past(copy: pathlib.Path, place: pathlib.Path, decided: pathlib.Path) -> None:
    days = "1 2026-01-01/2026-03-31 First\n2 2026-01-01/2026-06-30 Second\n3 2026-07-01/2026-09-30 Third\n"
    (decided / "pools.txt").write_text(days)
    buys = ROWS[3].replace("I00000000301", "I00000000301; I00000000295 from 2026-07-01")
    moved = [ROWS[0], ROWS[1].replace("I00000000295", ""), ROWS[2], buys]
    run("pay", "book", copy, "--why", "first")
    (place / "members.csv").write_text("\n".join([HEADER, *moved]) + "\n")
    run("members", "note", "--why", "she has sold them")
    before = home.read(None).ledger.owed
    run("pay", "book", copy, "--why", "second")
    assert home.read(None).ledger.owed == before
    said = run("members", "check", copy, status=1, out=True)
    assert "I00000000295: pool 3 was booked to M2, and by members.csv it was M4's on that day" in said and "pool 1 was booked" not in said
    # (who is told so from the beginning books it so)
    again = decided.with_name("again")
    decisions.begin(again)
    run("members", "begin", "--decisions", again)
    for name in ("members.csv", "payments.txt"):
        shutil.copyfile(place / name, again / "payments" / name)
    shutil.copyfile(decided / "pools.txt", again / "pools.txt")
    run("members", "note", "--why", "x", "--decisions", again)
    run("pay", "book", copy, "--why", "x", "--decisions", again)
    found = {key: to for key, (to, _) in home.read(again).ledger.credited.items() if key[1] == "I00000000295"}
    assert found == {(3, "I00000000295"): "M4"}


def test_another_copy_is_told(copy: pathlib.Path, place: pathlib.Path, tmp_path: pathlib.Path, program: str) -> None:
    run("pay", "book", copy, "--why", "x")
    (tmp_path / "d").mkdir()
    other = Desk(program, tmp_path / "d", Return("RADIO1", 1, [("ATABC2600001", 1, 1)]), Pool(1, "PR", 5, {}, [("RADIO1", 1)]))
    assert "is older than the ledger, which has booked pool 2: take a newer copy" in run("pay", "book", other.live, "--why", "x", status=1)
    (tmp_path / "e").mkdir()
    pools = [Pool(number, "PR", 5, {}, []) for number in (1, 2, 3, 5)]
    other = Desk(program, tmp_path / "e", *pools)
    assert "and the ledger has booked" in run("pay", "book", other.live, "--why", "x", status=1)


def test_the_bank_tells_what_became_of_orders(copy: pathlib.Path, place: pathlib.Path, tmp_path: pathlib.Path) -> None:
    paid(copy, tmp_path / "out")
    orders = home.read(None).ledger.batches[1].orders
    listed, amounts = tmp_path / "list.csv", {it: f"{units // 100}.{units % 100:02d}" for it, units in orders.items()}

    def told(what: str, *rows: str, status: int = 0) -> str:
        listed.write_text("\n".join(["reference,amount,day,why", *rows]) + "\n")
        return run("pay", what, listed, "--why", "the bank", status=status)

    row = {it: f"900-PAY-1-{it},{amount},2026-04-03,closed" for it, amount in amounts.items()}
    said = told("confirm", row["M1"], row["M1"], "SOMEBODY ELSE,1.00,2026-04-03,")
    assert said == f"confirm: 1 payment, {orders['M1']:,} units; 1 known before\n"
    assert told("returned", row["M2"]) == f"returned: 1 payment, {orders['M2']:,} units\n"
    assert told("returned", row["M2"]).endswith("0 payments, 0 units; 1 known before\n")
    assert told("confirm", row["M2"]).endswith("0 payments, 0 units; 1 known before\n")
    assert "the ledger has not ordered a payment 900-PAY-2-M1" in told("confirm", row["M1"].replace("PAY-1", "PAY-2"), status=1)
    assert "the ledger has not ordered a payment 901-PAY-1-M1" in told("confirm", row["M1"].replace("900", "901"), status=1)
    assert "list.csv, line 2: 7 units, and batch 1 has ordered" in told("confirm", "900-PAY-1-M3,0.07,2026-04-03,", status=1)
    assert "'0.071' is no amount" in told("confirm", "900-PAY-1-M3,0.071,2026-04-03,", status=1)
    assert "'3.4.2026' is no day" in told("confirm", "900-PAY-1-M3,0.07,3.4.2026,", status=1)
    assert told("returned", row["M1"]) == f"returned: 1 payment, {orders['M1']:,} units\n"
    assert run("pay", "confirm", "--batch", 1, "--why", "all") == f"confirm: 1 payment, {orders['M3']:,} units; 2 known before\n"
    assert "batch 2 was not ordered; the last one is 1" in run("pay", "confirm", "--batch", 2, "--why", "x", status=1)
    assert "batch 2: 2 payments" in paid(copy, tmp_path / "out")
    assert home.read(None).ledger.batches[2].orders == {"M1": orders["M1"], "M2": orders["M2"]}


def test_who_owes_the_office_is_not_paid(copy: pathlib.Path, place: pathlib.Path, tmp_path: pathlib.Path) -> None:
    run("pay", "book", copy, "--why", "x")
    units = home.read(None).ledger.owed["M1"]
    assert run("adjust", "M1", f"-{units + 50}", "--why", "an advance, paid by hand") == "M1 is owed -50 units\n"
    assert "batch 1: 2 payments" in paid(copy, tmp_path / "out")
    assert "M1" not in home.read(None).ledger.batches[1].orders
    assert "there is no member M9" in run("adjust", "M9", 5, "--why", "x", status=1)
    assert "an adjustment has units" in run("adjust", "M1", 0, "--why", "x", status=1)
    assert "write why in one line" in run("adjust", "M1", 5, "--why", "two\nlines", status=1)


def test_no_more_is_written_off_than_is_due_to_others(program: str, tmp_path: pathlib.Path, place: pathlib.Path) -> None:
    played: list[Step] = [Return("RADIO1", 1, [("ATABC2600001", 10, 10)]), Pool(1, "PR", 1_000, {}, [("RADIO1", 1)])]
    desk = Desk(program, tmp_path, *played)
    run("pay", "book", desk.live, "--why", "x")
    words = ["adjust", "UNCLAIMED", -1, "--why", "x", "--copy", desk.live, "--program", program]
    assert "0 units of UNCLAIMED are to be written off" in run(*words, status=1)
    desk.steps(file(HOUSE, 1, work("W1", "ATABC2600001", holder(ANNA, 6_000))))
    words[2] = -601
    assert "600 units of UNCLAIMED are to be written off" in run(*words, status=1)
    words[2] = -250
    assert run(*words) == "UNCLAIMED is owed 750 units\n"
    assert "350 units of UNCLAIMED are to be written off" in run(*[*words[:2], -351, *words[3:]], status=1)
    assert run(*[*words[:2], -350, *words[3:]]) == "UNCLAIMED is owed 400 units\n"
    assert "0 units of UNCLAIMED are to be written off" in run(*[*words[:2], -1, *words[3:]], status=1)
    assert run("adjust", "UNCLAIMED", -1, "--why", "x", status=2).endswith("UNCLAIMED and --copy belong together\n")


def test_a_batch_is_the_same_bytes_whatever_changes(copy: pathlib.Path, place: pathlib.Path, tmp_path: pathlib.Path) -> None:
    paid(copy, tmp_path / "out", "--day", "2099-04-07")
    (place / "members.csv").write_text("\n".join([HEADER, ROWS[0].replace("Alpha Music", "Other Name")]) + "\n")
    (place / "payments.txt").write_text("name ELSE\niban DE89370400440532013000\ncurrency CHF\n")
    run("members", "note", "--why", "x")
    run("pay", "again", 1, "--into", tmp_path / "again")
    for it in (tmp_path / "out").iterdir():
        assert (tmp_path / "again" / it.name).read_bytes() == it.read_bytes()
    assert b"<Dt>2099-04-07</Dt>" in (tmp_path / "out/payment-1.xml").read_bytes()
    kept = place / "batches/1.json"
    content = kept.read_text()
    kept.write_text(content.replace("Alpha Music", "Alpha Musik"))
    assert "does not make the payment file that was ordered" in run("pay", "again", 1, "--into", tmp_path / "again", status=1)
    kept.write_text(content.replace('"M1"', '"M5"'))
    assert "pays others than the ledger has" in run("pay", "again", 1, "--into", tmp_path / "again", status=1)
    kept.write_text(content[:-9])
    assert "is not what a command wrote there" in run("pay", "again", 1, "--into", tmp_path / "again", status=1)
    kept.unlink()
    assert "1.json is not there" in run("pay", "again", 1, "--into", tmp_path / "again", status=1)
    assert "batch 2 was not ordered; the last one is 1" in run("pay", "again", 2, "--into", tmp_path / "again", status=1)


def test_a_folder_that_can_not_be_written_orders_nothing(copy: pathlib.Path, place: pathlib.Path, tmp_path: pathlib.Path) -> None:
    (tmp_path / "out").write_text("a file")
    assert "out/x could not be written" in run("pay", copy, "--into", tmp_path / "out/x", "--why", "x", status=1)
    assert home.read(None).ledger.lines == []
    assert "--day is past" in run("pay", copy, "--into", tmp_path / "x", "--why", "x", "--day", "2026-01-01", status=2)


def test_an_account_that_has_changed_is_told_on_the_list_to_sign(copy: pathlib.Path, place: pathlib.Path, tmp_path: pathlib.Path) -> None:
    paid(copy, tmp_path / "out", "--member", "M1", "--member", "M2")
    run("adjust", "M1", 500, "--why", "x")
    run("adjust", "M2", 500, "--why", "x")
    (place / "members.csv").write_text("\n".join([HEADER, ROWS[0].replace(IBAN, "AT483200000012345864"), *ROWS[1:]]) + "\n")
    run("members", "note", "--why", "a mail of theirs")
    paid(copy, tmp_path / "out")
    seen = {it["member"]: it["seen"] for it in json.loads((place / "batches/2.json").read_text())["payees"]}
    assert seen == {"M1": "changed", "M2": "as before", "M3": "new"}
