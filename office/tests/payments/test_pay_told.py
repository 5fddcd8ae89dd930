"""What commands of payments say: who is not paid and why, what a list to sign has, and what `members check` finds beside a copy."""

import dataclasses
import grp
import os
import pathlib
import re

import pytest
from answers import rows_of
from click.testing import CliRunner
from command import run
from conftest import ROOT
from desk import ANNA, HOUSE, Desk, file, holder, work
from office_value import Pool, Return
from society_office.basics.errors import OfficeError
from society_office.book.copy import open_copy
from society_office.commands.cli import main
from society_office.decided.journal import sum_of
from society_office.payments import bank_lists, booking, home, private
from society_office.payments.accounting import Account
from society_office.payments.words import Words
from test_members import HEADER, IBAN
from test_payments import ROWS, begun
from treasury import camt


@pytest.fixture
def place(decided: pathlib.Path) -> pathlib.Path:
    """The folder of payments of the quarter's office."""
    return begun(decided)


def said(*words: object) -> str:
    """What a command says on standard error."""
    ended = CliRunner(mix_stderr=False).invoke(main, [str(it) for it in words], catch_exceptions=False)
    assert ended.exit_code == 0, ended.stderr
    return ended.stderr


@pytest.mark.parametrize("group", ["members", "pay"])
def test_every_command_of_a_group_stands_in_the_manual(group: str) -> None:
    manual = (ROOT / "debian/man/society-office.1").read_text()
    heads = " ".join(re.findall(rf"^\.SS {group} (.*)", manual, re.MULTILINE))
    commands = re.findall(r"^  (\w+) ", run(group, "--help").partition("Commands:")[2], re.MULTILINE)
    assert len(commands) > 4 and [it for it in commands if it not in heads.replace(",", " ").split() and it != "order"] == []
    for command in commands:
        for option in re.findall(r"^  (--[a-z-]+)", run(group, command, "--help"), re.MULTILINE):
            assert option.replace("-", r"\-") in manual or option == "--help", (command, option)


def test_who_is_not_paid_is_told_with_why(copy: pathlib.Path, place: pathlib.Path, tmp_path: pathlib.Path) -> None:
    run("pay", "book", copy, "--why", "x")
    run("adjust", "M1", -10_000_000, "--why", "x")
    told = said("pay", copy, "--into", tmp_path / "out", "--why", "x")
    assert "M1 is not paid: it owes the office 9,268,055 units\n" in told
    assert "M4 is not paid: 602,787 units are below the least, 700,000\n" in told
    assert "2 accounts without a member, 68,506 units, which are not booked: PPB000000090T2, PPB000000090T1\n" in told
    assert "payments: 4 members, 0 deductions, EUR, " in told and "Anna" not in told and IBAN not in told


def test_the_list_to_sign(copy: pathlib.Path, place: pathlib.Path, tmp_path: pathlib.Path) -> None:
    hostile = ROWS[3].replace("700000", "").replace("Beta", "=Beta <b>")
    (place / "members.csv").write_text("\n".join([HEADER, *ROWS[:3], hostile]) + "\n")
    run("members", "note", "--why", "x")
    printed = run("pay", copy, "--into", tmp_path / "out", "--why", "x")
    assert "Anna" not in printed and "otherwise   new" in printed
    listed = rows_of((tmp_path / "out/list-1.csv").read_text())
    assert [(it["reference"], it["member"], it["iban"], it["account"]) for it in listed][:1] == [("900-PAY-1-M1", "M1", IBAN, "new")]
    last = (listed[3][it] for it in ("name", "units", "amount", "currency"))
    assert tuple(last) == ("'=Beta <b> Verlag", "602787", "6027.87", "EUR")
    page = (tmp_path / "out/list-1.html").read_text()
    assert "=Beta &lt;b&gt; Verlag" in page and ">53,056.26<" in page and ">47,028.39<" in page and ">6,027.87<" in page
    assert home.read(None).ledger.batches[1].file_sum in page and "Approved: ___" in page
    assert home.read(None).ledger.batches[1].file_sum == sum_of((tmp_path / "out/payment-1.xml").read_bytes())


def test_a_batch_that_no_bank_pays_has_no_payment_file(copy: pathlib.Path, place: pathlib.Path, tmp_path: pathlib.Path) -> None:
    run("adjust", "M4", 1, "--why", "x", status=1)
    (place / "members.csv").write_text("\n".join([HEADER, ROWS[3].replace("700000", "")]) + "\n")
    run("members", "note", "--why", "x")
    assert run("pay", copy, "--into", tmp_path / "out", "--why", "x").endswith(f"list-1.csv, list-1.html in {tmp_path / 'out'}\n")
    assert sorted(it.name for it in (tmp_path / "out").iterdir()) == ["list-1.csv", "list-1.html"]


def test_a_copy_has_all_that_was_booked_and_is_of_the_same_office(copy: pathlib.Path, place: pathlib.Path) -> None:
    run("pay", "book", copy, "--why", "x")
    with open_copy(copy) as opened:
        found = booking.read(opened)
    booking.need_same(found, home.read(None))
    lacking = dataclasses.replace(found, listed=tuple(it for it in found.listed if (it.pool, it.account) != (1, "I00000000199")))
    with pytest.raises(OfficeError, match="pool 1 has credited 0 units to I00000000199, and the ledger has booked 31,243"):
        booking.need_same(lacking, home.read(None))
    with pytest.raises(OfficeError, match="is of the office 901 40 OTHER, and the ledger of 900 40 EXAMPLE SOCIETY"):
        booking.need_same(dataclasses.replace(found, office="901 40 OTHER"), home.read(None))


def test_a_pool_has_one_day_whenever_accounts_are_booked(copy: pathlib.Path, place: pathlib.Path) -> None:
    for noon, rows in ((1_768_046_400, [ROWS[0]]), (1_781_092_800, ROWS)):
        os.utime(copy, (noon, noon))
        (place / "members.csv").write_text("\n".join([HEADER, *rows]) + "\n")
        run("members", "note", "--why", "x")
        run("pay", "book", copy, "--why", "x")
    found = home.read(None).ledger
    assert {str(day) for day in found.days.values()} == {"2026-01-10"} and found.credited[1, "I00000000295"][0] == "M2"


def test_a_name_may_be_any_word(copy: pathlib.Path, place: pathlib.Path, tmp_path: pathlib.Path) -> None:
    for word in ("erased", "otherwise", "M1", "new"):
        (place / "members.csv").write_text("\n".join([HEADER, ROWS[0].replace("Alpha Music", word)]) + "\n")
        run("members", "note", "--why", "x")
        run("pay", copy, "--into", tmp_path / "out", "--why", "x")
        run("pay", "again", len(home.read(None).ledger.batches), "--into", tmp_path / "again")
        run("adjust", "M1", 500, "--why", "x")


def test_who_pays_has_to_be_written(copy: pathlib.Path, place: pathlib.Path, tmp_path: pathlib.Path) -> None:
    for words in ("name X", f"iban {IBAN}"):
        (place / "payments.txt").write_text(f"currency EUR\n{words}\n")
        run("members", "note", "--why", "x")
        assert "payments.txt does not say who pays and from where" in run("pay", copy, "--into", tmp_path / "out", "--why", "x", status=1)
    assert not (tmp_path / "out").exists() and home.read(None).ledger.lines == []


def test_check_tells_accounts_without_a_member_and_members_without_a_credit(copy: pathlib.Path, place: pathlib.Path) -> None:
    (place / "members.csv").write_text("\n".join([HEADER, ROWS[0], *(f"N{k},X,,,,AT,,otherwise,,,,," for k in range(25))]) + "\n")
    run("members", "note", "--why", "x")
    told = run("members", "check", copy, status=1, out=True)
    assert "I00000000295: credited 3,905,403 units, and no member has it: write it into members.csv" in told
    assert "note: members.csv, line 3: N0 has no credit" in told and "note: 5 more members without a credit" in told
    assert "UNCLAIMED" not in told and "I00000000199:" not in told and "M1 has no credit" not in told
    rest = ROWS[3] + "; PPB000000090T1; PPB000000090T2"
    (place / "members.csv").write_text("\n".join([HEADER, *ROWS[:3], rest, "N1,X,,,,AT,,otherwise,,,,,"]) + "\n")
    run("members", "note", "--why", "x")
    told = run("members", "check", copy)
    assert told.startswith("note: members.csv, line 6: N1 has no credit") and told.endswith("nothing is wrong\n")


def test_lines_that_the_journal_does_not_know_are_told_before_anything_is_given_out(
    copy: pathlib.Path, place: pathlib.Path, tmp_path: pathlib.Path, decided: pathlib.Path
) -> None:
    before = (decided / "journal.txt").read_bytes()
    run("pay", copy, "--into", tmp_path / "out", "--why", "x")
    older = (place / "ledger.txt").read_bytes()
    (decided / "journal.txt").write_bytes(before)
    run("pay", "again", 1, "--into", tmp_path / "again")
    lines = (decided / "journal.txt").read_text().splitlines()
    assert "pay: what was broken off stands in the ledger" in lines[-1] and lines[-1].endswith(sum_of(older))
    run("pay", "again", 1, "--into", tmp_path / "again")
    assert (decided / "journal.txt").read_text().splitlines() == lines


def test_places_that_others_may_look_into(tmp_path: pathlib.Path) -> None:
    for name, mode, is_open in (("a", 0o640, False), ("b", 0o600, False), ("c", 0o644, True), ("d", 0o660, True), ("e", 0o641, True)):
        (tmp_path / name).write_text("")
        (tmp_path / name).chmod(mode)
        assert private.open_to_others([tmp_path / name]) == [tmp_path / name] * is_open, name
    (tmp_path / "f").mkdir()
    for mode, is_open in ((0o2770, False), (0o750, False), (0o755, True), (0o2771, True)):
        (tmp_path / "f").chmod(mode)
        assert private.open_to_others([tmp_path / "f"]) == [tmp_path / "f"] * is_open, mode


def test_the_folder_is_of_the_group_that_is_named(decided: pathlib.Path) -> None:
    own = grp.getgrgid(os.getgid()).gr_name
    run("members", "begin", "--group", own)
    for it in (decided / "payments", *(decided / "payments").rglob("*")):
        assert it.stat().st_gid == os.getgid()
    assert (decided / "payments").stat().st_mode & 0o7777 == 0o2770 and (decided / "payments/.gitignore").read_text() == "*\n"


@pytest.mark.parametrize(
    "old, new",
    [
        ("<Amt Ccy='EUR'>4.71</Amt></TxDtls>", "<AmtDtls><TxAmt><Amt Ccy='EUR'>4.71</Amt></TxAmt></AmtDtls></TxDtls>"),
        ("<Amt Ccy='EUR'>4.71</Amt></TxDtls>", "<AmtDtls><InstdAmt><Amt Ccy='EUR'>4.71</Amt></InstdAmt></AmtDtls></TxDtls>"),
        ("<Amt Ccy='EUR'>4.71</Amt></TxDtls>", "</TxDtls>"),
        ("<BookgDt><Dt>2026-12-01</Dt></BookgDt>", "<BookgDt><DtTm>2026-12-01T10:00:00+01:00</DtTm></BookgDt>"),
        ("<BookgDt><Dt>2026-12-01</Dt></BookgDt>", "<ValDt><Dt>2026-12-01</Dt></ValDt>"),
        ("<Ntfctn>", "<Ntfctn><Ntry><Amt Ccy='EUR'>1.00</Amt></Ntry>"),
        ("<?xml version='1.0'?>", "<?xml version='1.0'?><!-- of <the> bank -->"),
    ],
)
def test_notifications_as_other_banks_write_them(old: str, new: str) -> None:
    text = camt([("900-PAY-12-M1", "4.71")], False)
    assert old in text
    assert bank_lists.read(text.replace(old, new).encode(), "x", Words(), True) == bank_lists.read(text.encode(), "x", Words(), True)


def test_a_table_with_semicolons_and_columns_in_another_order() -> None:
    text = "day;why;reference;amount;more\n2026-12-01;a \u00a0\tb;900-PAY-3-M1; 4,71 ;x\n"
    [found], others = bank_lists.read(text.encode(), "x", Words(), True)
    assert (found.batch, found.member, found.units, found.why, found.is_return, others) == (3, "M1", 471, "a b", True, 0)


@pytest.mark.parametrize(
    "units, amount", [(0, "0.00"), (-5, "-0.05"), (471, "4.71"), (123_456_789, "1,234,567.89"), (-123_456, "-1,234.56")]
)
def test_amounts_on_statements(units: int, amount: str) -> None:
    assert Account.amount(type("Told", (), {"words": Words()})(), units) == amount


def test_a_pool_of_an_older_book_that_corrected_another(program: str, tmp_path: pathlib.Path, decided: pathlib.Path) -> None:
    played = [Return("RADIO1", 1, [("ATABC2600001", 10, 10)]), Return("CORRECTED1", 1, [("ATABC2600001", 500, 1)])]
    pools = [Pool(1, "PR", 1_000, {HOUSE: 1}, [("RADIO1", 1)]), Pool(2, "PR", 500, {HOUSE: 1}, [("CORRECTED1", 1)])]
    desk = Desk(program, tmp_path, file(HOUSE, 1, work("W1", "ATABC2600001", holder(ANNA, 10_000))), *played, *pools)
    run("members", "begin")
    (decided / "pools.txt").write_text("2 2026-01-01/2026-03-31 Spring\n")
    (decided / "payments/members.csv").write_text(f"{HEADER}\nM1,Anna,Road 1,1010,Wien,AT,de,{IBAN},,,,,{ANNA}\n")
    run("members", "note", "--why", "x")
    run("pay", "book", desk.live, "--why", "x")
    printed = run("members", "statement", desk.live, "M1", "--to", "2099-01-01")
    assert "pool 1\n" in printed and "pool 2 (Spring, 2026-01-01 to 2026-03-31) corrects pool 1\n" in printed
    page = run("members", "statement", desk.live, "M1", "--to", "2099-01-01", "--format", "html")
    assert "Pool 2 (Spring, 2026-01-01 to 2026-03-31) corrects pool 1" in page and ">1,500<" in page and ">15.00<" in page
