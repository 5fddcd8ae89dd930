"""Members: what is wrong with a table is told with its line and cure, what they told the office is for the treasurer's group alone."""

import datetime
import os
import pathlib
import stat

import pytest
from click.testing import CliRunner
from command import run
from society_office.basics.errors import OfficeError
from society_office.commands.cli import main
from society_office.payments import bank_accounts, home, members, private

HEADER = ",".join(members.COLUMNS)
IBAN, OTHER = "AT611904300234573201", "DE89370400440532013000"
ANNA = f"M1,Anna Writer,Road 1,1010,Wien,AT,de,{IBAN},BKAUATWW,1000,domestic,anna@example.org,I00000000295"
BORIS = "M2,Boris,,,,AT,,otherwise,,,,,PPB000000012B/7"
# The example of each country, as the registry of ISO 13616 has it.
IBANS = (
    "AD1200012030200359100100 AE070331234567890123456 AL47212110090000000235698741 AT611904300234573201 AZ21NABZ00000000137010001944 "
    "BA391290079401028494 BE68539007547034 BG80BNBG96611020345678 BH67BMAG00001299123456 BI4210000100010000332045181 "
    "BR1800360305000010009795493C1 BY13NBRB3600900000002Z00AB00 CH9300762011623852957 CR05015202001026284066 "
    "CY17002001280000001200527600 CZ6508000000192000145399 DE89370400440532013000 DJ2100010000000154000100186 DK5000400440116243 "
    "DO28BAGR00000001212453611324 EE382200221020145685 EG380019000500000000263180002 ES9121000418450200051332 FI2112345600000785 "
    "FK88SC123456789012 FO6264600001631634 FR1420041010050500013M02606 GB29NWBK60161331926819 GE29NB0000000101904917 "
    "GI75NWBK000000007099453 GL8964710001000206 GR1601101250000000012300695 GT82TRAJ01020000001210029690 HN88CABF00000000000250005469 "
    "HR1210010051863000160 HU42117730161111101800000000 IE29AIBK93115212345678 IL620108000000099999999 IQ98NBIQ850123456789012 "
    "IS140159260076545510730339 IT60X0542811101000000123456 JO94CBJO0010000000000131000302 KW81CBKU0000000000001234560101 "
    "KZ86125KZT5004100100 LB62099900000001001901229114 LC55HEMM000100010012001200023015 LI21088100002324013AA LT121000011101001000 "
    "LU280019400644750000 LV80BANK0000435195001 LY83002048000020100120361 MC5811222000010123456789030 MD24AG000225100013104168 "
    "ME25505000012345678951 MK07250120000058984 MN121234123456789123 MR1300020001010000123456753 MT84MALT011000012345MTLCAST001S "
    "MU17BOMM0101101030300200000MUR NI45BAPR00000013000003558124 NL91ABNA0417164300 NO9386011117947 OM810180000001299123456 "
    "PK36SCBL0000001123456702 PL61109010140000071219812874 PS92PALS000000000400123456702 PT50000201231234567890154 "
    "QA58DOHB00001234567890ABCDEFG RO49AAAA1B31007593840000 RS35260005601001611379 RU0204452560040702810412345678901 "
    "SA0380000000608010167519 SC18SSCB11010000000000001497USD SD8811123456789012 SE4550000000058398257466 SI56263300012039086 "
    "SK3112000000198742637541 SM86U0322509800000000270100 SO211000001001000100141 ST23000100010051845310146 "
    "SV62CENR00000000000000700025 TL380080012345678910157 TN5910006035183598478831 TR330006100519786457841326 "
    "UA213223130000026007233566001 VA59001123000012345678 VG96VPVG0000012345678901 XK051212012345678906 YE15CBYE0001018861234567891234"
).split()


@pytest.fixture
def place(decided: pathlib.Path) -> pathlib.Path:
    """The folder of payments, with two members."""
    run("members", "begin")
    (decided / "payments/members.csv").write_text(f"{HEADER}\n{ANNA}\n{BORIS}\n")
    run("members", "note", "--why", "begun")
    return decided / "payments"


# Neighbours that come to the same number whichever of them is first: 11 and 1, 22 and 2, 33 and 3.
ALIKE = [{"B", "1"}, {"M", "2"}, {"X", "3"}]


@pytest.mark.parametrize("iban", IBANS)
def test_ibans_of_the_registry_are_right_and_no_digit_of_them_can_be_wrong(iban: str) -> None:
    assert bank_accounts.iban_fault(iban) == ""
    for k in range(2, len(iban)):
        wrong = iban[:k] + ("1" if iban[k] != "1" else "2") + iban[k + 1 :]
        assert bank_accounts.iban_fault(wrong) != "", wrong
    for k in range(4, len(iban) - 1):
        if iban[k] != iban[k + 1] and {iban[k], iban[k + 1]} not in ALIKE:
            assert bank_accounts.iban_fault(iban[:k] + iban[k + 1] + iban[k] + iban[k + 2 :]) != ""


@pytest.mark.parametrize(
    "iban, said",
    [
        ("AT61190430023457320", "has 19 characters, and one of AT has 20"),
        ("XX611904300234573201", "is of XX, which has no IBANs"),
        ("at611904300234573201", "is no IBAN"),
        ("AT61 1904", "is no IBAN"),
        ("AT611904300234573202", "has check digits that don't fit"),
        ("AT६11904300234573201", "is no IBAN"),
    ],
)
def test_an_iban_that_is_wrong_is_told_without_its_digits(iban: str, said: str) -> None:
    assert bank_accounts.iban_fault(iban).startswith(said) and iban not in bank_accounts.iban_fault(iban)


def test_each_country_with_ibans_has_an_example() -> None:
    assert [it[:2] for it in IBANS] == sorted(bank_accounts.LENGTHS)


@pytest.mark.parametrize(
    "bic, is_right",
    [("BKAUATWW", True), ("BKAUATWWXXX", True), ("BKAUATW2B01", True), ("BKAUATWWXX", False), ("1KAUATWW", False), ("BKAUATWWXXXX", False)],
)
def test_a_bic_has_8_or_11_letters(bic: str, is_right: bool) -> None:
    assert (bank_accounts.bic_fault(bic) == "") == is_right


@pytest.mark.parametrize(
    "row, said",
    [
        (ANNA.replace("M1", "m1"), "member: a key is 1 to 16 capital letters and digits, as M0001"),
        (ANNA.replace("M1", "UNCLAIMED"), "member: a key is"),
        (ANNA.replace("Anna Writer", ""), "name: a member has one"),
        (ANNA.replace("Anna Writer", "Anna\u202eretirW"), "name: write it in one line"),
        (ANNA.replace("Anna Writer", "王小明"), "name: no letter of it is taken by banks"),
        (ANNA.replace("Wien", ""), "town: banks want the town"),
        (ANNA.replace("Wien", "王"), "town: banks want the town"),
        (ANNA.replace(IBAN, IBAN[:-1] + "2"), "iban: it has check digits that don't fit"),
        (ANNA.replace(IBAN, ""), "iban: write it, or `otherwise`"),
        (ANNA.replace("BKAUATWW", "BKAUATW"), "bic: it is no BIC"),
        (ANNA.replace(",AT,", ",AUT,"), "country: write its two letters"),
        (ANNA.replace(",de,", ",deutsch,"), "language: write its two letters"),
        (ANNA.replace("1000,", "10.00,"), "minimum: write a number of units"),
        (ANNA.replace("domestic", "Domestic tax"), "tax: a class is small letters"),
        (ANNA.replace("anna@", "anna at "), "email: it is no address of mail"),
        (ANNA.replace("I00000000295", "I0000000029"), "accounts: write I00000000199"),
        (ANNA.replace("I00000000295", "UNCLAIMED"), "accounts: write I00000000199"),
        (ANNA.replace("I00000000295", "I00000000295 from 2026-02-30"), "accounts: 2026-02-30 is no day"),
        (BORIS, "member: M2 stands at line 3 already"),
        (ANNA.replace("M1", "M3"), "accounts: I00000000295 is of M1 and M3: write from which day on it is whose"),
    ],
)
def test_a_row_that_is_wrong_is_told_with_its_line_and_without_what_it_says(place: pathlib.Path, row: str, said: str) -> None:
    file = place / "members.csv"
    replaced = [] if row.startswith(("M2", "M3")) else [row]
    file.write_text("\n".join([HEADER, *(replaced or [ANNA]), BORIS, *([] if replaced else [row])]) + "\n")
    line = 2 if replaced else 4
    told = run("members", "check", status=1, out=True)
    assert f"{file}, line {line}, {said}" in told
    assert IBAN not in told and "Anna" not in told and "anna@" not in told
    with pytest.raises(OfficeError, match=f"line {line}"):
        home.read(None).members  # noqa: B018


@pytest.mark.parametrize(
    "content, said",
    [
        (b"member,name\nM1,\xff\n", "line 2: a byte is no UTF-8"),
        (b"key,name\n", "line 1: look at member"),
        (b"member,name,phone\n", "line 1: look at phone"),
        (b"member,name,name\n", "line 1: the column name is there twice"),
        (b'member,name\nM1,"x\n', "it is no line of a CSV"),
        (b"member,name\nM1,x,y\n", "line 2: it has 3 cells, and the table 2 columns"),
    ],
)
def test_what_is_no_table_is_told(place: pathlib.Path, content: bytes, said: str) -> None:
    (place / "members.csv").write_bytes(content)
    assert said in run("members", "check", status=1)


def test_an_account_has_one_member_from_a_day_on() -> None:
    rows = [
        ANNA.replace("I00000000295", "I00000000295 from 2026-03-01; PPB000000012A\\;1"),
        BORIS.replace("PPB000000012B/7", "I00000000295; I00000000295 from 2026-05-01"),
    ]
    found, faults = members.judged("\n".join([HEADER, *rows]).encode(), "x")
    assert faults == []
    days = {"2020-01-01": "M2", "2026-02-28": "M2", "2026-03-01": "M1", "2026-04-30": "M1", "2026-05-01": "M2"}
    assert {day: found.of("I00000000295", datetime.date.fromisoformat(day)) for day in days} == days
    assert found.of("PPB000000012A;1", members.FIRST_DAY) == "M1" and found.of("I00000000199", members.FIRST_DAY) is None
    again, faults = members.judged(members.table_of(found.by_key.values()), "x")
    assert faults == [] and {it.key: it.cells for it in again.by_key.values()} == {it.key: it.cells for it in found.by_key.values()}


def test_small_and_capital_letters_are_those_of_each_column() -> None:
    row = ANNA.replace(",AT,de,", ",at,DE,").replace("domestic", "DOMESTIC")
    row = row.replace("BKAUATWW", "bkau atww").replace(IBAN, "at61 1904300234573201")
    found, faults = members.judged(f"{HEADER}\n{row}\n".encode(), "x")
    assert faults == [] and found.by_key["M1"].cells == ANNA.split(",") and found.taxes == {"M1": "domestic"}


def test_members_come_from_a_spreadsheet(place: pathlib.Path, tmp_path: pathlib.Path, decided: pathlib.Path) -> None:
    sheet = tmp_path / "sheet.csv"
    first = "Mitglied;Name;Ort;Land;IBAN;Konten;Telefon\r\n"
    text = "M1;Änna\u00a0 Writer;Graz;at;at61 1904 3002 3457 3201;I00000000295;7\r\nM9;Neu;Linz;AT;otherwise;;\r\n"
    sheet.write_bytes((first + text).encode("cp1252"))
    assert run("members", "import", sheet, "--why", "the new list") == "1 new member, 1 changed, 0 as before\n"
    assert run("members", "import", sheet, "--why", "the new list") == "0 new members, 0 changed, 2 as before\n"
    found = home.read(None).members.by_key
    assert sorted(found) == ["M1", "M2", "M9"] and found["M1"].name == "Änna Writer" and found["M1"].iban == IBAN
    assert (found["M1"].town, found["M1"].street, found["M1"].accounts) == ("Graz", "", (("I00000000295", members.FIRST_DAY),))
    line = "\tmembers import: 1 new member, 1 changed, 0 as before\tthe new list\tpayments/members.csv "
    assert line in (decided / "journal.txt").read_text()
    before = (place / "members.csv").read_bytes()
    sheet.write_text("member,name,country,iban,accounts\nM10,Zoe,AT,otherwise,\nM11,Zed,AT,otherwise,I00000000295\nM12,,AT,otherwise,\n")
    said = run("members", "import", sheet, "--why", "x", status=1)
    assert "nothing was taken over:\nsheet.csv, line 4, name: a member has one" in said
    sheet.write_text("member,name,country,iban,accounts\nM11,Zed,AT,otherwise,I00000000295\n")
    assert "I00000000295 is of M1 and M11" in run("members", "import", sheet, "--why", "x", status=1)
    assert (place / "members.csv").read_bytes() == before


def test_an_import_leaves_every_cell_of_other_members(place: pathlib.Path, tmp_path: pathlib.Path) -> None:
    new = f"M0,Neu,Road 9,4020,Linz,AT,en,{OTHER},BKAUATWWXXX,7,foreign,neu@example.org,I00000000301 from 2026-02-01"
    sheet = tmp_path / "sheet.csv"
    sheet.write_text(f"{HEADER}\n{new}\n")
    assert run("members", "import", sheet, "--why", "x") == "1 new member, 0 changed, 0 as before\n"
    assert (place / "members.csv").read_text() == f"{HEADER}\n{new}\n{ANNA}\n{BORIS}\n"


@pytest.mark.parametrize("umask", [0o000, 0o022, 0o077])
def test_files_are_for_the_group_alone_under_any_umask(
    decided: pathlib.Path, tmp_path: pathlib.Path, copy: pathlib.Path, umask: int
) -> None:
    before = os.umask(umask)
    try:
        run("members", "begin")
        place = decided / "payments"
        sheet = tmp_path / "sheet.csv"
        sheet.write_text(f"{HEADER}\n{ANNA}\n{BORIS}\n")
        run("members", "import", sheet, "--why", "begun")
        (place / "payments.txt").write_text(f"name EXAMPLE\niban {OTHER}\n")
        run("members", "note", "--why", "begun")
        run("pay", copy, "--into", tmp_path / "out", "--why", "a quarter")
        run("ledger", "--format", "csv", "--output", tmp_path / "out/ledger.csv")
        run("members", "statement", copy, "M1", "--format", "csv", "--output", tmp_path / "out/m1.csv")
        run("members", "statement", copy, "--all", "--into", tmp_path / "all")
    finally:
        os.umask(before)
    made = [it for folder in (place, tmp_path / "out", tmp_path / "all") for it in (folder, *folder.rglob("*"))]
    assert len(made) > 15
    modes = {it: stat.S_IMODE(it.stat().st_mode) for it in made}
    assert {it: mode for it, mode in modes.items() if mode & 0o7 or (it.is_file() and mode != 0o640)} == {}
    assert run("members", "check").endswith("nothing is wrong\n")
    (place / "members.csv").chmod(0o644)
    assert "members.csv: others than the treasurer's group may look into it" in run("members", "check", status=1, out=True)


def test_a_file_that_ended_early_leaves_nothing(tmp_path: pathlib.Path, monkeypatch: pytest.MonkeyPatch) -> None:
    file = tmp_path / "x"
    private.write(file, b"old")
    monkeypatch.setattr("society_office.payments.private.os.fsync", lambda _: (_ for _ in ()).throw(OSError(28, "No space left on device")))
    with pytest.raises(OfficeError, match="x could not be written: No space left on device"):
        private.write(file, b"new")
    assert file.read_bytes() == b"old" and list(tmp_path.iterdir()) == [file]


def test_what_was_changed_by_hand_is_noted_before_anything_is_paid(place: pathlib.Path, copy: pathlib.Path, tmp_path: pathlib.Path) -> None:
    (place / "members.csv").write_text(f"{HEADER}\n{ANNA.replace(IBAN, OTHER)}\n{BORIS}\n")
    assert "members.csv: changed since its last line in the journal" in run("members", "check", status=1, out=True)
    assert "members.csv: changed since" in run("pay", copy, "--into", tmp_path / "out", "--why", "x", status=1)
    assert "members.csv: changed since" in run("pay", "book", copy, "--why", "x", status=1)
    run("members", "note", "--why", "a letter of hers")
    assert "nothing was changed" in run("members", "note", "--why", "x", status=1)
    (place / "members.csv").write_text("member,name\nm,x\n")
    assert "member: a key is" in run("members", "note", "--why", "x", status=1)


def test_a_folder_without_payments_says_what_to_do(decided: pathlib.Path) -> None:
    assert "has no payments: `society-office members begin` makes it" in run("ledger", status=1)
    run("members", "begin")
    assert "has all that it needs" in run("members", "begin")
    (decided / "payments/ledger.txt").unlink()
    assert "ledger.txt is not there: put it back" in run("ledger", status=1)
    assert run("members", "begin").startswith("begun in ")


def test_a_list_that_the_journal_tells_of_is_not_begun_anew(place: pathlib.Path) -> None:
    (place / "members.csv").unlink()
    assert "members.csv is not there, and the journal tells of it" in run("members", "begin", status=1)
    assert not (place / "members.csv").exists()


def test_a_group_that_is_not_there_is_told(decided: pathlib.Path) -> None:
    assert "this machine has no group of-nobody" in run("members", "begin", "--group", "of-nobody", status=1)


def test_the_words_of_the_commands_are_listed() -> None:
    said = CliRunner().invoke(main, ["--help"]).output
    assert all(f"\n  {it} " in said for it in ("members", "pay", "adjust", "ledger"))
