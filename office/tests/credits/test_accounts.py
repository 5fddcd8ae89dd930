"""How credits came about, balances by pool and right, names of pools, and stored bytes."""

import collections
import csv
import io
import json
import pathlib
import random
import re
import shutil
import subprocess
from collections.abc import Iterator

import pytest
import quarter
import reckoning
from answers import balances_by_pool, check_balances, check_explained, check_stored
from command import run
from conftest import further
from office_value import Pool, Return, Step, return_body
from society_office.basics.errors import OfficeError
from society_office.book.page_sums import changed
from society_office.closings.dues import shared
from society_office.credits.explaining import parts
from society_office.credits.statements import folder_of
from society_office.formats.pool_names import names_in

POOL_NAMES = "\ufeff# Our pools\n1  2026-01-01/2026-03-31 First quarter\r\n3 2026-04-01/2026-06-30 Second quarter, radio  # and no TV\n\n"
OFFICE = quarter.OFFICE
CREDITS = [(pool, account) for pool in OFFICE.pools for account in sorted({it[1] for it in reckoning.credits(OFFICE, pool)})]


@pytest.mark.parametrize("seed", range(100))
def test_a_split(seed: int) -> None:
    rng = random.Random(seed)
    weights = [rng.choice([0, 1, 3, rng.randint(0, 10 ** rng.randint(1, 12))]) for _ in range(rng.randint(1, 9))] + [1]
    amount = rng.choice([0, 1, rng.randint(0, 10 ** rng.randint(1, 12))])
    units = reckoning.split(amount, weights)
    found = parts(list(zip(weights, units)))
    assert [it.units for it in found] == units and all(it.amount == amount and it.all_weights == sum(weights) for it in found)
    assert sorted(it.place for it in found) == list(range(1, len(weights) + 1))
    assert all(it.whole + it.last == it.units and it.left == sum(one.last for one in found) for it in found)
    assert all(it.last == (it.place <= it.left) for it in found)


@pytest.mark.parametrize("seed", range(100))
def test_what_accounts_would_get(seed: int) -> None:
    rng = random.Random(seed)
    weights = [(rng.choice(["A", "B", "C"]), rng.choice([0, 1, 3, rng.randint(0, 10_000)])) for _ in range(rng.randint(1, 6))] + [("C", 1)]
    amount, wanted = rng.choice([0, 1, 2, rng.randint(0, 10 ** rng.randint(1, 12))]), collections.Counter[str]()
    for (account, _), units in zip(weights, reckoning.split(amount, [it[1] for it in weights])):
        wanted[account] += units
    assert shared(amount, weights) == wanted


@pytest.mark.parametrize("pool, account", CREDITS)
def test_a_credit_is_explained(copy: pathlib.Path, pool: int, account: str) -> None:
    check_explained(copy, OFFICE, pool, account)


def test_an_explanation_in_words(copy: pathlib.Path, tmp_path: pathlib.Path, decided: pathlib.Path) -> None:
    (decided / "pools.txt").write_text(POOL_NAMES)
    said = run("explain", copy, "I00000000295", "--pool", 1, "--isrc", "at-abc-26-00001")
    last = "the last 5 units go to the numbers 1 to 5"
    assert [re.sub(" {2,}", "  ", it) for it in said.splitlines() if it and "─" not in it] == [
        "I00000000295 ANNA WRITER",
        "pool 1 (First quarter, 2026-01-01 to 2026-03-31) of the PR: 1,000,003 units over 8,642 points",
        f"ATABC2600001: FIRST SONG (LIVE), work A1 of {quarter.ALPHA} ALPHA MUSIC, file 2",
        "station  return  plays  seconds  points",
        "RADIO1  1  10  200  2,000",
        f"the recording, 2,000 points: 1,000,003 * 2,000 / 8,642 = 231,428, remainder 5,224 (number 6; {last}): 231,428",
        "ANNA WRITER, 100 % of the PR: 231,428 * 10,000 / 10,000 = 231,428",
        "231,428 units in all, which is what the statement has",
    ]
    said = run("explain", copy, "UNCLAIMED", "--pool", 1)
    assert said.startswith("UNCLAIMED\npool 1 ")
    # Of a recording with a last unit, of a share without it, and of one that several works name.
    for line in (
        f"the recording, 540 points: 1,000,003 * 540 / 8,642 = 62,485, remainder 6,250 (number 4; {last}): 62,486",
        "UNCLAIMED, 50 % of the PR: 104,143 * 5,000 / 10,000 = 52,071, remainder 5,000 (number 2; the last unit goes to number 1): 52,071",
        "ATABC2600010: 2 works of the cut name it: A3 of PB000000012, D1 of PB000000078",
        "UNCLAIMED: all of it",
    ):
        assert line in said.splitlines()
    share = "104,143 * 5,000 / 10,000 = 52,071, remainder 5,000 (number 1; the last unit goes to number 1): 52,072"
    assert f"ANNA WRITER, 50 % of the PR: {share}" in run("explain", copy, "I00000000295", "--pool", 1).splitlines()
    run("explain", copy, "I00000000295", "--pool", 1, "--output", tmp_path / "it.txt")
    assert "ANNA WRITER" in (tmp_path / "it.txt").read_text()


def test_the_last_unit_goes_to_the_first_recording(copy: pathlib.Path, tmp_path: pathlib.Path, program: str) -> None:
    steps: list[Step] = [
        Return("RADIO8", 1, [("ZZZZZ2600001", 1, 10), ("ATABC2600004", 1, 10)]),
        Pool(6, "MR", 1_001, quarter.FIRST_CUT, [("RADIO8", 1)]),
    ]
    then = further(program, copy, [OFFICE.request(it) for it in steps], tmp_path / "then.db")
    assert run("explain", then, "I00000000199", "--pool", 6).endswith("\n501 units in all, which is what the statement has\n")


def test_the_name_of_an_explained_pool_is_no_formula(copy: pathlib.Path, decided: pathlib.Path) -> None:
    for name, cell in (("First quarter", "First quarter"), ("=1+1", "'=1+1")):
        (decided / "pools.txt").write_text(f"1 2026-01-01/2026-03-31 {name}\n")
        rows = list(csv.DictReader(io.StringIO(run("explain", copy, "I00000000295", "--pool", 1, "--format", "csv"))))
        assert {(it["pool_name"], it["first_day"], it["last_day"]) for it in rows} == {(cell, "2026-01-01", "2026-03-31")}


@pytest.mark.parametrize(
    "words, said",
    [
        (["I00000000295", "--pool", 4], "pool 4 is not closed; closed are 1 to 3, 5"),
        (["I00000000999", "--pool", 1], "pool 1 credits nothing to I00000000999"),
        (["I00000000295", "--pool", 1, "--isrc", "FREPS2600002"], "credits nothing to I00000000295 for FREPS2600002"),
        (["PB000000012", "--pool", 1], "is a sender of files"),
        (["I295", "--pool", 1], "is no account"),
        (["I00000000295", "--pool", 1, "--isrc", ""], "'' is no ISRC"),
        (["I00000000295", "--pool", 1, "--isrc", "FR EPS 26 00002"], "'FR EPS 26 00002' is no ISRC: write ATABC2600001"),
        (["I00000000295", "--pool", 1, "--isrc", "\udcff"], "is no ISRC: write ATABC2600001"),
        (["I0000000295", "--pool", 1], "nothing has come of I0000000295 (an account of an IPI name number is I and eleven digits)"),
    ],
)
def test_what_can_not_be_explained(copy: pathlib.Path, words: list[object], said: str) -> None:
    assert said in run("explain", copy, *words, status=1)


def test_credits_that_are_not_what_the_order_says(copy: pathlib.Path) -> None:
    with changed(copy) as database:
        database.execute("UPDATE credits SET units = units + 1 WHERE pool = 1 AND account = 'I00000000295' AND units > 0")
        database.execute("UPDATE credits SET units = units - 1 WHERE pool = 1 AND account = 'UNCLAIMED' AND units > 0")
    said = run("explain", copy, "I00000000295", "--pool", 1, status=1)
    # (the program audits a copy before it says what an order credits; what stands in for an older one does not)
    assert "database damaged" in said or "otherwise than its order says" in said


@pytest.mark.parametrize(
    "line, said",
    [
        ("First quarter", "names no pool"),
        ("1 First quarter", "names no pool"),
        ("1 2026-01-01/2026-03-31", "names no pool"),
        ("01 2026-01-01/2026-03-31 It", "names no pool"),
        ("1\t2026-01-01/2026-03-31 It", "names no pool"),
        ("1 2026-1-1/2026-03-31 It", "names no pool"),
        ("1 2026-01-01/2026-02-30 It", "2026-02-30 is no day of the calendar"),
        ("1 2026-02-01/2026-01-31 It", "ends before it begins"),
        ("1 2026-01-01/2026-03-31 It\n1 2026-01-01/2026-03-31 It too", "line 3: pool 1 has a name already, It"),
    ],
)
def test_lists_of_pools_are_strict(tmp_path: pathlib.Path, line: str, said: str) -> None:
    (tmp_path / "pools.txt").write_text(f"# names\n{line}\n")
    with pytest.raises(OfficeError) as raised:
        names_in(tmp_path / "pools.txt")
    assert said in str(raised.value) and str(raised.value).startswith(f"{tmp_path}/pools.txt, line ")


def test_names_of_pools_stand_on_statements_and_pages(copy: pathlib.Path, tmp_path: pathlib.Path, decided: pathlib.Path) -> None:
    assert "period" not in run("statement", copy, "I00000000295")
    (decided / "pools.txt").write_text(POOL_NAMES)
    said = run("statement", copy, "I00000000295")
    assert re.search(r"3 +PR +Second quarter, radio +2026-04-01 to 2026-06-30 +[\d,]+\n", said)
    page = run("statement", copy, "I00000000295", "--format", "html")
    assert "<td>First quarter</td><td>2026-01-01 to 2026-03-31</td>" in page and "<td></td><td></td>" in page
    run("site", copy, "--into", tmp_path / "site")
    assert "Second quarter, radio, 2026-04-01 to 2026-06-30" in (tmp_path / "site/pools/3.html").read_text()
    for name in ("pools.html", "index.html"):
        assert "Second quarter, radio" in (tmp_path / "site" / name).read_text()
    run("statement", copy, "--all", "--into", tmp_path / "all")
    assert "<td>First quarter</td>" in (tmp_path / "all/I00000000295/index.html").read_text()
    assert ",First quarter,2026-01-01,2026-03-31\n" in (tmp_path / "all/I00000000295/statement.csv").read_text()


@pytest.mark.parametrize("form", ["csv", "json", "ledger"])
def test_balances_of_sums_that_differ_are_refused(copy: pathlib.Path, form: str) -> None:
    with changed(copy) as database:
        database.execute("UPDATE pools SET amount = amount + 1 WHERE pool = 1")
    said = run("balances", copy, "--format", form, status=1)
    cure = "ask `society audit` about it, and take another copy"
    assert said == f"society-office: {copy} is not sound: pool 1 has an amount of 1000004 and credits of 1000003; {cure}\n"


def postings(journal: str) -> Iterator[tuple[str, int]]:
    """The accounts and units of a journal; each of its transactions comes to 0."""
    for transaction in journal.split("\n\n")[1:]:
        lines = [it.partition(";")[0].split() for it in transaction.splitlines()[1:]]
        assert re.match(r"\d{4}-\d\d-\d\d \(\d+\) pool \d", transaction) and sum(int(it[1]) for it in lines) == 0
        yield from ((it[0], int(it[1])) for it in lines)


def test_balances_by_pool_and_right(copy: pathlib.Path, decided: pathlib.Path) -> None:
    (decided / "pools.txt").write_text(POOL_NAMES)
    rows = list(csv.DictReader(io.StringIO(run("balances", copy))))
    check_balances(copy, OFFICE)
    names = {(it["pool"], it["pool_name"], it["first_day"], it["last_day"]) for it in rows}
    assert ("1", "First quarter", "2026-01-01", "2026-03-31") in names and ("2", "", "", "") in names
    assert {it["name"] for it in rows if it["account"] == "PPB000000012B/7"} == {"BORIS COMPOSER"}
    found = json.loads(run("balances", copy, "--format", "json"))
    assert [{key: str(value) for key, value in it.items()} for it in found] == rows


def test_the_journal_has_the_balances(copy: pathlib.Path, tmp_path: pathlib.Path, decided: pathlib.Path) -> None:
    with changed(copy) as database:
        database.execute("UPDATE office SET name = 'OFFICE [=2026] date:x'")
    (decided / "pools.txt").write_text(POOL_NAMES)
    run("balances", copy, "--format", "ledger", "--output", tmp_path / "it.ledger")
    journal = (tmp_path / "it.ledger").read_text()
    assert "2026-03-31 (1) pool 1" in journal and "; BORIS COMPOSER" in journal
    found = collections.Counter[str]()
    for account, units in postings(journal):
        found[account] += units
    wanted = collections.Counter[str]()
    for (account, pool, right), units in balances_by_pool(OFFICE).items():
        wanted[f"Accounts:{folder_of(account)}:{right}"] += units
        wanted[f"Pools:{pool}:{right}"] -= units
    assert found == wanted
    # Where they are installed, both programs read it, and say so.
    for words in (["hledger", "balance", "--flat", "-E"], ["ledger", "balance", "--flat", "--empty"]):
        if shutil.which(words[0]):
            said = subprocess.run([*words, "-f", tmp_path / "it.ledger"], capture_output=True, text=True, check=True).stdout
            listed = (it.split() for it in said.partition("\n---")[0].splitlines())
            assert {it[1]: int(it[0]) for it in listed} == wanted, words


def test_stored_bytes_are_given_back(copy: pathlib.Path, tmp_path: pathlib.Path) -> None:
    check_stored(copy, OFFICE)
    run("returned", copy, "TV1/1", "--output", tmp_path / "it")
    assert (tmp_path / "it").read_bytes() == return_body(quarter.RETURNS["TV1", 1])
    for words, said in (
        (["returned", copy, "TV1/9"], "has no return TV1/9"),
        (["returned", copy, "TV1"], "names no return"),
        (["returned", copy, "TV1/1-2"], "names no return"),
        (["file", copy, quarter.ALPHA, "9"], f"has no file 9 of {quarter.ALPHA}"),
        (["file", copy, quarter.BETA, "1260001"], "is no number of a file"),
        (["file", copy, quarter.BETA, "x"], "is no number of a file"),
    ):
        assert said in run(*words, status=1)
