"""Statements and parties, beside a reckoning of their own."""

import collections
import csv
import io
import pathlib
import re

import pytest
import quarter
import reckoning
from click.testing import CliRunner
from command import run
from conftest import made
from office_value import File, Office
from society_office.basics.plain_text import plain
from society_office.book.copy import open_copy
from society_office.book.page_sums import changed
from society_office.closings import order_output
from society_office.commands.cli import main
from society_office.credits import lines, statement_output
from society_office.credits.statements import Statements, folder_of
from society_office.formats.pool_names import names_in


def test_the_office_credits_what_the_rules_say(copy: pathlib.Path) -> None:
    with open_copy(copy) as opened:
        for pool in quarter.OFFICE.pools:
            found = list(opened.rows("SELECT isrc, account, units FROM credits WHERE pool = ? ORDER BY line", pool))
            assert found == reckoning.credits(quarter.OFFICE, pool), pool
        assert dict(opened.rows("SELECT account, units FROM balances")) == reckoning.balances(quarter.OFFICE)


@pytest.mark.parametrize("account", sorted(reckoning.balances(quarter.OFFICE)))
def test_a_statement_has_every_credit(copy: pathlib.Path, account: str) -> None:
    with open_copy(copy) as opened:
        found = Statements(opened).of(account)
    lines = [(it.pool, it.right, it.isrc, it.title, it.work, it.publisher, it.units) for it in found.credits]
    assert lines == reckoning.lines_of(quarter.OFFICE, account)
    assert found.agrees and found.total == found.balance == reckoning.balances(quarter.OFFICE)[account]
    units = [it.units for it in found.by_work]
    assert units == sorted(units, reverse=True)
    assert sum(it.units for it in found.by_pool) == sum(it.units for it in found.by_work) == found.total


@pytest.mark.parametrize("sender", sorted(quarter.NAMES))
def test_a_publishers_statement_has_what_its_works_earned(copy: pathlib.Path, sender: str) -> None:
    with open_copy(copy) as opened:
        found = Statements(opened).of(sender)
    wanted = sorted(
        (*it[:6], account, it[6])
        for account in reckoning.balances(quarter.OFFICE)
        for it in reckoning.lines_of(quarter.OFFICE, account)
        if it[5] == sender
    )
    assert sorted(found.credits) == wanted
    assert found.name == quarter.NAMES[sender]
    if wanted:
        assert run("statement", copy, sender).endswith(f"\n{sum(it[-1] for it in wanted):,} units in all, over all accounts\n")


# Names of pools that a CSV has to quote, or to keep from being formulas.
NAMED = '1 2026-01-01/2026-03-31 =A "first", of all\n3 2026-04-01/2026-06-30 Second;-B\n'


@pytest.fixture
def every_statement_is_large(monkeypatch: pytest.MonkeyPatch) -> None:
    """The limits of large statements, so low that those of the quarter are large."""
    monkeypatch.setattr(lines, "MOST_HELD", 1)
    monkeypatch.setattr(statement_output, "MOST_SUMS", 1)


# The pool, its right, a recording, a title, a work and whose it is; the account; the units.
Line = tuple[int, str, str, str, str, str, str, int]


def earned_by(sender: str) -> list[Line]:
    """What a sender's works earned, with the account of each line."""
    return [
        (*it[:6], account, it[6])
        for account in reckoning.balances(quarter.OFFICE)
        for it in reckoning.lines_of(quarter.OFFICE, account)
        if it[5] == sender
    ]


def lines_by(key: str) -> list[Line]:
    """The lines of an account or of a sender, with the account of each."""
    return list(earned_by(key)) if key in quarter.NAMES else [(*it[:6], key, it[6]) for it in reckoning.lines_of(quarter.OFFICE, key)]


@pytest.mark.usefixtures("every_statement_is_large")
@pytest.mark.parametrize("key", sorted([*reckoning.balances(quarter.OFFICE), *quarter.NAMES]))
def test_a_large_statement_has_every_sum(copy: pathlib.Path, key: str) -> None:
    wanted = lines_by(key)
    by_pool, by_work, by_account = (collections.Counter[tuple[object, ...]]() for _ in range(3))
    for pool, right, _, title, work, sender, account, units in wanted:
        by_pool[str(pool), right] += units
        by_work[title, work, sender] += units
        by_account[account,] += units
    with open_copy(copy) as opened:
        found = Statements(opened).of(key)
    assert found.sums.count == len(wanted) and len(found.credits) == min(1, len(wanted)) and found.agrees
    assert {it.words: it.units for it in found.by_pool} == by_pool
    assert {it.words: it.units for it in found.by_work} == by_work
    assert {it.words: it.units for it in found.by_account} == (by_account if key in quarter.NAMES else {})
    if len(wanted) > 1:
        assert f"\n{len(wanted)} credits, too many for a table: `--format csv` has every one of them\n" in run("statement", copy, key)
        greatest = f"\nBy work, the greatest 1 of {len(by_work)}\n" if len(by_work) > 1 else "\nBy work\n"
        assert greatest in re.sub(" +\n", "\n", run("statement", copy, key))
        assert f">{len(wanted) - 1} more lines: society-office statement COPY {key}" in run("statement", copy, key, "--format", "html")


@pytest.mark.parametrize("key", sorted([*reckoning.balances(quarter.OFFICE), *quarter.NAMES]))
def test_a_csv_is_what_a_writer_of_csv_makes(copy: pathlib.Path, key: str, request: pytest.FixtureRequest, decided: pathlib.Path) -> None:
    (decided / "pools.txt").write_text(NAMED)
    with open_copy(copy) as opened:
        credits = Statements(opened).of(key).credits
    wanted, names = io.StringIO(), names_in(decided / "pools.txt")
    writer = csv.writer(wanted, lineterminator="\n")
    writer.writerow(lines.COLUMNS)
    for it in credits:
        days = [str(names[it.pool].first), str(names[it.pool].last)] if it.pool in names else ["", ""]
        own = [plain(cell) for cell in (it.title, it.work, it.publisher, it.account)]
        writer.writerow([*it[:3], *own, it.units, plain(names[it.pool].name) if it.pool in names else "", *days])
    assert run("statement", copy, key, "--format", "csv") == wanted.getvalue()
    request.getfixturevalue("every_statement_is_large")
    assert run("statement", copy, key, "--format", "csv") == wanted.getvalue()


@pytest.mark.parametrize(
    "text, cell",
    [
        ("A=B", "A=B"),
        ("=A", "'=A"),
        ("-", "'-"),
        (" +A", " '+A"),
        ("A;=B", "A;'=B"),
        ("=A; @B;;-C", "'=A; '@B;;'-C"),
        ("\t=A", "'\t=A"),
        ('A;"=B', "A;\"'=B"),
        ('A; ""@B', 'A; ""\'@B'),
    ],
)
def test_no_cell_is_a_formula_also_where_cells_end_with_semicolons(text: str, cell: str) -> None:
    assert plain(text) == cell
    out = io.StringIO()
    csv.writer(out, lineterminator="\n").writerow(["1", plain(text)])
    assert not [it for it in next(csv.reader([out.getvalue()], delimiter=";")) if it.lstrip(" ").startswith(("=", "+", "@", "-"))]


DAYS = {"1": ('\'=A "first", of all', "2026-01-01", "2026-03-31"), "3": ("Second;'-B", "2026-04-01", "2026-06-30")}


@pytest.mark.parametrize("key", sorted([*reckoning.balances(quarter.OFFICE), *quarter.NAMES]))
def test_a_csv_names_the_pools(copy: pathlib.Path, key: str, decided: pathlib.Path) -> None:
    (decided / "pools.txt").write_text(NAMED)
    text = run("statement", copy, key, "--format", "csv")
    assert text.startswith("pool,right,isrc,title,work,publisher,account,units,pool_name,first_day,last_day\n")
    rows = list(csv.DictReader(io.StringIO(text)))
    assert sorted(it["pool"] for it in rows) == sorted(str(it[0]) for it in lines_by(key))
    assert all((it["pool_name"], it["first_day"], it["last_day"]) == DAYS.get(it["pool"], ("", "", "")) for it in rows)
    (decided / "pools.txt").write_text("")
    without = list(csv.reader(io.StringIO(run("statement", copy, key, "--format", "csv"))))
    assert [it[:8] for it in without] == [it[:8] for it in csv.reader(io.StringIO(text))]
    assert all(it[8:] == [""] * 3 for it in without[1:])


def test_unclaimed_money_of_very_many_recordings(copy: pathlib.Path, monkeypatch: pytest.MonkeyPatch) -> None:
    monkeypatch.setattr(order_output, "MOST_ROWS", 1)
    said = run("unclaimed", copy)
    assert "the greatest 1 of 2 stand here: `--format json` has every one of them" in said


def test_since_a_pool(copy: pathlib.Path) -> None:
    with open_copy(copy) as opened:
        found = Statements(opened).of("I00000000295", 3)
    assert [it.pool for it in found.credits] == [it[0] for it in reckoning.lines_of(quarter.OFFICE, "I00000000295") if it[0] >= 3]
    assert found.agrees and found.total < (found.balance or 0)


@pytest.mark.usefixtures("every_statement_is_large")
@pytest.mark.parametrize("key", ["I00000000295", quarter.ALPHA, "UNCLAIMED"])
@pytest.mark.parametrize("since, until", [(1, 9), (2, 9), (3, 9), (4, 9), (1, 1), (1, 2), (2, 3)])
def test_a_large_statement_of_some_pools(copy: pathlib.Path, key: str, since: int, until: int) -> None:
    check_span(copy, key, since, until)


@pytest.mark.parametrize("key", ["I00000000295", quarter.ALPHA, "UNCLAIMED"])
@pytest.mark.parametrize("since, until", [(1, 1), (1, 2), (2, 3), (3, 3)])
def test_a_statement_of_some_pools(copy: pathlib.Path, key: str, since: int, until: int) -> None:
    check_span(copy, key, since, until)


def check_span(copy: pathlib.Path, key: str, since: int, until: int) -> None:
    """Compares the statement of some pools with what was earned by them."""
    listed = lines_by(key)
    wanted = sorted(it[0] for it in listed if since <= it[0] <= until)
    words = ["--since", since, "--until", until, "--format", "csv"]
    rows = list(csv.DictReader(io.StringIO(run("statement", copy, key, *words))))
    assert sorted(int(it["pool"]) for it in rows) == wanted
    with open_copy(copy) as opened:
        found = Statements(opened).of(key, since, until)
    by_work = collections.Counter[tuple[str, str, str]]()
    for it in listed:
        by_work[it[3:6]] += it[-1] if since <= it[0] <= until else 0
    assert found.sums.count == len(wanted) and +collections.Counter({it.words: it.units for it in found.by_work}) == +by_work
    assert found.total == sum(by_work.values())


@pytest.mark.parametrize(
    "words, said",
    [
        (["--until", 2], "the pools up to 2"),
        (["--since", 2, "--until", 3], "the pools 2 to 3"),
        (["--since", 3, "--until", 3], "pool 3"),
        (["--since", 3], "the pools from 3 on"),
    ],
)
def test_a_statement_tells_its_pools(copy: pathlib.Path, tmp_path: pathlib.Path, words: list[object], said: str) -> None:
    balance = reckoning.balances(quarter.OFFICE)["I00000000295"]
    assert run("statement", copy, "I00000000295", *words).endswith(f" by {said}; the balance over all pools is {balance:,}\n")
    assert f"<p>EXAMPLE SOCIETY, {said}; out of the copy" in run("statement", copy, "I00000000295", *words, "--format", "html")
    run("statement", copy, "--all", "--into", tmp_path / "all", *words)
    page = (tmp_path / "all/I00000000295/index.html").read_text()
    assert f"EXAMPLE SOCIETY, {said}; out of" in page
    with (tmp_path / "all/I00000000295/statement.csv").open() as file:
        assert file.read() == run("statement", copy, "I00000000295", *words, "--format", "csv")


def test_pools_that_fall(copy: pathlib.Path) -> None:
    assert "--until 1 is below --since 2" in run("statement", copy, "I00000000295", "--since", 2, "--until", 1, status=2)


def test_pools_that_credited_nothing_to_an_account(copy: pathlib.Path) -> None:
    balance = reckoning.balances(quarter.OFFICE)["I00000000295"]
    assert f"no credit by the pools from 9 on; the balance over all pools is {balance:,}" in run(
        "statement", copy, "I00000000295", "--since", 9
    )
    assert "None of these pools has credited this account." in run("statement", copy, "I00000000295", "--since", 9, "--format", "html")
    assert run("statement", copy, quarter.ALPHA, "--since", 9).endswith("no credit by the pools from 9 on\n")


def test_a_page_tells_how_many_accounts_it_leaves_out(copy: pathlib.Path, monkeypatch: pytest.MonkeyPatch) -> None:
    monkeypatch.setattr(statement_output, "MOST_LINES", 2)
    accounts = {it[6] for it in earned_by(quarter.ALPHA)}
    assert len(accounts) > 2
    assert f">{len(accounts) - 2} more accounts with less." in run("statement", copy, quarter.ALPHA, "--format", "html")


def test_a_page_counts_works(copy: pathlib.Path) -> None:
    for key in ("UNCLAIMED", quarter.BETA, "I00000000295"):
        listed = lines_by(key)
        works = {it[4:6] for it in listed if it[5]}
        assert f"<dt>works</dt><dd>{len(works)}</dd>" in run("statement", copy, key, "--format", "html")


def test_a_balance_that_differs_is_said(copy: pathlib.Path) -> None:
    with changed(copy) as database:
        database.execute("UPDATE balances SET units = units + 1 WHERE account = 'I00000000295'")
    assert "has credits of" in run("statement", copy, "I00000000295", status=1)


def test_the_forms_of_a_statement(copy: pathlib.Path, tmp_path: pathlib.Path) -> None:
    rows = list(csv.DictReader(io.StringIO(run("statement", copy, "PPB000000012B/7", "--format", "csv"))))
    assert [it["title"] for it in rows] == ["'=SECOND <SONG>"]
    page = run("statement", copy, "PPB000000012B/7", "--format", "html")
    assert "=SECOND &lt;SONG&gt;" in page and "BORIS COMPOSER" in page
    run("statement", copy, "PPB000000012B/7", "--format", "pdf", "--output", tmp_path / "it.pdf")
    assert (tmp_path / "it.pdf").read_bytes().startswith(b"%PDF")
    assert "which is the balance" in run("statement", copy, "PPB000000012B/7")


def test_all_statements(copy: pathlib.Path, tmp_path: pathlib.Path) -> None:
    run("statement", copy, "--all", "--into", tmp_path / "all")
    balances = {key: units for key, units in reckoning.balances(quarter.OFFICE).items() if key != reckoning.NOBODY}
    keys = {*balances, *quarter.NAMES}
    assert {it.name for it in (tmp_path / "all").iterdir()} == {folder_of(it) for it in keys}
    for account, balance in balances.items():
        rows = csv.DictReader(io.StringIO((tmp_path / "all" / folder_of(account) / "statement.csv").read_text()))
        assert sum(int(it["units"]) for it in rows) == balance


def test_all_statements_of_publishers(copy: pathlib.Path, tmp_path: pathlib.Path) -> None:
    run("statement", copy, "--all", "--into", tmp_path / "all")
    for sender in quarter.NAMES:
        rows = csv.DictReader(io.StringIO((tmp_path / "all" / sender / "statement.csv").read_text()))
        assert sorted((it["isrc"], it["account"], int(it["units"])) for it in rows) == sorted((it[2], *it[6:]) for it in earned_by(sender))


def test_a_statement_is_not_left_beside_a_newer_one(copy: pathlib.Path, tmp_path: pathlib.Path) -> None:
    old = tmp_path / "all/I00000000295/statement.pdf"
    run("statement", copy, "--all", "--into", tmp_path / "all", "--pdf")
    assert old.read_bytes().startswith(b"%PDF")
    run("statement", copy, "--all", "--into", tmp_path / "all")
    assert sorted(it.name for it in old.parent.iterdir()) == ["index.html", "statement.csv"]


def test_statements_since_a_pool_are_compared_with_nothing(copy: pathlib.Path, tmp_path: pathlib.Path) -> None:
    folder = tmp_path / "all"
    run("statement", copy, "--all", "--into", folder)
    words = ["statement", str(copy), "--all", "--into", str(folder), "--since", "5"]
    said = CliRunner(mix_stderr=False).invoke(main, words, catch_exceptions=False)
    # (pool 5 pays nobody, so the senders alone have statements)
    assert said.stdout == f"{len(quarter.NAMES)} statements in {folder}, by the pools from 5 on\n"
    left = sorted(folder_of(it) for it in reckoning.balances(quarter.OFFICE) if it != reckoning.NOBODY)
    assert f"{len(left)} statements of an earlier run left in {folder}: {', '.join(left[:5])} and {len(left) - 5} more\n" == said.stderr


def test_all_statements_of_balances_that_differ(copy: pathlib.Path, tmp_path: pathlib.Path) -> None:
    with changed(copy) as database:
        database.execute("UPDATE balances SET units = units + 1 WHERE account = 'I00000000295'")
        database.execute("UPDATE balances SET units = units - 1 WHERE account = 'I00000000199'")
    words, balances = ["statement", copy, "--all", "--into", tmp_path / "all"], reckoning.balances(quarter.OFFICE)
    assert sorted(run(*words, status=1).splitlines()) == [
        f"{it}: {balances[it]:,} units in all, BUT the balance is {balances[it] + more:,}: they differ"
        for it, more in (("I00000000199", -1), ("I00000000295", 1))
    ]
    count = len({*balances, *quarter.NAMES} - {"UNCLAIMED"})
    assert run(*words, status=1, out=True).endswith(f"{count} statements in {tmp_path / 'all'}, 2 of them differ from the balance\n")
    assert "they differ" in (tmp_path / "all/I00000000295/index.html").read_text()


def test_a_key_that_is_none(copy: pathlib.Path) -> None:
    assert "is no account" in run("statement", copy, "I199", status=1)
    folder = copy.parent / "empty"
    assert "is no account" in run("statement", copy, "I199", "--format", "csv", "--output", folder / "it.csv", status=1)
    assert list(folder.iterdir()) == []
    for key in ("I0000000295", "00000000295"):
        said = run("statement", copy, key, "--format", "csv", "--output", folder / "it.csv", status=1)
        assert f"nothing has come of {key} (an account of an IPI name number is I and eleven digits)" in said
    assert "nothing has come of PB000000099; the copy has PB000000012" in run("statement", copy, "PB000000099", status=1)
    assert list(folder.iterdir()) == []


UNPLAYED = "no credit: no pool has credited this account"


def test_an_account_without_a_credit(copy: pathlib.Path, program: str, tmp_path: pathlib.Path) -> None:
    """Of one that works name the name is told, and of one that none names that it may be wrong."""
    unknown = f"{UNPLAYED}, and no work names it: look whether it is right"
    assert run("statement", copy, "I00000009999") == f"I00000009999\n{unknown}\n"
    said = run("statement", copy, "I00000009999", "--since", 2)
    assert said.endswith("the balance over all pools is 0, and no work names it: look whether it is right\n")
    assert "No pool has credited this account, and no work names it." in run("statement", copy, "I00000009999", "--format", "html")
    unplayed = made(program, Office(quarter.NAMES, [File(*quarter.FILES[0])]), tmp_path)
    assert run("statement", unplayed, "I00000000295") == f"I00000000295 ANNA WRITER\n{UNPLAYED}\n"
    for key, said in (("I00000009999", unknown), ("I00000000295", UNPLAYED), ("UNCLAIMED", UNPLAYED)):
        done = CliRunner(mix_stderr=False).invoke(main, ["statement", str(unplayed), key, "--format", "csv"], catch_exceptions=False)
        assert done.exit_code == 0 and done.stdout.count("\n") == 1 and done.stderr == f"{key}: {said}\n"
