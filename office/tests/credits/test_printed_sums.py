"""Sums, parts and orders of lines as they are printed, in tables and pages, beside a reckoning of their own."""

import decimal
import html
import json
import pathlib
import re
from collections import Counter

import pytest
import quarter
import reckoning
from answers import rows_of
from command import run
from conftest import further
from office_value import End, Office, PLAIN, Pool, Return, Step, order_body
from society_office.book.page_sums import changed
from society_office.closings import dues_output, order_output, rehearsal_output
from society_office.credits import statement_output
from society_office.credits.unclaimed import Cause, Item
from society_office.printed import site
from test_statements import lines_by

BALANCES = reckoning.balances(quarter.OFFICE)
ACCOUNT = "I00000000295"


def part(units: int, whole: int) -> str:
    """A part in percent, half a tenth rounded up."""
    tenth = decimal.Decimal(units * 100) / whole
    return f"{tenth.quantize(decimal.Decimal('0.1'), decimal.ROUND_HALF_UP)} %"


def rows(page: str, heading: str) -> list[list[str]]:
    """The cells of the rows of the table of a page under a heading, which may also stand in its head."""
    table = page.partition(heading)[2].partition("<tbody>")[2].partition("</table>")[0]
    listed = re.findall(r"<tr>(.*?)</tr>", table, re.DOTALL)
    return [[html.unescape(re.sub("<[^>]*>", "", it)) for it in re.findall(r"<t[hd]\b.*?>(.*?)</t[hd]>", row, re.DOTALL)] for row in listed]


def figures(page: str) -> dict[str, str]:
    """The figures at the head of a page."""
    return dict(re.findall(r"<dt>(.*?)</dt><dd>(.*?)</dd>", page))


def printed(text: str, heading: str) -> list[list[str]]:
    """The cells of the rows of a printed table under a heading; cells that are empty are left out."""
    lines = text.partition(f"\n{heading}")[2].splitlines()
    first = next(k for k, it in enumerate(lines) if it.startswith("──")) + 1
    end = next((k for k, it in enumerate(lines) if k > first and not it.strip()), len(lines))
    return [re.split(r" {2,}", it.strip()) for it in lines[first:end]]


def sums(key: str, *places: int) -> dict[tuple[object, ...], int]:
    """What the lines of a key come to, by the cells at these places: pool, right, isrc, title, work, sender, account of a publisher's."""
    found = Counter[tuple[object, ...]]()
    for it in lines_by(key):
        found[tuple(it[k] for k in places)] += int(str(it[-1]))
    return dict(found)


@pytest.mark.parametrize("key", sorted([*BALANCES, *quarter.NAMES]))
def test_the_page_of_a_statement(copy: pathlib.Path, key: str) -> None:
    page, total = run("statement", copy, key, "--format", "html"), sum(sums(key).values())
    head = figures(page)
    assert head["units"] == f"{total:,}" and head.get("balance over all pools") == (f"{total:,}" if key in BALANCES else None)
    if not sums(key):
        return
    pools = rows(page, "<h2>By pool")
    assert [(int(it[0]), it[1], it[2]) for it in pools[:-1]] == [(*k, f"{units:,}") for k, units in sorted(sums(key, 0, 1).items())]
    assert pools[-1] == ["All", f"{total:,}"]
    works = {(it[0] if it[1] else "", it[1]): it[3] for it in rows(page, "<h2>By work")}
    assert works == {k[:2]: f"{units:,}" for k, units in sums(key, 3, 4, 5).items()}
    every = sorted([str(it[0]), it[1], it[2], f"{it[-1]:,}"] for it in lines_by(key))
    for listed in (rows(page, "<h2>Every credit"), printed(run("statement", copy, key), "pool")):
        assert sorted([*it[:3], it[-1]] for it in listed) == every
    if key in quarter.NAMES:
        by_account = {k[0]: f"{units:,}" for k, units in sums(key, 6).items()}
        assert {it[0]: it[2] for it in rows(page, "<h2>By account")} == by_account
        assert {it[0]: it[-1] for it in printed(run("statement", copy, key), "By account")} == by_account


def test_both_sums_are_told_where_they_differ(copy: pathlib.Path) -> None:
    with changed(copy) as database:
        database.execute("UPDATE balances SET units = units + 1 WHERE account = ?", (ACCOUNT,))
    total = BALANCES[ACCOUNT]
    told = run("statement", copy, ACCOUNT, status=1, out=True).splitlines()
    assert told[-1] == f"{total:,} units in all, BUT the balance is {total + 1:,}: they differ"
    page = run("statement", copy, ACCOUNT, "--format", "html", status=1, out=True)
    assert figures(page)["units"] == f"{total:,}" and figures(page)["balance over all pools"] == f"{total + 1:,}"
    assert f"The credits come to {total:,} units and the balance is {total + 1:,}" in page


def test_the_pages_of_pools(copy: pathlib.Path, tmp_path: pathlib.Path) -> None:
    run("site", copy, "--into", tmp_path / "site")
    listed = rows((tmp_path / "site/pools.html").read_text(), "<h2>Pools")
    assert [int(it[0]) for it in listed] == sorted(quarter.OFFICE.pools, reverse=True)
    nobodys = {pool: reckoning.unclaimed(quarter.OFFICE, pool) for pool in quarter.OFFICE.pools}
    for it in listed:
        pool = quarter.OFFICE.pools[int(it[0])]
        causes = Counter[str]()
        for cause, units in nobodys[pool.pool].values():
            causes[cause] += units
        paid = pool.amount - sum(causes.values())
        wanted = (pool.amount, paid, 0, causes["share"], causes["conflict"], causes["none"] + causes["plays"])
        assert it[2:9] == [pool.right, *(f"{units:,}" for units in wanted)]
        page = (tmp_path / f"site/pools/{pool.pool}.html").read_text()
        credited = Counter[str]()
        for _, account, units in reckoning.credits(quarter.OFFICE, pool.pool):
            credited[account] += units
        greatest = sorted((-units, account) for account, units in credited.items() if account != reckoning.NOBODY)
        shown = [[it[0], it[2], it[3]] for it in rows(page, "<h2>Greatest credits")]
        assert shown == [[account, f"{-units:,}", part(-units, pool.amount)] for units, account in greatest]
        largest = [int(it[1].replace(",", "")) for it in rows(page, "<h3>By recording")]
        assert largest == sorted((units for _, units in nobodys[pool.pool].values()), reverse=True)
    amounts, unclaimed = sum(it.amount for it in quarter.POOLS), sum(units for it in nobodys.values() for _, units in it.values())
    head = figures((tmp_path / "site/index.html").read_text())
    assert (head["units in pools"], head["unclaimed"]) == (f"{amounts:,}", part(unclaimed, amounts))


def test_the_pages_of_balances_and_stations(
    copy: pathlib.Path, tmp_path: pathlib.Path, monkeypatch: pytest.MonkeyPatch, decided: pathlib.Path
) -> None:
    monkeypatch.setattr(site, "PER_PAGE", 3)
    (decided / "void.txt").write_text(quarter.VOID)
    run("site", copy, "--into", tmp_path / "site")
    total, pages = sum(BALANCES.values()), range(-(-len(BALANCES) // 3))
    listed = [rows((tmp_path / f"site/balances{f'-{k + 1}' if k else ''}.html").read_text(), "<h2>") for k in pages]
    assert [len(it) for it in listed[:-1]] == [3] * (len(pages) - 1) and len(pages) > 2
    wanted = sorted((-units, account) for account, units in BALANCES.items())
    found = [[it[0], it[2], it[3]] for page in listed for it in page]
    assert found == [[account, f"{-units:,}", part(-units, total)] for units, account in wanted]
    points = Counter[str]()
    for (reporter, _), plays in quarter.OFFICE.returns.items():
        points[reporter] += sum(count * seconds for _, count, seconds in plays)
    stations = {it[0]: it[1:5] for it in rows((tmp_path / "site/stations.html").read_text(), "<h2>Points by station")}
    assert {it: cells[0] for it, cells in stations.items()} == {it: f"{units:,}" for it, units in points.items()}
    assert stations["TV1"][1:] == ["0", "1", "1"]


def test_a_rehearsal_as_a_table(copy: pathlib.Path, tmp_path: pathlib.Path, program: str, monkeypatch: pytest.MonkeyPatch) -> None:
    plays = Return("RADIO8", 1, [("ZZZZZ2600001", 3, 50), ("FREPS2600001", 2, 77), ("ATABC2600001", 1, 99)])
    order = Pool(6, "PR", 98_765, {**quarter.LAST_CUT, quarter.EPSILON: 2}, [("TV1", 1), ("RADIO1", 4), ("RADIO8", 1)])
    copy = further(program, copy, [quarter.OFFICE.request(plays)], tmp_path / "then.db")
    then = quarter.OFFICE.with_steps(plays, order)
    (tmp_path / "order.json").write_bytes(order_body(order))
    credited = Counter[str]()
    for _, account, units in reckoning.credits(then, 6):
        credited[account] += units
    ordered = sorted(credited.items(), key=lambda it: (-it[1], it[0]))
    wanted = [[account, f"{units:,}", part(units, 98_765)] for account, units in ordered]
    said = run("rehearse", copy, tmp_path / "order.json", "--program", program)
    assert [[it[0], *it[-2:]] for it in printed(said, "Credits")] == wanted
    nobodys = sum(units for _, units in reckoning.unclaimed(then, 6).values())
    assert printed(said, "By pool") == [["6", "98,765", f"{nobodys:,}", part(nobodys, 98_765)]]
    monkeypatch.setattr(rehearsal_output, "MOST_LISTED", 2)
    said = run("rehearse", copy, tmp_path / "order.json", "--program", program)
    assert [[it[0], *it[-2:]] for it in printed(said, "Credits")[:2]] == wanted[:2]
    rest = sum(units for _, units in ordered[2:])
    assert f"\nand {len(ordered) - 2} more accounts with {rest:,} units\n" in said
    monkeypatch.setattr(rehearsal_output, "MOST_LISTED", len(ordered))
    assert "more accounts" not in run("rehearse", copy, tmp_path / "order.json", "--program", program)


def test_every_recording_that_is_unclaimed_as_a_table(copy: pathlib.Path) -> None:
    said, found = f"\n{run('unclaimed', copy)}", json.loads(run("unclaimed", copy, "--format", "json"))
    for cause in {it["cause"] for it in found}:
        wanted = [[str(it["pool"]), it["right"], it["isrc"], f"{it['units']:,}"] for it in found if it["cause"] == cause]
        # (a long cell goes on in further lines)
        assert [it[:4] for it in printed(said, f"{cause}: ") if len(it) > 3 and it[0].isdigit()] == wanted


def test_what_is_unclaimed_as_a_table(copy: pathlib.Path, monkeypatch: pytest.MonkeyPatch) -> None:
    monkeypatch.setattr(order_output, "MOST_ROWS", 1)
    said, by_cause, found = run("unclaimed", copy), dict[str, list[int]](), json.loads(run("unclaimed", copy, "--format", "json"))
    for it in found:
        by_cause.setdefault(it["cause"], []).append(it["units"])
    assert max(map(len, by_cause.values())) > 2
    for cause, units in by_cause.items():
        counted = len({it["isrc"] for it in found if it["cause"] == cause})
        what = "pool" if cause == "no plays" else f"recording{'s' * (counted > 1)}"
        assert f"\n{cause}: {sum(units):,} units, {counted} {what}\n" in f"\n{said}"
        # (a long cell goes on in further lines)
        listed = [it for it in printed(f"\n{said}", f"{cause}: ") if len(it) > 3 and it[0].isdigit()]
        assert [it[3] for it in listed] == [f"{max(units):,}"]
    wanted = []
    for pool, it in quarter.OFFICE.pools.items():
        nobodys = sum(units for _, units in reckoning.unclaimed(quarter.OFFICE, pool).values())
        wanted.append([str(pool), f"{it.amount:,}", f"{nobodys:,}", part(nobodys, it.amount)])
    assert printed(said, "By pool") == wanted


def test_recordings_without_a_title_are_several() -> None:
    items = [Item(pool, "PR", f"ZZZZZ260000{k}", 5, Cause.NOBODY, (), "no file names it") for pool, k in ((1, 1), (1, 2), (2, 2))]
    assert order_output.of_what(Cause.NOBODY, items) == "2 recordings" and order_output.of_what(Cause.NO_PLAYS, items) == "3 pools"


def test_dues_as_a_table(copy: pathlib.Path, program: str, monkeypatch: pytest.MonkeyPatch) -> None:
    words = ["amend", copy, 1, "--amount", 900_000, "--cut", f"{quarter.ALPHA}=3", "--program", program]
    said, found = run(*words), json.loads(run(*words, "--format", "json"))
    head = "pool 1 as it should have been:\n- amount 900,000 in the place of 1,000,003\n"
    assert said.startswith(f"{head}- the cut counts {quarter.ALPHA} up to 3, and was 2\n\n")
    holders = [it for it in found if it["account"] != "UNCLAIMED"]
    assert [it["difference"] for it in found] == sorted((it["difference"] for it in found), reverse=True)
    assert {it["account"]: it["due"] - it["paid"] for it in found} == {it["account"]: it["difference"] for it in found}
    for words_of, listed in (
        ("lacking", [it["difference"] for it in holders if it["difference"] > 0]),
        ("too much", [-it["difference"] for it in holders if it["difference"] < 0]),
    ):
        assert f"{words_of}: {sum(listed):,} units of {len(listed)} account{'s' * (len(listed) != 1)}\n" in said and listed
    [nobody] = [it for it in found if it["account"] == "UNCLAIMED"]
    assert nobody["to_write_off"] == -nobody["difference"] > 0 and all(it["to_write_off"] == 0 for it in holders)
    assert "What is to be written off was credited to nobody" in said
    columns = ("due", "paid", "difference", "to_write_off")
    differ = [[it["account"], *(f"{it[one]:,}" for one in columns)] for it in found if it["difference"]]
    assert [[it[0], *it[-4:]] for it in printed(said, "account")] == differ
    rows_read = rows_of(run(*words, "--format", "csv"))
    assert [list(it.values()) for it in rows_read] == [[str(one) for one in it.values()] for it in found]
    monkeypatch.setattr(dues_output, "MOST_ROWS", 1)
    assert f"\nand {len(differ) - 1} more: `--format csv` has every one of them\n" in run(*words)
    assert len(differ) < len(found)


def test_dues_of_a_pool_and_of_an_account(copy: pathlib.Path, program: str, decided: pathlib.Path) -> None:
    (decided / "void.txt").write_text("RADIO2/1\n")
    words = ["dues", copy, "--program", program, "--format", "json"]
    steps: list[Step] = [it for it in quarter.OFFICE.steps if not isinstance(it, Pool)]
    alone = Office(quarter.NAMES, [*steps, quarter.POOLS[0]._replace(returns=[("RADIO1", 1)])])
    paid, due = reckoning.sums(reckoning.credits(quarter.OFFICE, 1)), Counter[str]()
    for key, units in reckoning.due(alone).items():
        due[key[2]] += units
    found = {it["account"]: (it["due"], it["paid"]) for it in json.loads(run(*words, "--pool", 1))}
    assert found == {it: (due[it], paid[it]) for it in {*due, *paid}} and due != paid
    listed = json.loads(run(*words, "--pool", 1, "--account", ACCOUNT))
    own = Counter[str]()
    for isrc, account, units in reckoning.credits(quarter.OFFICE, 1):
        own[isrc] += units * (account == ACCOUNT)
    assert {it["isrc"]: it["paid"] for it in listed if it["paid"]} == dict(+own) and {it["right"] for it in listed} == {"PR"}
    differ = [it for it in json.loads(run(*words, "--account", ACCOUNT)) if it["difference"]]
    said = run(*words[:-2], "--account", ACCOUNT)
    numbers = [[f"{it[one]:,}" for one in ("due", "paid", "difference")] for it in differ]
    assert printed(f"\n{said}", "right") == [[it["right"], it["isrc"], *cells] for it, cells in zip(differ, numbers)] != []
    lacking = [it["difference"] for it in differ if it["difference"] > 0]
    assert f"\nlacking: {sum(lacking):,} units of {len(lacking)} recordings\n" in said and len(lacking) > 1
    assert "pool 4 is none that people have closed" in run("dues", copy, "--pool", 4, "--program", program, status=1)
    assert "is no account" in run("dues", copy, "--account", "ANNA", "--program", program, status=1)
    assert "--next is over all pools" in run("dues", copy, "--account", ACCOUNT, "--next", copy.parent / "x", status=2)


def test_a_cut_names_the_last_file_also_where_an_end_is_stated(copy: pathlib.Path, tmp_path: pathlib.Path, program: str) -> None:
    end = quarter.OFFICE.request(End(quarter.DELTA, PLAIN, 2, 26))
    then = further(program, copy, [end], tmp_path / "then.db")
    order = json.loads(run("propose", then, "--amount", 5, "--kind", "MR"))
    assert dict(order["cut"])[quarter.DELTA] == 2
    (tmp_path / "order.json").write_text(json.dumps(order))
    assert "would be closed" in run("rehearse", then, tmp_path / "order.json", "--program", program)


def test_the_units_of_a_credit_stand_once_in_an_explanation(copy: pathlib.Path, tmp_path: pathlib.Path, program: str) -> None:
    steps: list[Step] = [
        Return("RADIO8", 1, [("ATABC2600001", 1, 100), ("ATABC2600001", 2, 200), ("ATABC2600002", 1, 50), ("ATABC2600001", 3, 100)]),
        Pool(6, "PR", 1_001, quarter.FIRST_CUT, [("RADIO8", 1)]),
    ]
    then = further(program, copy, [quarter.OFFICE.request(it) for it in steps], tmp_path / "then.db")
    listed = rows_of(run("explain", then, ACCOUNT, "--pool", 6, "--format", "csv"))
    units = [to for _, account, to in reckoning.credits(quarter.OFFICE.with_steps(*steps), 6) if account == ACCOUNT]
    assert len(listed) > len(units) and [int(it["units"]) for it in listed if it["units"]] == units
    # (rows of one length stand together)
    plays = [[it["plays"], it["seconds"], it["points"]] for it in listed if it["isrc"] == "ATABC2600001"]
    assert plays == [["4", "100", "400"], ["2", "200", "400"]]


def test_of_many_works_the_greatest_are_printed(copy: pathlib.Path, monkeypatch: pytest.MonkeyPatch) -> None:
    monkeypatch.setattr(statement_output, "MOST_LINES", 1)
    page, works = run("statement", copy, ACCOUNT, "--format", "html"), sums(ACCOUNT, 3, 4, 5)
    [shown] = rows(page, "<h2>By work")
    assert shown[3] == f"{max(works.values()):,}" and f">{len(works) - 1} more works with less." in page
