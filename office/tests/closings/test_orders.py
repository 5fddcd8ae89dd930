"""Unclaimed money and its causes, orders proposed and rehearsed."""

import decimal
import json
import pathlib

import pytest
import quarter
import reckoning
from click.testing import CliRunner
from command import run
from conftest import further, made
from office_value import File, Office, Pool, Return, Step, order_body
from society_office.book.copy import open_copy
from society_office.closings.orders import Wanted, pool_for, propose
from society_office.commands.cli import main
from society_office.credits.unclaimed import Cause, Unclaimed

CAUSES = {"share": {Cause.SHARE}, "conflict": {Cause.CONFLICT}, "plays": {Cause.NO_PLAYS}}
NONE = {Cause.LATE, Cause.REJECTED, Cause.WAITING, Cause.NOBODY}


def test_unclaimed_money_has_its_cause(copy: pathlib.Path) -> None:
    with open_copy(copy) as opened:
        for pool in quarter.OFFICE.pools:
            found = Unclaimed(opened).items(pool)
            sums = {isrc: sum(it.units for it in found if it.isrc == isrc) for isrc in {it.isrc for it in found}}
            assert sums == {isrc: units for isrc, (_, units) in reckoning.unclaimed(quarter.OFFICE, pool).items()}
            for it in found:
                assert it.cause in CAUSES.get(reckoning.unclaimed(quarter.OFFICE, pool)[it.isrc][0], NONE), it


def test_why_nobody_is_paid(copy: pathlib.Path) -> None:
    with open_copy(copy) as opened:
        found = {(it.pool, it.isrc): it for it in Unclaimed(opened).items()}
    conflict = found[1, "ATABC2600010"]
    assert [(it.publisher, it.title) for it in conflict.claimants] == [
        (quarter.ALPHA, "SHARED CLAIM"),
        (quarter.DELTA, "CLAIMED TOO"),
    ]
    assert conflict.since == f"now only {quarter.ALPHA} A3 names it"
    assert found[1, "ATABC2600020"].cause is Cause.LATE and found[1, "GBGAM2600003"].cause is Cause.WAITING
    assert found[3, "ATABC2600022"].why == "rejected with fault 3" and found[1, "ZZZZZ2600001"].cause is Cause.NOBODY
    assert found[1, "FREPS2600001"].part == 5_000
    own = ("FREPS2600005", reckoning.NOBODY)
    nobodys = [units for isrc, account, units in reckoning.credits(quarter.OFFICE, 1) if (isrc, account) == own]
    for it in found.values():
        if it.cause is Cause.SHARE:
            whole = sum(units for isrc, _, units in reckoning.credits(quarter.OFFICE, it.pool) if isrc == it.isrc)
            assert it.part == (decimal.Decimal(it.units * 10_000) / whole).quantize(decimal.Decimal(1), decimal.ROUND_HALF_UP), it
    assert found[1, "GBGAM2600001"].units == 52_071 and found[1, "GBGAM2600001"].part == 5_000
    assert f"NAMELESS {nobodys[0]:,} (with neither an IPI name number nor an IP #)" in found[1, "FREPS2600005"].why


EPSILON = quarter.EPSILON
# What is sent after the quarter, and paid at its last cut: works that are revised, rejected, come twice after the cut, or wait.
WHY: list[Step] = [
    File(
        EPSILON,
        3,
        "transmissions/3",
        [
            quarter.nwr("E1", "IS REGISTERED", "ZZZZZ2600005", quarter.ANNA, fault=20),
            quarter.nwr("E2", "IS REGISTERED TOO", "ZZZZZ2600005 GBGAM2600003", quarter.ANNA, fault=20),
            quarter.nwr("E6", "CAME LATE", "FREPS2600006", quarter.ANNA),
            quarter.rev("E1", "REVISED", "FREPS2600001", quarter.ANNA),
        ],
    ),
    File(EPSILON, 4, "transmissions/4", [quarter.rev("E6", "CAME LATE", "FREPS2600006", quarter.ANNA)]),
    Return("RADIO8", 1, [(it, 1, 10) for it in ("DEBET2600001", "DEBET2600005", "FREPS2600006", "GBGAM2600003", "ZZZZZ2600005")]),
    Pool(6, "PR", 5_000, quarter.LAST_CUT, [("RADIO8", 1)]),
]


@pytest.mark.parametrize(
    "pool, isrc, cause, why, since, works",
    [
        (6, "DEBET2600001", Cause.LATE, f"a version of {quarter.BETA} 1 named it, and the one at the cut does not", "", ["1"]),
        (6, "DEBET2600005", Cause.WAITING, "the file is not applied", "", ["3"]),
        (
            6,
            "FREPS2600006",
            Cause.LATE,
            f"it came with file 3 of {EPSILON}, which the cut counts up to 1",
            f"now only {EPSILON} E6 names it",
            ["E6", "E6"],
        ),
        (6, "GBGAM2600003", Cause.REJECTED, "rejected with fault 20", "", ["E2"]),
        (6, "ZZZZZ2600005", Cause.REJECTED, "rejected with fault 20", "", ["E1", "E2"]),
        (
            1,
            "FREPS2600001",
            Cause.SHARE,
            "nobody collects 64,048 of its 128,096 units: ÖDÖN ÄRGER 0, ANNA WRITER 64,048",
            "revised since",
            ["E1"],
        ),
        (1, "FREPS2600005", Cause.SHARE, None, "", ["E5"]),
    ],
)
def test_why_and_since_when(
    copy: pathlib.Path, program: str, pool: int, isrc: str, cause: Cause, why: str | None, since: str, works: list[str]
) -> None:
    then = further(program, copy, [quarter.OFFICE.request(it) for it in WHY], copy.with_name("then.db"))
    with open_copy(then) as opened:
        unclaimed = Unclaimed(opened).items()
        [found] = [it for it in unclaimed if (it.pool, it.isrc) == (pool, isrc)]
    assert (found.cause, found.since, [it.work for it in found.claimants]) == (cause, since, works) and why in (found.why, None)


def test_an_order_is_proposed(copy: pathlib.Path, decided: pathlib.Path) -> None:
    (decided / "void.txt").write_text(quarter.VOID)
    assert json.loads(run("propose", copy, "--amount", 1000)) == {
        "amount": 1000,
        "cut": [
            [quarter.ALPHA, 3],
            [quarter.BETA, "26-0002"],
            [quarter.GAMMA, 1],
            [quarter.DELTA, 2],
            [quarter.EPSILON, 2],
        ],
        "returns": [["TV1", 1]],
    }
    assert json.loads(run("propose", copy, "--amount", 1000, "--returns", "TV1"))["returns"] == [["TV1", 1]]
    changes = [f"{quarter.BETA}=1", f"{quarter.DELTA}=0", f"{quarter.ALPHA}=2"]
    cut = [word for it in changes for word in ("--cut", it)]
    earlier = run("propose", copy, "--amount", 1000, *cut)
    assert json.loads(earlier)["cut"] == [[quarter.ALPHA, 2], [quarter.BETA, 1], [quarter.GAMMA, 1], [quarter.EPSILON, 2]]
    assert "is no sender with a number" in run("propose", copy, "--amount", 1000, "--cut", "PB999999999=1", status=1)
    for number in ("4", "26-0001", "9" * 40):
        assert "has all files up to 3 only" in run("propose", copy, "--amount", 1000, "--cut", f"{quarter.ALPHA}={number}", status=1)
    twice = ["--cut", f"{quarter.ALPHA}=2", "--cut", f"{quarter.ALPHA}=1"]
    assert f"{quarter.ALPHA} is cut twice" in run("propose", copy, "--amount", 1000, *twice, status=1)
    with open_copy(copy) as opened:
        # The double was paid in the performing right only, so a pool of the mechanical right may pay it.
        found = propose(opened, 7, "MR", Wanted(), [])
    assert found.order.returns == [("RADIO1", 4), ("TV1", 1), ("TV1", 2)] and found.pool == 6
    assert json.loads(found.order.json)["kind"] == "MR"


def test_what_stands_beside_a_proposed_order_is_told(copy: pathlib.Path, decided: pathlib.Path) -> None:
    (decided / "void.txt").write_text("RADIO9\nTV1/2\nRADIO2/1\nRADIO1/2\nRADIO1/1\n")
    words = ["propose", str(copy), "--amount", "1000", "--kind", "MR", "--cut", f"{quarter.BETA}=0"]
    ended = CliRunner(mix_stderr=False).invoke(main, words)
    twice = "the same plays as RADIO1/3, paid by pool 3 in the PR: right only where it is to be paid in both"
    cure = "`society-office dues` tells who has too much by it"
    assert ended.stderr.splitlines()[1:] == [
        "4 senders, 2 returns; pool 6 is free",
        "left out: TV1/2, void",
        f"note: RADIO1/4 has {twice}",
        f"note: {decided}/void.txt, line 1: RADIO9: no such return is stored",
        f"note: pool 1 has paid what is void: RADIO1/1, RADIO2/1; {cure}",
        f"note: pool 2 has paid what is void: RADIO1/2; {cure}",
        f"note: {quarter.GAMMA} has files that wait, which this order does not count",
    ]


def test_a_return_of_the_office_itself_is_not_proposed(program: str, tmp_path: pathlib.Path) -> None:
    plays, own = Return("RADIO1", 1, [("ATABC2600001", 1, 1)]), Return("LATE3F0A9C21", 99_999, [("ATABC2600001", 5, 1)])
    copy = made(program, Office(quarter.NAMES, [plays, own]), tmp_path)
    words = ["propose", copy, "--amount", 5, "--no-files"]
    assert json.loads(run(*words))["returns"] == [["RADIO1", 1]]
    name = "LATE3F0A9C21/99999"
    why = f"{name}: a return of the office itself, which has an order of its own"
    assert run(*words, "--returns", name, status=1) == f"society-office: --returns: {name}: {why}\n"


def test_an_order_is_rehearsed(copy: pathlib.Path, tmp_path: pathlib.Path, program: str) -> None:
    before = copy.read_bytes()
    run("propose", copy, "--amount", 1000, "--returns", "TV1/1", "--output", tmp_path / "order.json")
    said = run("rehearse", copy, tmp_path / "order.json", "--program", program)
    assert "pool 6 would be closed with 1,000 units of the PR" in said and "BORIS COMPOSER" in said
    (tmp_path / "order.json").write_bytes(order_body(quarter.POOLS[0]).replace(b"1000003", b"5"))
    assert "is paid by pool 1: leave it out" in run("rehearse", copy, tmp_path / "order.json", "--program", program, status=1, out=True)
    assert copy.read_bytes() == before and {it.name for it in copy.parent.iterdir()} == {"copy.db", "order.json"}


@pytest.mark.parametrize(
    "order, pool",
    [
        ('{"returns":[["LATE3F0A9C21",99999]]}', 99_999),
        ('{"returns":[["AMEND1",99998],["RADIO1",4]]}', 99_998),
        ('{"returns":[["AMEND99999",99998]]}', 99_998),
        ('{"returns":[["LATE3F0A9C21",100000]]}', 6),
        ('{"returns":[["LATE3F0A9C21",99999],["DUE3F0A9C21",99998]]}', 6),
        ('{"returns":[["RADIO1",4]]}', 6),
        ('{"returns":[["RADIO1"', 6),
        ("[]", 6),
    ],
)
def test_the_pool_that_an_order_closes(copy: pathlib.Path, order: str, pool: int) -> None:
    with open_copy(copy) as opened:
        assert pool_for(opened, order.encode()) == pool


@pytest.mark.parametrize(
    "amount, said",
    [
        ("1000.50", "1000.50 has a point: an amount is whole units, in cents 100050."),
        ("1,000.50", "1,000.50 has a point: an amount is whole units, in cents 100050."),
        ("1.000,50", "'1.000,50' is no number of units: write 100000 or 100,000."),
        ("10,00", "'10,00' is no number of units"),
        ("1e3", "'1e3' is no number of units"),
    ],
)
def test_an_amount_is_whole_units(copy: pathlib.Path, amount: str, said: str) -> None:
    assert said in run("propose", copy, "--amount", amount, status=2)
    assert json.loads(run("propose", copy, "--amount", "1,000"))["amount"] == 1_000
