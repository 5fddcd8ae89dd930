"""An order rehearsed: what is odd about it, what it would credit, and whether it is a new one."""

import codecs
import json
import pathlib
import re

import pytest
import quarter
import reckoning
from answers import rows_of
from command import run
from conftest import further, made
from office_value import File, Office, Pool, Return, Step, order_body
from society_office.book.copy import open_copy
from society_office.book.stored_returns import Stored, far_ones
from society_office.closings import rehearsal_output
from society_office.closings.orders import Wanted, propose
from society_office.closings.rehearsal import notes_on_returns

PLAYS = [("ATABC2600001", 3, 100), ("DEBET2600003", 2, 50)]
# Returns that are sent after the quarter: plays in another order than others, a station that reports far more, and far less.
SENT = [
    Return("RADIO3", 1, PLAYS),
    Return("RADIO3", 2, PLAYS[::-1]),
    Return("RADIO4", 1, [("ATABC2600001", 10, 100)]),
    Return("RADIO4", 2, [("ATABC2600001", 11, 100)]),
    Return("RADIO4", 3, [("ATABC2600001", 105, 100)]),
    Return("RADIO4", 4, [("ATABC2600001", 104, 100)]),
    Return("RADIO4", 5, [("ATABC2600001", 1, 100)]),
]


@pytest.fixture
def office(copy: pathlib.Path, tmp_path: pathlib.Path, program: str) -> pathlib.Path:
    """The quarter's office with these returns."""
    return further(program, copy, [quarter.OFFICE.request(it) for it in SENT], tmp_path / "office.db")


def notes(office: pathlib.Path, program: str, order: Pool, *words: object) -> list[str]:
    """What is odd about an order."""
    (office.parent / "order.json").write_bytes(order_body(order))
    said = json.loads(run("rehearse", office, office.parent / "order.json", "--program", program, "--format", "json", *words))
    return [str(it) for it in said["notes"]]


def order(*returns: tuple[str, int], right: str = "PR", amount: int = 1_000) -> Pool:
    return Pool(6, right, amount, {**quarter.LAST_CUT, quarter.EPSILON: 2}, list(returns))


def test_plays_that_were_sent_twice(office: pathlib.Path, program: str) -> None:
    found = notes(office, program, order(("RADIO3", 1), ("RADIO3", 2), ("RADIO1", 4)))
    assert "RADIO3/2 has the same plays as RADIO3/1, named here: the plays would be paid twice" in found
    assert "RADIO1/4 has the same plays as RADIO1/3, paid by pool 3 in the PR: the plays would be paid twice" in found
    assert not any(it.startswith("RADIO3/1 ") for it in found)
    found = notes(office, program, order(("RADIO1", 4), right="MR"))
    assert "RADIO1/4 has the same plays as RADIO1/3, paid by pool 3 in the PR: right only where it is to be paid in both" in found


@pytest.mark.parametrize("right", ["PR", "MR"])
def test_plays_that_were_sent_twice_are_proposed_once(office: pathlib.Path, right: str) -> None:
    with open_copy(office) as opened:
        found = propose(opened, 1_000, right, Wanted(), [])
    assert ("RADIO3", 1) in found.order.returns and ("RADIO3", 2) not in found.order.returns
    why = {key: it.why for it in found.left_out for key in it.returns}
    assert why["RADIO3", 2] == "the same plays as RADIO3/1, named here"


def test_plays_that_were_paid_in_both_rights(office: pathlib.Path, program: str, tmp_path: pathlib.Path) -> None:
    paid = [order(("RADIO3", 1), right="MR"), order(("RADIO3", 2))._replace(pool=7)]
    steps: list[Step] = [Return("RADIO3", 3, PLAYS), *paid]
    then = further(program, office, [quarter.OFFICE.request(it) for it in steps], tmp_path / "paid.db")
    for right, other in (("PR", "RADIO3/2, paid by pool 7 in the PR"), ("MR", "RADIO3/1, paid by pool 6 in the MR")):
        found = notes(then, program, order(("RADIO3", 3), right=right)._replace(pool=8))
        assert f"RADIO3/3 has the same plays as {other}: the plays would be paid twice" in found


def test_returns_that_are_far_from_others(office: pathlib.Path, program: str, decided: pathlib.Path) -> None:
    found = [it for it in notes(office, program, order(*(("RADIO4", it) for it in range(1, 6)))) if "points" in it]
    # The others of RADIO4/3 have 1,050 in the middle, so that it is just ten times that; RADIO4/4 is just not.
    assert found == [
        "RADIO4/3 has 10,500 points, 10 times those of the station's others: look at it",
        "RADIO4/5 has 100 points, and the station's others 5,750 in the middle: look at it",
    ]
    (decided / "void.txt").write_text("RADIO4/3-4\n")
    assert [it for it in notes(office, program, order(("RADIO4", 5))) if "points" in it] == [
        "RADIO4/5 has 100 points, and the station's others 1,050 in the middle: look at it"
    ]
    with open_copy(office) as opened:
        remarks = propose(opened, 5, "PR", Wanted(), []).remarks
    assert "RADIO4/3 has 10,500 points, 10 times those of the station's others: look at it" in remarks


@pytest.mark.parametrize(
    "points, what",
    [
        ((100, 1_000, 1_000), "100 points, and the station's others 1,000 in the middle"),
        ((101, 1_000, 1_000), ""),
        # (that it is small is told beside two others)
        ((100, 1_000), ""),
        ((1_000, 100), "1,000 points, 10 times those of the station's others"),
        ((999, 100), ""),
    ],
)
def test_just_ten_times_and_a_tenth_are_far(points: tuple[int, ...], what: str) -> None:
    stored = {("RADIO1", k): Stored("RADIO1", k, 1, it, b"", 0) for k, it in enumerate(points, 1)}
    assert list(far_ones([stored["RADIO1", 1]], stored, [])) == ([f"RADIO1/1 has {what}: look at it"] if what else [])


@pytest.mark.parametrize("amount", [0, 5])
def test_what_an_order_with_units_names(copy: pathlib.Path, amount: int) -> None:
    own, silent, plays = Stored("AMEND1", 99_999, 0, 0, b"", 0), Stored("RADIO9", 1, 1, 0, b"0", 0), Stored("RADIO9", 2, 1, 7, b"7", 0)

    def told(*named: Stored) -> list[str]:
        with open_copy(copy) as opened:
            return list(notes_on_returns(opened, {"amount": amount}, named, {it.key: it for it in named}, []))

    none = "it names no return with a play: all of it goes to UNCLAIMED"
    mixed = "AMEND1/99999 is of the office itself, and has to be paid by an order of its own, without plays"
    assert told() == told(silent) == ([none] if amount else [])
    assert told(silent, plays) == [] and told(own, plays) == ([mixed] if amount else [])


def test_what_is_void_and_what_is_left_out(office: pathlib.Path, program: str, decided: pathlib.Path) -> None:
    (decided / "void.txt").write_text("TV1/2\nRADIO4/2-4\n")
    found = notes(office, program, order(("TV1", 1), ("TV1", 2)))
    assert "TV1/2 is void, by the list of void returns" in found
    assert "not named, and paid by no pool: RADIO1/4, RADIO3/1-2, RADIO4/1,5" in found
    assert f"{quarter.GAMMA} has files that wait, which this order does not count" in found
    assert not any("the cut" in it for it in found)
    found = notes(office, program, Pool(6, "PR", 5, {quarter.ALPHA: 2, quarter.BETA: 1}, []))
    assert f"the cut counts {quarter.ALPHA} up to 2, and its files are applied up to 3" in found
    assert f"the cut counts {quarter.BETA} up to 1, and its files are applied up to 26-0002" in found
    assert f"the cut does not count {quarter.DELTA}, whose files are applied up to 2" in found
    assert "it names no return with a play: all of it goes to UNCLAIMED" in found


def test_files_that_all_wait_are_told_to_wait(program: str, tmp_path: pathlib.Path) -> None:
    waits = File(quarter.ALPHA, 2, "transmissions/2", [quarter.nwr("A1", "SONG", "ATABC2600001", quarter.ANNA)])
    copy = made(program, Office(quarter.NAMES, [Return("RADIO3", 1, PLAYS), waits]), tmp_path)
    assert notes(copy, program, Pool(6, "PR", 5, {}, [("RADIO3", 1)])) == [
        f"{quarter.ALPHA} has files that wait, which this order does not count"
    ]


def test_a_key_that_stands_twice(office: pathlib.Path, program: str, tmp_path: pathlib.Path) -> None:
    file = tmp_path / "order.json"
    file.write_text('{"amount":1,"amount":7,"cut":[],"cut":[],"cut":[["PB000000012",1]],"returns":[["RADIO3",1]]}')
    said = run("rehearse", office, file, "--program", program)
    assert "closed with 7 units" in said
    assert "note: amount stands twice in the order, and the last one counts: take the others out\n" in said
    assert "note: cut stands 3 times in the order" in said and "returns stands" not in said


@pytest.mark.parametrize("mark, hint", [(codecs.BOM_UTF8, True), (codecs.BOM_UTF16_LE, True), (b"", False)])
def test_an_order_that_is_refused(office: pathlib.Path, program: str, tmp_path: pathlib.Path, mark: bytes, hint: bool) -> None:
    (tmp_path / "order.json").write_bytes(mark + b'{"amount":-1,"cut":[],"returns":[]}')
    said = run("rehearse", office, tmp_path / "order.json", "--program", program, status=1, out=True)
    assert said.startswith("REFUSED, status 422: order fault 1: ") and said.count("\n") == 1
    assert ("a byte order mark stands before it" in said) == hint


@pytest.mark.parametrize(
    "order, hint",
    [
        (b'{"amount":500,00,"cut":[],"returns":[]}', """line 1, character 15: '00,"cut":[],"returns' is wrong there"""),
        (b'{"amount":500,\n"cut":[],"returns":[],}', "line 2, character 23: '}' is wrong there"),
        ('{“amount”:500,"cut":[],"returns":[]}'.encode(), """line 1, character 2: '“amount”:500,"cut":[' is wrong there"""),
        (b'{"amount":500,"cut":[],"returns":[', "line 1, character 35: it ends too early"),
        (b"", "line 1, character 1: it ends too early"),
        (b"isrc,plays,seconds", "line 1, character 1: 'isrc,plays,seconds' is wrong there"),
        (b'{"amount":"500","cut":[],"returns":[]}', ""),
        (b'{"amount":"\xff"}', ""),
        (b"[" * 100_000, ""),
    ],
)
def test_an_order_that_is_no_json(office: pathlib.Path, program: str, tmp_path: pathlib.Path, order: bytes, hint: str) -> None:
    (tmp_path / "order.json").write_bytes(order)
    said = run("rehearse", office, tmp_path / "order.json", "--program", program, status=1, out=True)
    assert said.startswith("REFUSED, status 422: order fault 1: ") and said.endswith(f'"PR" or "MR"{hint and "; "}{hint}\n')


def test_a_repeat_is_no_new_pool(office: pathlib.Path, program: str) -> None:
    closed = quarter.POOLS[0]
    (office.parent / "order.json").write_bytes(order_body(closed))
    said = run("rehearse", office, office.parent / "order.json", "--pool", 1, "--program", program)
    accounts = len(reckoning.sums(reckoning.credits(quarter.OFFICE, 1)))
    paid = f"with 1,000,003 units of the PR, credited to {accounts} accounts"
    assert said.splitlines()[0] == f"pool 1 is closed already by this very order, {paid}: nothing would change"
    assert "the same plays" not in said and "would be closed" not in said
    (office.parent / "order.json").write_bytes(order_body(closed._replace(amount=5)))
    words = ["rehearse", office, office.parent / "order.json", "--pool", 1, "--program", program]
    assert "another order stands" in run(*words, status=1, out=True)
    refused = json.loads(run(*words, "--format", "json", status=1, out=True))
    assert refused["status"] == 409 and "another order stands" in refused["refusal"] and "accounts" not in refused
    assert "the order is refused, status 409" in run(*words, "--format", "csv", status=1)
    (office.parent / "order.json").write_bytes(b"{")
    assert "order fault 1" in run("rehearse", office, office.parent / "order.json", "--program", program, status=1, out=True)


def test_a_repeat_is_looked_at_as_if_it_were_new(office: pathlib.Path, program: str, tmp_path: pathlib.Path) -> None:
    twice = order(("RADIO3", 1), ("RADIO3", 2))
    then = further(program, office, [("/pools/6", order_body(twice))], tmp_path / "then.db")
    found = [it for it in notes(then, program, twice, "--pool", 6) if "same plays" in it]
    assert found == ["RADIO3/2 has the same plays as RADIO3/1, named here: the plays would be paid twice"]


def test_its_forms(office: pathlib.Path, program: str) -> None:
    named = order(("RADIO3", 1), ("RADIO4", 1), ("RADIO4", 2))
    then = quarter.OFFICE.with_steps(*SENT, named)
    (office.parent / "order.json").write_bytes(order_body(named))
    words = ["rehearse", office, office.parent / "order.json", "--program", program]
    rows = rows_of(run(*words, "--format", "csv"))
    assert {it["account"]: int(it["units"]) for it in rows} == reckoning.sums(reckoning.credits(then, 6)) and rows[0]["pool"] == "6"
    assert rows[0]["right"] == "PR" and {it["account"]: it["name"] for it in rows}["I00000000295"] == "ANNA WRITER"
    said = run(*words)
    accounts = len({it["account"] for it in rows})
    assert said.splitlines()[0] == f"pool 6 would be closed with 1,000 units of the PR, credited to {accounts} accounts"
    assert re.search(r"^RADIO4 +RADIO4/1-2 +2 +2,100 +84\.0 %$", said, re.MULTILINE)
    data = json.loads(run(*words, "--format", "json"))
    assert [(it["reporter"], it["number"], it["rows"], it["points"]) for it in data["returns"]] == [
        ("RADIO3", 1, 2, 400),
        ("RADIO4", 1, 1, 1_000),
        ("RADIO4", 2, 1, 1_100),
    ]


def test_of_many_returns_all_of_a_station_stand_in_one_row(monkeypatch: pytest.MonkeyPatch) -> None:
    returns = [Stored(*it, 2, 50, b"", 0) for it in (("RADIO1", 1), ("RADIO1", 3), ("TV1", 2))]
    sums = [("RADIO1", "RADIO1/1,3", 4, 100, "66.7 %"), ("TV1", "TV1/2", 2, 50, "33.3 %")]
    each = [("RADIO1", f"RADIO1/{it}", 2, 50, "33.3 %") for it in (1, 3)]
    assert list(rehearsal_output.return_rows(returns)) == [*each, *sums]
    monkeypatch.setattr(rehearsal_output, "MOST_LISTED", 2)
    assert list(rehearsal_output.return_rows(returns)) == sums


def test_what_is_due_by_an_order(office: pathlib.Path, program: str, tmp_path: pathlib.Path, decided: pathlib.Path) -> None:
    run("dues", office, "--next", tmp_path / "next", "--program", program)
    [text], [order_file] = (tmp_path / "next").glob("*.csv"), (tmp_path / "next").glob("*.json")
    name, body = text.stem.replace("-", "/"), text.read_bytes()
    stored = further(program, office, [(f"/returns/{name}", body)], tmp_path / "stored.db")
    said = run("rehearse", stored, order_file, "--program", program)
    assert "pool 99999 would be closed with" in said and "note: all of it is due\n" in said
    assert "the cut" not in said and "not named" not in said and "beyond what is due" not in said
    units = json.loads(order_file.read_text())["amount"]
    more = json.loads(order_file.read_text()) | {"amount": units + 1_000}
    (tmp_path / "more.json").write_text(json.dumps(more))
    said = run("rehearse", stored, tmp_path / "more.json", "--program", program)
    assert "are beyond what is due" in said and "all of it is due" not in said
    mixed = order((name.partition("/")[0], 99_999), ("TV1", 1))
    found = notes(stored, program, mixed)
    assert any("has to be paid by an order of its own, without plays" in it for it in found)
    assert any(it.startswith("not named, and paid by no pool: ") for it in found)
    # An order of plays is not looked at for what is due but for void returns, and tells what is due beside it.
    found = notes(stored, program, order(("TV1", 1)))
    assert any("units more are due to" in it for it in found) and not any("beyond" in it for it in found)
    (decided / "void.txt").write_text("TV1/2\n")
    assert any("are beyond what is due" in it for it in notes(stored, program, order(("TV1", 1), ("TV1", 2))))
    (decided / "amendments.txt").write_text('99999 1 {"amount":1,"cut":[],"returns":[]}\n')
    assert any(it.startswith("what is due can't be told: ") for it in notes(stored, program, order(("TV1", 1))))
