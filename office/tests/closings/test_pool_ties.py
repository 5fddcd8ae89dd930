"""What is told of pools that others correct or make up, of void returns that were paid, and of money that was settled since."""

import json
import pathlib

import pytest
from chains import Chain
from command import run
from desk import ANNA, HOUSE, Desk, file, holder, work
from ledger import EMPTY, Order, opened
from office_value import Pool, Return, Step
from page_tables import figures_of, tables_of
from society_office.book.copy import Copy
from society_office.book.own_returns import ROWLESS
from society_office.closings.pool_ties import Ties, pools_text
from society_office.formats.return_names import entry
from test_chains import A, B, C, amend, prepared

PLAYS = [("ATABC2600001", 10, 200), ("ATABC2600002", 2, 60)]
CUT = ((HOUSE, 1),)


def ties_of(chain: Chain, *void: str) -> Ties:
    return Ties(Copy(EMPTY, opened(chain.ledger.kept())), [entry(it, "void.txt") for it in void], chain.listed)


def made_up(chain: Chain, number: int, rows: dict[str, int], word: str = "DUE", right: str = "PR") -> None:
    """Closes a make-up over these units of recordings."""
    returned = (f"{word}{number:08d}", number)
    chain.ledger.send_return(returned, ROWLESS + "".join(f"{isrc},{units},1\n" for isrc, units in rows.items()))
    assert chain.ledger.close(number, Order(right, sum(rows.values()), CUT, (returned,))) == 201


def test_a_make_up_is_of_the_pools_that_were_corrected_before_it() -> None:
    both = ("PR", 500, True, f"{A} {B}")
    chain = prepared(("PR", 1_000, True, A), both, ("MR", 300, True, A), ("PR", 70, True, C), ("PR", 40, True, A))
    amend(chain, 1, 1_100)
    amend(chain, 3, 400)
    amend(chain, 4, 90)
    made_up(chain, 99_990, {A: 100})
    chain.ledger.send_return(("AMEND2", 99_980), ROWLESS)
    chain.ledger.close(99_980, Order("PR", 0, CUT, (("AMEND2", 99_980),)))
    found = ties_of(chain).by_pool
    assert (found[99_990].makes_up, found[1].made_up_by) == ([1], [99_990])
    assert [found[it].made_up_by for it in (2, 3, 4, 5)] == [[], [], [], []]
    assert [found[it].corrects for it in (99_999, 99_998, 99_997, 99_980)] == [[1], [3], [4], [2]]
    assert found[2].corrected_by == [99_980] and found[99_990].corrects == []
    assert ties_of(chain).settled() == {}


def test_a_make_up_of_what_came_late_is_of_pools_that_paid_it_to_nobody() -> None:
    chain = prepared(("PR", 1_000, False, f"{A} {B}"), ("PR", 500, True, A), ("PR", 300, False, A), ("MR", 300, False, A))
    made_up(chain, 99_999, {A: 600}, "LATE")
    found = ties_of(chain)
    assert found.by_pool[99_999].makes_up == [1, 3] and found.by_pool[2].made_up_by == found.by_pool[4].made_up_by == []
    # (of A pool 1 has paid 500 to nobody, and pool 3 300)
    assert found.settled() == {(1, A): 500, (3, A): 100}
    assert found.notes(99_999) == ["pool 99999 makes up what was lacking by pools 1 and 3"]
    assert found.notes(3) == ["what was lacking by pool 3 was made up by pool 99999"]
    made_up(chain, 99_998, {A: 500, B: 500}, "LATE")
    assert ties_of(chain).settled() == {(1, A): 500, (3, A): 300, (1, B): 500}
    made_up(chain, 99_997, {A: 300}, "LATE", "MR")
    assert ties_of(chain).settled()[4, A] == 300


def test_void_returns_and_amendments_are_told_at_their_pools() -> None:
    chain = prepared(("PR", 1_000, True, A), ("PR", 500, True, B))
    amend(chain, 1, 1_100)
    amend(chain, 1, 1_300)
    made_up(chain, 99_997, {A: 300, B: 1})
    found = ties_of(chain, "RADIO1/2")
    first, then = "amount 1,100 in the place of 1,000", "amount 1,300 in the place of 1,100"
    assert found.notes(99_999) == [f"pool 99999 corrects pool 1: {first}"]
    assert found.notes(99_998) == [f"pool 99998 corrects pool 1: {then}"]
    corrected = [f"pool 1 was corrected by pool 99999: {first}", f"pool 1 was corrected by pool 99998: {then}"]
    assert found.notes(1) == [*corrected, "what was lacking by pool 1 was made up by pool 99997"]
    assert found.notes(2) == ["RADIO1/2, paid by pool 2, is void", "what was lacking by pool 2 was made up by pool 99997"]
    assert found.due_before(1, 99_997).amount == 1_300 and found.due_before(1, 99_998).amount == 1_100
    assert found.due_before(2, 99_997).returns == [] and sorted(found.all_notes()) == [1, 2, 99_997, 99_998, 99_999]
    assert Ties(found.copy).notes(99_999) == ["pool 99999 corrects pool 1"]


def test_what_older_books_corrected() -> None:
    chain = prepared(("PR", 1_000, True, A), ("PR", 1_000, False, B))
    for reporter, isrc in (("CORRECTED1", A), ("SETTLED", B)):
        chain.ledger.send_return((reporter, 1), f"{ROWLESS}{isrc},50,1\n")
    chain.ledger.close(3, Order("PR", 50, CUT, (("CORRECTED1", 1),)))
    chain.ledger.close(4, Order("PR", 50, CUT, (("SETTLED", 1),)))
    found = ties_of(chain)
    assert (found.by_pool[3].corrects, found.by_pool[1].corrected_by, found.by_pool[4].makes_up) == ([1], [3], [2])
    assert found.settled() == {(2, B): 50} and found.by_pool[3].makes_up == []


@pytest.mark.parametrize("pools, words", [([1], "pool 1"), ([3, 1], "pools 1 and 3"), ([2, 1, 9], "pools 1, 2 and 9")])
def test_pools_in_words(pools: list[int], words: str) -> None:
    assert pools_text(pools) == words


@pytest.fixture
def desk(program: str, tmp_path: pathlib.Path) -> Desk:
    """An office whose pool 1 paid half of a recording to Anna, the other half and another recording to nobody; then it was corrected."""
    steps: list[Step] = [
        Return("RADIO1", 1, PLAYS),
        Return("RADIO1", 2, PLAYS),
        file(HOUSE, 1, work("W1", "ATABC2600001", holder(ANNA, 5_000))),
    ]
    found = Desk(program, tmp_path, *steps, Pool(1, "PR", 2_120, {HOUSE: 1}, [("RADIO1", 1)]))
    found.amend(1, "--amount", 4_240)
    found.steps(file(HOUSE, 2, work("W2", "ATABC2600002", holder(ANNA, 10_000))))
    assert found.settled() == [99_998, 99_997]
    return found


def test_the_pages_tell_what_was_corrected_and_settled(desk: Desk, decided: pathlib.Path) -> None:
    (decided / "void.txt").write_text("RADIO1/1  # a wrong month\n")
    site = desk.folder / "site"
    desk.run("site", "--into", site)
    page = (site / "pools/1.html").read_text()
    link = '<a href="../pools/99999.html">99999</a>'
    assert f"was corrected by pool {link}: amount 4,240 in the place of 2,120</li>" in page
    assert "RADIO1/1 (void)" in page and "RADIO1/1, paid by pool <a" in page and ", is void</li>" in page
    made = (site / "pools/99998.html").read_text()
    assert 'makes up what was lacking by pool <a href="../pools/1.html">1</a></li>' in made
    assert figures_of(page)["paid since, by make-ups"] == "120" and "Without 120 units that make-ups have paid" in page
    assert "no owner at the cut" in page and figures_of(page)["no owner at the cut"] == "0"
    stations = tables_of((site / "stations.html").read_text())
    assert [it[0] for it in stations["Points by station"]] == ["Station", "RADIO1"]
    own = stations["Returns of the office itself"]
    assert [it[1:] for it in own if it[0] == "AMEND1/99999"] == [["Pool 99999 corrects pool 1: amount 4,240 in the place of 2,120", "0"]]
    assert len(own) == 4 and any("Pool 99998 makes up what was lacking by pool 1" in it[1] for it in own)
    assert [it[3] for it in stations["Returns of RADIO1"]][1:] == ["unpaid", "paid by pool 1, and void since"]
    listed = tables_of((site / "pools.html").read_text())["Pools"]
    assert listed[-1][0] == "1" and "Pool 1 was corrected by pool 99999" in listed[-1][1] and listed[-1][5] == "120"


def test_statements_tell_what_was_corrected(desk: Desk) -> None:
    said = desk.run("statement", ANNA)
    notes = [it for it in said.splitlines() if it.startswith(("pool 1 was", "what was", "pool 9999"))]
    assert notes == [
        "pool 1 was corrected by pool 99999: amount 4,240 in the place of 2,120",
        "what was lacking by pool 1 was made up by pools 99997 and 99998",
        "pool 99997 makes up what was lacking by pool 1",
        "pool 99998 makes up what was lacking by pool 1",
    ]
    desk.run("statement", "--all", "--into", desk.folder / "all")
    for page in ((desk.folder / f"all/{ANNA}/index.html").read_text(), desk.run("statement", ANNA, "--format", "html", out=True)):
        assert "<li>Pool 99998 makes up what was lacking by pool 1</li>" in page and "less than an hour old then" in page


def test_a_make_up_is_explained_by_the_pool_that_it_makes_up(desk: Desk, decided: pathlib.Path) -> None:
    (decided / "pools.txt").write_text("1 2026-01-01/2026-03-31 Spring\n")
    said = {pool: desk.run("explain", ANNA, "--pool", pool) for pool in (99_997, 99_998)}
    [of_first] = [it for it in said.values() if "ATABC2600001" in it]
    [of_other] = [it for it in said.values() if "ATABC2600002" in it]
    for it in said.values():
        assert "DUE" not in it and "LATE" not in it
        assert "due by pool 1 (Spring, 2026-01-01 to 2026-03-31), 4,240 units over 2,120 points:\n" in it
    assert "RADIO1         1      10       200    2,000\n" in of_first
    assert "the recording, 2,000 points: 4,240 * 2,000 / 2,120 = 4,000\n" in of_first
    assert "2,000 units due, of which pool 1 had credited 1,000\n" in of_first and "ATABC2600001: 1,000 units lacking; pool" in of_first
    assert "240 units due, of which pool 1 had credited 0\n" in of_other and "ATABC2600002: 240 units lacking; pool" in of_other
    assert "SONG W2, work W2 of PB000000012 HOUSE MUSIC, file 2\n" in of_other
    pool = 99_998 if "ATABC2600002" in said[99_998] else 99_997
    told = json.loads(desk.run("explain", ANNA, "--pool", pool, "--format", "json"))
    assert told["lacked"] == [{"pool": 1, "amount": 4_240, "points": 2_120, "isrc": "ATABC2600002", "due": 240, "credited": 0}]
    assert told["notes"] == [f"pool {pool} makes up what was lacking by pool 1"] and told["credits"][0]["plays"] == []
    assert run("explain", desk.live, "UNCLAIMED", "--pool", 1).startswith("UNCLAIMED\npool 1 (Spring")
    told = f"pool 99999 credits nothing to {ANNA}; pool 99999 corrects pool 1: amount 4,240 in the place of 2,120"
    assert told in desk.run("explain", ANNA, "--pool", 99_999, status=1)


def test_what_make_ups_had_paid_before_is_lacking_no_more(desk: Desk) -> None:
    first = {it: desk.run("explain", ANNA, "--pool", it) for it in (99_997, 99_998)}
    desk.amend(1, "--amount", 6_360)
    said = [desk.run("explain", ANNA, "--pool", it) for it in desk.settled()]
    [told] = [it for it in said if "ATABC2600001" in it]
    line = [it for it in told.splitlines() if it.startswith("ATABC2600001: 1,")][0]
    assert line.startswith("ATABC2600001: 1,000 units lacking, without 1,000 that make-ups had paid before; pool ")
    assert line.endswith(" pays 1,000 of it") and "3,000 units due, of which pool 1 had credited 1,000\n" in told
    # (and what came later changes nothing of what is said of the first ones)
    assert {it: desk.run("explain", ANNA, "--pool", it).split("\n\n", 1)[1] for it in first} == {
        it: words.split("\n\n", 1)[1] for it, words in first.items()
    }
