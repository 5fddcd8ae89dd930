"""How far a standby is behind, as resending keeps it and health tells it."""

import dataclasses
import json
import os
import pathlib
import time

import pytest
import quarter
from command import run
from conftest import further, made
from office_value import End, Office, Pool, Return, Step, rank
from society_office.basics.errors import OfficeError
from society_office.book.copy import open_copy
from society_office.book.page_sums import changed
from society_office.offices.program import free_port
from society_office.second_office import following
from society_office.second_office.resending import Tally
from society_office.watch import health
from society_office.watch.findings import GOOD, WARNING, WRONG, Finding
from society_office.watch.health import Limits, Looked
from test_copy import DERIVED
from test_second_office import FIRST, PLAYS, RENAMED, standing

MINUTE = 60
HELD = FIRST._replace(number=rank(26, 2), path="files/CW260002RA_900.V22")


def look(state: pathlib.Path, minutes: float = 15) -> Finding:
    """What health finds."""
    return health.look_at_standby(Looked("http://x", standby=state), Limits(standby=minutes))


def test_what_a_standby_may_lack_is_told(program: str, folder: pathlib.Path) -> None:
    office = Office(quarter.NAMES, [FIRST])
    copy, state, port = made(program, office, folder), folder / "state.json", free_port()
    long_ago = time.time() - 20 * MINUTE
    os.utime(copy, (long_ago, long_ago))
    with standing(program, folder / "standby.db", port) as address:
        said = run("resend", copy, "--to", address, "--state", state, status=1, out=True)
        assert "1 sent: 1 new" in said and f"{address} has all that came until " in said and "(20 minutes ago)" in said
        assert (look(state).state, look(state, 21).state, look(state, 9).state) == (WARNING, GOOD, WRONG)
    steps: list[Step] = [End(FIRST.sender, -1, 1, 26), HELD, PLAYS, Return("TV5", 2, []), Pool(1, "PR", 5, {}, [])]
    later = further(program, copy, [office.with_steps(*steps).request(it) for it in steps], folder / "later.db")
    said = run("resend", later, "--to", address, "--since-fronts", "--state", state, "--wait", "0", "--behind", "21", out=True)
    came = f"What has come since: fronts of 1 sender ({FIRST.sender} from 1 to 26-0000), 1 held number, 1 end, 2 returns, 1 order"
    assert "is known to have all until " in said and came in said
    assert came in look(state).words and look(state).state == WARNING
    said = run("resend", later, "--to", address, "--state", state, "--wait", "0", "--behind", "19", status=1)
    assert said.startswith(f"society-office: no answer from {address}: ")
    with standing(program, folder / "standby.db", port) as address:
        said = run("resend", later, "--to", address, "--since-fronts", "--state", state)
        assert "5 sent: 5 new" in said and "(0 minutes ago)" in said and look(state).state == GOOD
        assert "good   standby      " in run("health", "--office", address, "--standby", state)
        run("health", "--office", address, "--standby", state, "--minutes", "0", status=2)


def test_a_standby_that_is_not_the_same_is_wrong_at_once(program: str, folder: pathlib.Path) -> None:
    copy, state = made(program, Office(quarter.NAMES, [FIRST]), folder), folder / "state.json"
    (folder / "standby").mkdir()
    made(program, Office(quarter.NAMES, [RENAMED]), folder / "standby")
    with standing(program, folder / "standby/office.db") as address:
        said = run("resend", copy, "--to", address, "--state", state, status=1, out=True)
    assert f"{address} is not the same any more: refused, it has another file under this number: " in said
    assert look(state).state == WRONG and "another file under this number" in look(state).words


@pytest.mark.parametrize("hours, state", [(0.9, GOOD), (1.1, WARNING), (99.0, WARNING)])
def test_a_clock_that_has_gone_back_hides_no_standby_that_is_left_alone(tmp_path: pathlib.Path, hours: float, state: int) -> None:
    following.Following("http://a", time.time() + hours * 60 * MINUTE).keep(tmp_path / "state.json")
    found = look(tmp_path / "state.json")
    assert found.state == state and (f": a time {hours} hours from now, so the clock was wrong" in found.words) == (state == WARNING)
    following.Following("http://a", time.time() + hours * 60 * MINUTE, refused=["once"]).keep(tmp_path / "state.json")
    assert look(tmp_path / "state.json").state == WRONG


def test_how_a_standby_is_in_a_line(monkeypatch: pytest.MonkeyPatch) -> None:
    since = time.time() - 600 * MINUTE
    well = following.Following("http://a", since)
    behind = following.Following("http://a", since, lacks="1 end")
    with monkeypatch.context() as patched:
        patched.setenv("TZ", "AHEAD-5")
        time.tzset()
        words = [it.words for it in (well, behind, dataclasses.replace(behind, refused=["one", "two"]))]
    time.tzset()
    when = f"{time.strftime('%Y-%m-%d %H:%M:%S', time.gmtime(since + 300 * MINUTE))} (600 minutes ago)"
    assert words == [
        f"http://a has all that came until {when}",
        f"http://a is known to have all until {when}. What has come since: 1 end",
        "http://a is not the same any more: one; two",
    ]
    assert following.Following("http://a", time.time() + MINUTE).minutes == 0


def test_what_a_round_leaves(copy: pathlib.Path) -> None:
    before = following.Following("http://a", 1.0, lacks="1 end", refused=["once"])
    with open_copy(copy) as opened:
        has = following.held_by(opened)
        found = dataclasses.replace(before)
        found.caught_up(opened, Tally(new=1))
        assert found == following.Following("http://a", opened.taken, has)
        found.fell_behind(opened)
        assert found == following.Following("http://a", opened.taken, has, lacks="nothing")
        # (what it has otherwise is still so while it does not answer, and it is not known to have all)
        found.refused = ["once"]
        found.fell_behind(opened)
        assert found.refused == ["once"]
        before.caught_up(opened, Tally(refused={"why": ["returns/TV5/1"]}))
    assert before == following.Following("http://a", 1.0, refused=["refused, why: returns/TV5/1"])


def test_the_fronts_that_have_moved(copy: pathlib.Path) -> None:
    with open_copy(copy) as opened:
        has = following.held_by(opened)
    assert following.come_since(has, has) == ""
    before = {**has, "fronts": {**has["fronts"], quarter.ALPHA: "1", quarter.BETA: "7"}}
    words = following.come_since(before, has)
    assert words == f"fronts of 2 senders ({quarter.ALPHA} from 1 to {has['fronts'][quarter.ALPHA]} and others)"
    assert following.come_since(following.NOTHING, has).startswith(f"fronts of {len(has['fronts'])} senders (")
    # (a sender of whom no file is applied has not moved)
    assert following.come_since(following.NOTHING, {**following.NOTHING, "fronts": {quarter.ALPHA: "0"}}) == ""


def test_what_has_come_of_each_kind() -> None:
    one = {**following.NOTHING, "held": {quarter.ALPHA: ["2", "3"]}, "ends": 1, "returns": 1, "orders": 1}
    assert following.come_since(following.NOTHING, one) == "2 held numbers, 1 end, 1 return, 1 order"
    assert following.come_since(one, following.NOTHING) == ""
    # (2 is applied, and 5 has come)
    assert following.come_since(one, {**one, "held": {quarter.ALPHA: ["3", "5"]}, "returns": 3}) == "1 held number, 2 returns"


def test_what_an_older_copy_has(copy: pathlib.Path) -> None:
    with open_copy(copy) as opened:
        has = following.held_by(opened)
        assert has["ends"] == opened.row("SELECT count(*) FROM segment_ends")[0] > 0
    with changed(copy) as database:
        database.executescript("DROP TABLE mechanical_pools; DROP TABLE segment_ends; UPDATE office SET layout = 2")
    with open_copy(copy) as opened:
        older = following.held_by(opened)
    assert older["ends"] == 0 and older["fronts"] == has["fronts"] and older["returns"] == has["returns"]
    with changed(copy) as database:
        database.executescript(f"{DERIVED} UPDATE office SET layout = 1")
    with open_copy(copy) as opened, pytest.raises(OfficeError, match="is of layout 1, which has no credits"):
        following.held_by(opened)


def test_a_file_that_a_year_passes_over_is_held(program: str, folder: pathlib.Path) -> None:
    late, passed = (FIRST._replace(number=rank(year, 1), path=f"files/CW{year}0001RA_900.V22") for year in (27, 26))
    copy = made(program, Office(quarter.NAMES, [FIRST, End(FIRST.sender, -1, 1, 27), late, passed]), folder)
    with open_copy(copy) as opened:
        assert following.held_by(opened)["held"] == {FIRST.sender: ["26-0001"]}


def test_what_is_kept_is_of_one_standby(tmp_path: pathlib.Path) -> None:
    state = tmp_path / "state.json"
    following.Following("http://a", 1.0).keep(state)
    assert following.begun(state, "http://a").since == 1.0
    now = time.time()
    assert now <= following.begun(state, "http://b").since <= time.time()
    # What was kept stays whole until all of the next is written.
    os.link(state, tmp_path / "before.json")
    following.Following("http://a", 2.0).keep(state)
    assert (following.kept(tmp_path / "before.json").since, following.kept(state).since) == (1.0, 2.0)
    with pytest.raises(OfficeError, match="is not what `resend --state` keeps"):
        following.kept(tmp_path / "none.json")
    others = [{"fronts": {}}, *({"standby": "http://a", "since": it} for it in ("x", 1e30, None))]
    for text in ("none", "[]", *map(json.dumps, [*others, {"standby": "http://a", "since": 1.0, "has": [5]}])):
        state.write_text(text)
        with pytest.raises(OfficeError, match="is not what `resend --state` keeps"):
            following.kept(state)
    assert health.tried("standby", lambda: [look(state)])[0].state == WRONG


def test_what_the_standby_has_and_the_office_lost_is_told(copy: pathlib.Path, program: str, tmp_path: pathlib.Path) -> None:
    """What came meanwhile is in the next copy, and what is not there either the office has lost."""
    more = further(program, copy, [("/returns/RADIO1/6", b"isrc,plays,seconds\n")], tmp_path / "more.db")
    state = tmp_path / "state.json"
    with standing(program, tmp_path / "standby.db") as address:
        words = ["--to", address, "--since-fronts", "--state", state]
        run("resend", more, *words)
        assert "has all that came" in run("resend", copy, *words)
        assert look(state).state == GOOD
        assert "has all that came" in run("resend", more, *words) and "has all that came" in run("resend", copy, *words)
        said = run("resend", copy, *words, status=1, out=True)
        assert f"{address} has what the office has not: return RADIO1/6. The office has lost it" in said
        assert look(state).state == WRONG
        assert "has all that came" in run("resend", more, *words)
