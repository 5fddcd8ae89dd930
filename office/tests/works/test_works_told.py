"""What is told of works that were found: as lines, as CSV and as JSON, whole."""

import json
import pathlib

import pytest
import quarter
from answers import rows_of
from click.testing import CliRunner
from command import run
from conftest import made
from cwr import Party, Row
from desk import HOUSE, file, work
from office_value import Office
from society_office.commands.cli import main
from society_office.works.registered_works import Version
from society_office.works.work_search_output import COLUMNS

FIRST = """\
FIRST SONG (LIVE), A1 of PB000000012 ALPHA MUSIC
  recordings  ATABC2600001, ATABC2600004
  holders     I00000000199 ALPHA MUSIC, publisher: 0 % of the PR, 100 % of the MR
              I00000000295 ANNA WRITER, writer: 100 % of the PR, 0 % of the MR
  versions    file 1 of 2026-01-05, registration: accepted (FIRST SONG)
              file 2 of 2026-01-05, revision 1: accepted
              file 3 of 2026-01-05, registration: rejected, fault 20: an NWR of a work that is registered (FIRST SONG)
  credited    pool 1, PR: 231,428 units
              pool 2, MR: 19,828 units
              pool 3, PR: 2,248,860 units
"""
WAITS = """\
WAITS FOR TWO, G3 of PB000000056 GAMMA SONGS
  recordings  GBGAM2600003
  holders     I00000000477 FAR AWAY MUSIC, publisher: 0 % of the PR, 0 % of the MR
              PPB000000056B/7 BORIS COMPOSER, writer: 50 % of the PR, 0 % of the MR
  versions    file 3 of 2026-01-05, registration: waits
  credited    nothing
"""
HALF = """\
HALF IS NOBODY'S, E1 of PB000000090 EPSILON
  recordings  FREPS2600001
  holders     I00000000555 ÖDÖN ÄRGER, writer: 0 % of the PR, 0 % of the MR
              I00000000295 ANNA WRITER, writer: 50 % of the PR, 0 % of the MR
  versions    file 1 of 2026-01-05, registration: accepted
  credited    pool 1, PR: 128,096 units, 64,048 of them to nobody
              pool 2, MR: 8,212 units, 8,212 of them to nobody
"""


def test_works_in_lines(copy: pathlib.Path) -> None:
    assert run("works", copy, "first", "anna") == f"{FIRST}\n1 work\n"
    assert run("works", copy, "waits") == f"{WAITS}\n1 work\n"
    assert run("works", copy, "nobody") == f"{HALF}\n1 work\n"
    assert run("works", copy, "nowhere") == "0 works\n"
    assert run("works", copy, "first").count("\n\n") == 1


def test_no_more_works_are_shown_than_are_asked_for(copy: pathlib.Path) -> None:
    said = run("works", copy, "PB0000000", "--most", 2)
    assert said.endswith("\n2 of 18 works, 16 more: ask for more of its words, or give `--most 18`\n") and said.count(" of PB0000000") == 2
    assert run("works", copy, "--most", 18).endswith("\n18 works\n") and run("works", copy).endswith("\n18 works\n")
    for form in ("csv", "json"):
        ended = CliRunner(mix_stderr=False).invoke(main, ["works", str(copy), "song", "--most", "1", "--format", form])
        assert ended.stderr == "society-office: 2 more works: give `--most 3`\n" and "=SECOND <SONG>" in ended.stdout
        assert "FIRST" not in ended.stdout and "GAMMA" not in ended.stdout
    ended = CliRunner(mix_stderr=False).invoke(main, ["works", str(copy), "song", "--most", "3", "--format", "csv"])
    assert ended.stderr == "" and {it["work"] for it in rows_of(ended.stdout)} == {"A1", "A2", "G1"}
    assert "0 is not in the range" in run("works", copy, "song", "--most", 0, status=2)


def test_works_as_csv(copy: pathlib.Path, tmp_path: pathlib.Path) -> None:
    run("works", copy, "first", "--format", "csv", "--output", tmp_path / "found.csv")
    rows = rows_of((tmp_path / "found.csv").read_text())
    assert [list(it) for it in rows] == [COLUMNS] * 10
    own = {"sender": quarter.ALPHA, "sender_name": "ALPHA MUSIC", "work": "A1", "title": "FIRST SONG (LIVE)", "iswc": ""}
    assert all({name: it[name] for name in own} == own for it in rows)
    means = "an NWR of a work that is registered"
    sent = {"what": "version", "day": "2026-01-05"}
    assert [{name: cell for name, cell in it.items() if cell and name not in own} for it in rows] == [
        {"what": "recording", "isrc": "ATABC2600001"},
        {"what": "recording", "isrc": "ATABC2600004"},
        {"what": "holder", "account": "I00000000199", "name": "ALPHA MUSIC", "side": "publisher", "pr": "0", "mr": "10000"},
        {"what": "holder", "account": "I00000000295", "name": "ANNA WRITER", "side": "writer", "pr": "10000", "mr": "0"},
        sent | {"file": "1", "kind": "registration", "revision": "0", "state": "accepted", "fault": "0", "sent_title": "FIRST SONG"},
        sent | {"file": "2", "kind": "revision", "revision": "1", "state": "accepted", "fault": "0", "sent_title": "FIRST SONG (LIVE)"},
        sent
        | {"file": "3", "kind": "registration", "revision": "0", "state": "rejected", "fault": "20", "means": means}
        | {"sent_title": "FIRST SONG"},
        {"what": "credited", "pool": "1", "right": "PR", "units": "231428", "unclaimed": "0"},
        {"what": "credited", "pool": "2", "right": "MR", "units": "19828", "unclaimed": "0"},
        {"what": "credited", "pool": "3", "right": "PR", "units": "2248860", "unclaimed": "0"},
    ]


def test_a_title_is_no_formula(copy: pathlib.Path) -> None:
    rows = rows_of(run("works", copy, "=second", "--format", "csv"))
    assert {(it["work"], it["title"]) for it in rows} == {("A2", "'=SECOND <SONG>")}
    assert json.loads(run("works", copy, "=second", "--format", "json"))["works"][0]["title"] == "=SECOND <SONG>"


def test_the_iswc_is_that_of_the_last_version(program: str, tmp_path: pathlib.Path) -> None:
    anna = Party("SWR", "A1", "WRITER", "00000000295", ("05000",) * 3, (Row(("05000",) * 3),))
    song = work("W1", "ATABC2600001", anna)
    with_iswc = file(HOUSE, 1, song.__class__("NWR", "W1", "SONG W1", ("ATABC2600001",), (anna,), 0, "T0345246801"))
    copy = made(program, Office({HOUSE: "X"}, [with_iswc]), tmp_path)
    for words in ("T-034.524.680-1", "t0345", "T0345246801"):
        assert run("works", copy, words).startswith("SONG W1, W1 of PB000000012 X, T0345246801\n")
    assert run("works", copy, "0345246801") == "0 works\n"


@pytest.mark.parametrize("state", ["accepted", "rejected", "waits", "never applied"])
def test_what_a_work_is_now(state: str) -> None:
    from society_office.works.registered_works import Work

    def version(number: int, became: str) -> Version:
        return Version(number, "2026-01-05", "NWR", became, 0, 0, f"T{number}", "", [], [])

    every = Work(HOUSE, "", "W1", [version(1, "accepted"), version(2, "accepted"), version(3, state)], [])
    assert every.now.title == ("T3" if state == "accepted" else "T2")
    assert Work(HOUSE, "", "W1", [version(1, "rejected"), version(2, "waits")], []).now.title == "T2"
