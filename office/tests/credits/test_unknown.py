"""What stations have played that no file names: by station and units, with what may be meant."""

import json
import pathlib

import pytest
from answers import rows_of
from command import run
from desk import ANNA, HOUSE, NAMES, OTHER, Desk, file, holder, work
from office_value import Pool, Return, Step
from society_office.credits.unknown import titles_in
from society_office.credits.unknown_output import COLUMNS

# Of W1, exchanged; of nobody and like W2; of a work that was rejected; of a file that waits.
EXCHANGED, LIKE, REJECTED, WAITS = "ATABC2600010", "DEXYZ2500002", "ATABC2600003", "ATABC2600004"
STEPS: list[Step] = [
    file(HOUSE, 1, work("W1", "ATABC2600001", holder(ANNA, 10_000)), work("W3", REJECTED, holder(ANNA, 10_001))),
    file(OTHER, 1, work("W2", "DEXYZ2600002", holder(ANNA, 10_000))),
    file(OTHER, 3, work("W4", WAITS, holder(ANNA, 10_000))),
    Return("RADIO1", 1, [("ATABC2600001", 1, 100), (EXCHANGED, 2, 50), (REJECTED, 1, 100)]),
    Return("RADIO1", 2, [("at-abc-26-00010", 1, 100), (WAITS, 1, 100)]),
    Return("RADIO2", 1, [(EXCHANGED, 1, 50), (LIKE, 5, 10)]),
    Return("RADIO2", 2, [(LIKE, 1, 7)]),
    Return("RADIO3", 1, [("ATABC2600001", 1, 100)]),
    Return("TV1", 1, [("ZZZZZ9900099", 1, 100)]),
    Pool(1, "PR", 601, {HOUSE: 1, OTHER: 1}, [("RADIO1", 1), ("RADIO1", 2), ("RADIO2", 1)]),
]
SAID = """\
RADIO1: 1 recording, 201 units to nobody
  ATABC2600010: 201 units, 3 plays, 200 points; RADIO1/1-2
    two characters exchanged: ATABC2600001 SONG W1, W1 of PB000000012 HOUSE MUSIC

RADIO2: 2 recordings, 100 units to nobody
  DEXYZ2500002: 50 units, 6 plays, 57 points; RADIO2/1-2
    another year: DEXYZ2600002 SONG W2, W2 of PB000000034 OTHER MUSIC
  ATABC2600010: 50 units, 1 play, 50 points; RADIO2/1
    two characters exchanged: ATABC2600001 SONG W1, W1 of PB000000012 HOUSE MUSIC

"""


@pytest.fixture
def desk(program: str, tmp_path: pathlib.Path) -> Desk:
    assert NAMES[HOUSE] == "HOUSE MUSIC"
    return Desk(program, tmp_path, *STEPS)


def test_what_no_file_names_is_told_by_station(desk: Desk, decided: pathlib.Path) -> None:
    (decided / "void.txt").write_text("TV1\n")
    # (601 units over 600 points: each recording has a unit for a point, and the last one goes by the greatest remainder)
    assert desk.run("unknown", out=True) == SAID
    told = json.loads(desk.run("unknown", "--format", "json", out=True))
    unclaimed = [it for it in json.loads(desk.run("unclaimed", "--format", "json", out=True)) if it["cause"] == "nobody has the recording"]
    assert sum(it["units"] for it in told) == sum(it["units"] for it in unclaimed) == 301
    (decided / "void.txt").write_text("")
    assert "TV1: 1 recording, 0 units to nobody\n  ZZZZZ9900099: 0 units, 1 play, 100 points; TV1/1\n" in desk.run("unknown", out=True)
    assert desk.run("unknown", "--station", "RADIO3", out=True) == "each recording that a station has played is in a file\n"


def test_a_station_can_be_sent_what_may_be_meant(desk: Desk, tmp_path: pathlib.Path) -> None:
    rows = rows_of(desk.run("unknown", "--station", "RADIO2", "--format", "csv", out=True))
    assert [list(it) for it in rows] == [COLUMNS] * 2 and {it["station"] for it in rows} == {"RADIO2"}
    [like] = [it for it in rows if it["isrc"] == LIKE]
    wanted = ["RADIO2/1-2", "6", "57", "50", "another year", "DEXYZ2600002", "SONG W2", "W2", "PB000000034 OTHER MUSIC"]
    assert [like[it] for it in ("returns", "plays", "points", "units", "how", "likely", "likely_title", "work", "publisher")] == wanted
    desk.run("unknown", "--station", "TV1", "--format", "csv", "--output", tmp_path / "tv.csv")
    [row] = rows_of((tmp_path / "tv.csv").read_text())
    assert (row["isrc"], row["how"], row["likely"]) == ("ZZZZZ9900099", "", "")


@pytest.mark.parametrize("parting", [",", ";", "\t"])
def test_works_are_looked_for_by_the_title_of_a_station(desk: Desk, tmp_path: pathlib.Path, parting: str) -> None:
    lines = ["ISRC,plays,seconds,Title", "ZZ-ZZZ-99-00099,1,100,Song w2", f"{LIKE},1,1,nowhere", "ATABC2600010,1,1"]
    (tmp_path / "tv.csv").write_text("\n".join(lines).replace(",", parting))
    said = desk.run("unknown", "--station", "TV1", "--titles", tmp_path / "tv.csv", out=True)
    assert said.endswith(
        "  ZZZZZ9900099 Song w2: 0 units, 1 play, 100 points; TV1/1\n    the title: SONG W2, W2 of PB000000034 OTHER MUSIC\n\n"
    )
    assert titles_in(tmp_path / "tv.csv") == {"ZZZZZ9900099": "Song w2", LIKE: "nowhere"}
    (tmp_path / "tv.csv").write_text("isrc,plays,seconds\n")
    assert "has no columns isrc and title in its first line" in desk.run("unknown", "--titles", tmp_path / "tv.csv", status=1)


def test_check_says_what_a_column_of_titles_is_good_for(program: str, tmp_path: pathlib.Path) -> None:
    (tmp_path / "radio.csv").write_text("isrc,plays,seconds,title\nATABC2600001,1,1,A SONG\n")
    said = run("check", tmp_path / "radio.csv", status=1, out=True)
    assert "works are found by a column title with `society-office unknown COPY --titles FILE`" in said
