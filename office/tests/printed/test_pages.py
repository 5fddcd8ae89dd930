"""Cells of CSV, pictures, percentages and times of the pages."""

import os
import pathlib
import re
import threading
import time

import pytest
from society_office.basics.plain_text import plain
from society_office.formats.numbering import PLAIN, Line
from society_office.printed import pages, pictures


@pytest.mark.parametrize("first", ["=", "+", "-", "@", "\t", "\r"])
def test_a_formula_gets_an_apostrophe(first: str) -> None:
    assert plain(f"{first}A") == f"'{first}A" and plain(f"A{first}") == f"A{first}"


def rectangles(picture: str) -> list[tuple[float, float, str, str]]:
    found = re.findall(r'<rect x="([\d.]+)" y="0" width="([\d.]+)" height="10" fill="(#\w+)"><title>([^<]*)<', picture)
    return [(float(left), float(width), colour, words) for left, width, colour, words in found]


def test_a_bar_is_as_long_as_its_parts() -> None:
    found = rectangles(pictures.bar({"paid": 600, "share": 0, "conflict": 100, "nobody": 300}))
    assert [it[:2] for it in found] == [(0, 600), (600, 100), (700, 300)]
    assert [it[2] for it in found] == [pictures.PARTS[it] for it in ("paid", "conflict", "nobody")]
    assert found[1][3] == "claimed by several: 100 units"
    assert rectangles(pictures.bar({"paid": 0})) == []
    assert [it[:2] for it in rectangles(pictures.single_bar(25, 100, "it"))] == [(0, 250)]


def test_a_strip_has_every_file() -> None:
    line = Line("PB000000012", 2, 1, {PLAIN: (5, 27)}, [1, 2, 4, 1_260_001, 1_270_001])
    found = rectangles(pictures.strip(line))
    assert [it[3] for it in found] == ["1 to 2 applied", "3 missing", "4 waits", "5 missing", "26-0001 never applied", "27-0001 waits"]
    assert [it[2] for it in found][:4] == [pictures.STATES[it] for it in ("applied", "missing", "waits", "missing")]
    unit = (pictures.WIDTH - 2 * pictures.GAP) / 7
    assert [it[1] for it in found] == [round(it * unit, 2) for it in (2, 1, 1, 1, 1, 1)]
    assert found[4][0] == round(5 * unit + pictures.GAP, 2)


@pytest.mark.parametrize("part, whole, said", [(1, 3, "33.3 %"), (2, 3, "66.7 %"), (1, 2000, "0.1 %"), (0, 0, "0.0 %"), (5, 5, "100.0 %")])
def test_percentages(part: int, whole: int, said: str) -> None:
    assert pages.percent(part, whole) == said


@pytest.mark.parametrize("zone, said", [("UTC", "2026-01-06 02:30 UTC"), ("Europe/Vienna", "2026-01-06 03:30 CET")])
def test_times_have_their_zone(zone: str, said: str, monkeypatch: pytest.MonkeyPatch) -> None:
    monkeypatch.setenv("TZ", {"UTC": "UTC", "Europe/Vienna": "CET-1CEST,M3.5.0,M10.5.0/3"}[zone])
    time.tzset()
    try:
        assert pages.moment(1_767_666_600) == said
    finally:
        monkeypatch.undo()
        time.tzset()


def test_a_link_stays_and_a_file_keeps_its_mode(tmp_path: pathlib.Path) -> None:
    kept, link = tmp_path / "kept.csv", tmp_path / "link.csv"
    kept.write_text("of before")
    kept.chmod(0o640)
    link.symlink_to("kept.csv")
    pages.write_text(link, "new")
    assert link.is_symlink() and kept.read_text() == "new" and kept.stat().st_mode & 0o777 == 0o640
    with pages.new_file(link) as file:
        file.write("newer")
    assert link.is_symlink() and kept.read_text() == "newer" and kept.stat().st_mode & 0o777 == 0o640
    assert sorted(tmp_path.iterdir()) == [kept, link]


def test_what_is_no_file_is_written_itself(tmp_path: pathlib.Path) -> None:
    # As /dev/null is, which would else be a file from then on.
    pipe, read = tmp_path / "pipe", list[str]()
    os.mkfifo(pipe)
    for _ in range(2):
        reader = threading.Thread(target=lambda: read.append(pipe.read_text()), daemon=True)
        reader.start()
        if read:
            with pages.new_file(pipe) as file:
                file.write("by lines")
        else:
            pages.write_bytes(pipe, b"by bytes")
        reader.join(60)
    assert read == ["by bytes", "by lines"] and pipe.is_fifo() and list(tmp_path.iterdir()) == [pipe]
